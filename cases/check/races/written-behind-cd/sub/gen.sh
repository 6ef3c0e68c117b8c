echo '#define WORD "hello"'

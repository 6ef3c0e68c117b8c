all: a b
a: ; false
b: ; echo b > b

greet.o: greet.c greet.h

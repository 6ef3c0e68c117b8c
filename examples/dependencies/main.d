main.o: main.c greet.h

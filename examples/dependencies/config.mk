# what this machine has
CC = cc
OBJECTS = main.o greet.o
CFLAGS ?= -O1

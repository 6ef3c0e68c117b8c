# The default rules of POSIX.1-2024 make (XCU make, "Default Rules"): the base makefile of `race .. --posix-base`.
# The commands are never read by race; they stand here so that a make can run this file too.
#
# Left out, since race does not read it: the rules and suffixes of SCCS files (.c~ .y~ .l~ .sh~) with the macros GET,
# GFLAGS, SCCSFLAGS and SCCSGETFLAGS. Members of archives, lib(member), are not read either: the rule .c.a stands here
# for plain names alone. POSIX.1-2024 has no Fortran compiler, so there are no rules of .f.
#
# Inference takes one step: prog comes from prog.c if that is listed or a target, but not by way of a prog.c that
# would first be made from prog.y.

# suffixes and macros

.SUFFIXES: .o .c .y .l .a .sh

MAKE=make
AR=ar
ARFLAGS=-rv
YACC=yacc
YFLAGS=
LEX=lex
LFLAGS=
LDFLAGS=
CC=c17
CFLAGS=-O 1

# single suffix rules

.c:
	$(CC) $(CFLAGS) $(LDFLAGS) -o $@ $<

.sh:
	cp $< $@
	chmod a+x $@

# double suffix rules

.c.o:
	$(CC) $(CFLAGS) -c $<

.y.o:
	$(YACC) $(YFLAGS) $<
	$(CC) $(CFLAGS) -c y.tab.c
	rm -f y.tab.c
	mv y.tab.o $@

.l.o:
	$(LEX) $(LFLAGS) $<
	$(CC) $(CFLAGS) -c lex.yy.c
	rm -f lex.yy.c
	mv lex.yy.o $@

.y.c:
	$(YACC) $(YFLAGS) $<
	mv y.tab.c $@

.l.c:
	$(LEX) $(LFLAGS) $<
	mv lex.yy.c $@

.c.a:
	$(CC) -c $(CFLAGS) $<
	$(AR) $(ARFLAGS) $@ $*.o
	rm -f $*.o

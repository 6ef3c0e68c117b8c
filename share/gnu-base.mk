# The built-in rules of GNU make 4.3, as far as the language of race can say them: the base makefile of a build by GNU make.
#
#     race check --base share/gnu-base.mk ..
#
# The commands are never read by race. They stand here so that a make can run this file too. tests/gnu-base compares suffixes,
# rules and commands with what the make of the machine prints by `make -p`.
#
# What race cannot say, and what to do where a build needs it:
#
# - Chains. GNU make makes prog from prog.y by way of a prog.c that nobody names. race takes one step. Name the file in between,
#   by a line without commands: `prog.c: prog.y`. Then .c makes prog, and .y.c makes prog.c.
# - A source that only stands among prerequisites. For `prog: prog.o util.o` GNU make takes prog.o, which it can make, and race
#   takes prog.c: here a source is listed or a target. The prerequisites are the same and prog.c besides. A line `prog.o: prog.c`
#   makes prog.o a target.
# - Rules of two sources: `%.c: %.w %.ch` and `%.tex: %.w %.ch`. The change file has no rule of its own here. Write it as a
#   prerequisite: `prog.c: prog.w prog.ch`.
# - `%.out: %`, which copies a file that has no suffix. Write the rule for its target.
# - Members of archives, `lib.a(member.o)`: no word holds a parenthesis.
# - Files of RCS and SCCS, which are fetched where they are missing. Fetch them before the build.
# - Libraries, `-lNAME` as a prerequisite, for which GNU make searches folders. Name the file.
#
# A macro that the environment sets, such as CC, takes the place of one here in GNU make. race reads no environment: hand it in
# as an operand, `CC=clang`. That matters only where a target or a prerequisite has the macro in it.

# suffixes and macros

.SUFFIXES: .out .a .ln .o .c .cc .C .cpp .p .f .F .m .r .y .l .ym .yl .s .S .mod .sym .def .h .info .dvi .tex \
  .texinfo .texi .txinfo .w .ch .web .sh .elc .el

AR = ar
ARFLAGS = rv
AS = as
CC = cc
COMPILE.C = $(COMPILE.cc)
COMPILE.F = $(FC) $(FFLAGS) $(CPPFLAGS) $(TARGET_ARCH) -c
COMPILE.S = $(CC) $(ASFLAGS) $(CPPFLAGS) $(TARGET_MACH) -c
COMPILE.c = $(CC) $(CFLAGS) $(CPPFLAGS) $(TARGET_ARCH) -c
COMPILE.cc = $(CXX) $(CXXFLAGS) $(CPPFLAGS) $(TARGET_ARCH) -c
COMPILE.cpp = $(COMPILE.cc)
COMPILE.def = $(M2C) $(M2FLAGS) $(DEFFLAGS) $(TARGET_ARCH)
COMPILE.f = $(FC) $(FFLAGS) $(TARGET_ARCH) -c
COMPILE.m = $(OBJC) $(OBJCFLAGS) $(CPPFLAGS) $(TARGET_ARCH) -c
COMPILE.mod = $(M2C) $(M2FLAGS) $(MODFLAGS) $(TARGET_ARCH)
COMPILE.p = $(PC) $(PFLAGS) $(CPPFLAGS) $(TARGET_ARCH) -c
COMPILE.r = $(FC) $(FFLAGS) $(RFLAGS) $(TARGET_ARCH) -c
COMPILE.s = $(AS) $(ASFLAGS) $(TARGET_MACH)
CPP = $(CC) -E
CTANGLE = ctangle
CWEAVE = cweave
CXX = g++
F77 = $(FC)
F77FLAGS = $(FFLAGS)
FC = f77
LD = ld
LEX = lex
LEX.l = $(LEX) $(LFLAGS) -t
LEX.m = $(LEX) $(LFLAGS) -t
LINK.C = $(LINK.cc)
LINK.F = $(FC) $(FFLAGS) $(CPPFLAGS) $(LDFLAGS) $(TARGET_ARCH)
LINK.S = $(CC) $(ASFLAGS) $(CPPFLAGS) $(LDFLAGS) $(TARGET_MACH)
LINK.c = $(CC) $(CFLAGS) $(CPPFLAGS) $(LDFLAGS) $(TARGET_ARCH)
LINK.cc = $(CXX) $(CXXFLAGS) $(CPPFLAGS) $(LDFLAGS) $(TARGET_ARCH)
LINK.cpp = $(LINK.cc)
LINK.f = $(FC) $(FFLAGS) $(LDFLAGS) $(TARGET_ARCH)
LINK.m = $(OBJC) $(OBJCFLAGS) $(CPPFLAGS) $(LDFLAGS) $(TARGET_ARCH)
LINK.o = $(CC) $(LDFLAGS) $(TARGET_ARCH)
LINK.p = $(PC) $(PFLAGS) $(CPPFLAGS) $(LDFLAGS) $(TARGET_ARCH)
LINK.r = $(FC) $(FFLAGS) $(RFLAGS) $(LDFLAGS) $(TARGET_ARCH)
LINK.s = $(CC) $(ASFLAGS) $(LDFLAGS) $(TARGET_MACH)
LINT = lint
LINT.c = $(LINT) $(LINTFLAGS) $(CPPFLAGS) $(TARGET_ARCH)
M2C = m2c
MAKE = make
MAKEINFO = makeinfo
OBJC = cc
OUTPUT_OPTION = -o $@
PC = pc
PREPROCESS.F = $(FC) $(FFLAGS) $(CPPFLAGS) $(TARGET_ARCH) -F
PREPROCESS.S = $(CC) -E $(CPPFLAGS)
PREPROCESS.r = $(FC) $(FFLAGS) $(RFLAGS) $(TARGET_ARCH) -F
RM = rm -f
TANGLE = tangle
TEX = tex
TEXI2DVI = texi2dvi
WEAVE = weave
YACC = yacc
YACC.m = $(YACC) $(YFLAGS)
YACC.y = $(YACC) $(YFLAGS)

# single suffix rules

.o:
	$(LINK.o) $^ $(LOADLIBES) $(LDLIBS) -o $@

.c:
	$(LINK.c) $^ $(LOADLIBES) $(LDLIBS) -o $@

.cc:
	$(LINK.cc) $^ $(LOADLIBES) $(LDLIBS) -o $@

.C:
	$(LINK.C) $^ $(LOADLIBES) $(LDLIBS) -o $@

.cpp:
	$(LINK.cpp) $^ $(LOADLIBES) $(LDLIBS) -o $@

.p:
	$(LINK.p) $^ $(LOADLIBES) $(LDLIBS) -o $@

.f:
	$(LINK.f) $^ $(LOADLIBES) $(LDLIBS) -o $@

.F:
	$(LINK.F) $^ $(LOADLIBES) $(LDLIBS) -o $@

.m:
	$(LINK.m) $^ $(LOADLIBES) $(LDLIBS) -o $@

.r:
	$(LINK.r) $^ $(LOADLIBES) $(LDLIBS) -o $@

.s:
	$(LINK.s) $^ $(LOADLIBES) $(LDLIBS) -o $@

.S:
	$(LINK.S) $^ $(LOADLIBES) $(LDLIBS) -o $@

.mod:
	$(COMPILE.mod) -o $@ -e $@ $^

.sh:
	cat $< >$@
	chmod a+x $@

# double suffix rules

.c.ln:
	$(LINT.c) -C$* $<

.c.o:
	$(COMPILE.c) $(OUTPUT_OPTION) $<

.cc.o:
	$(COMPILE.cc) $(OUTPUT_OPTION) $<

.C.o:
	$(COMPILE.C) $(OUTPUT_OPTION) $<

.cpp.o:
	$(COMPILE.cpp) $(OUTPUT_OPTION) $<

.p.o:
	$(COMPILE.p) $(OUTPUT_OPTION) $<

.f.o:
	$(COMPILE.f) $(OUTPUT_OPTION) $<

.F.o:
	$(COMPILE.F) $(OUTPUT_OPTION) $<

.F.f:
	$(PREPROCESS.F) $(OUTPUT_OPTION) $<

.m.o:
	$(COMPILE.m) $(OUTPUT_OPTION) $<

.r.o:
	$(COMPILE.r) $(OUTPUT_OPTION) $<

.r.f:
	$(PREPROCESS.r) $(OUTPUT_OPTION) $<

.y.ln:
	$(YACC.y) $<
	$(LINT.c) -C$* y.tab.c
	$(RM) y.tab.c

.y.c:
	$(YACC.y) $<
	mv -f y.tab.c $@

.l.ln:
	@$(RM) $*.c
	$(LEX.l) $< > $*.c
	$(LINT.c) -i $*.c -o $@
	$(RM) $*.c

.l.c:
	@$(RM) $@
	$(LEX.l) $< > $@

.l.r:
	$(LEX.l) $< > $@
	mv -f lex.yy.r $@

.ym.m:
	$(YACC.m) $<
	mv -f y.tab.c $@

.s.o:
	$(COMPILE.s) -o $@ $<

.S.o:
	$(COMPILE.S) -o $@ $<

.S.s:
	$(PREPROCESS.S) $< > $@

.mod.o:
	$(COMPILE.mod) -o $@ $<

.def.sym:
	$(COMPILE.def) -o $@ $<

.tex.dvi:
	$(TEX) $<

.texinfo.info:
	$(MAKEINFO) $(MAKEINFO_FLAGS) $< -o $@

.texinfo.dvi:
	$(TEXI2DVI) $(TEXI2DVI_FLAGS) $<

.texi.info:
	$(MAKEINFO) $(MAKEINFO_FLAGS) $< -o $@

.texi.dvi:
	$(TEXI2DVI) $(TEXI2DVI_FLAGS) $<

.txinfo.info:
	$(MAKEINFO) $(MAKEINFO_FLAGS) $< -o $@

.txinfo.dvi:
	$(TEXI2DVI) $(TEXI2DVI_FLAGS) $<

.w.c:
	$(CTANGLE) $< - $@

.w.tex:
	$(CWEAVE) $< - $@

.web.p:
	$(TANGLE) $<

.web.tex:
	$(WEAVE) $<

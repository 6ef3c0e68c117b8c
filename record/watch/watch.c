/* In GNU make, while a build is recorded: says what make does, in a file of its own, and changes nothing else.

   GNU make shows its own names to objects that it loads. So this library finds make's level of debug words, raises it when make has
   read its options, and takes the lines that come of it out of what make prints. It is at work in make alone: in other programs, in a
   make without these names and in one that only answers, each function here does what that of the C library does.

   A life of a make has a file, SAID/PID.LIFE.make, where SAID lies beside this library. It holds

     MAKE, ARG, ENV      how make was called, its words, its environment, a line each
     CWD                 the folder in which it began
     SAYS                its version, where it says from here on what it does
     ASKS                else the flag of make by which it only answers; of a makefile that lets it print its own words, from there on
     lines of make       what it considers, and what it does with jobs, in English
     GLOB, DEAF          a pattern that it looks for; or nobody hears these, as make has a `glob` of its own
     # Make data base .. what `make -p` prints: at its end, and before it begins again
     EXIT                its status

   Where a limit on the size of files does not let it write more, SAID/PID.LIFE.make.cut is there. */

#define _GNU_SOURCE
#include <dlfcn.h>
#include <errno.h>
#include <fcntl.h>
#include <getopt.h>
#include <glob.h>
#include <link.h>
#include <signal.h>
#include <stdarg.h>
#include <stdint.h>
#include <stdio.h>
#include <stdlib.h>
#include <string.h>
#include <sys/resource.h>
#include <unistd.h>

enum { RAISED = 0x107, HIGH = 900, LONGEST = 4096, REMEMBERED = 16, DEEPEST = 1000 };

extern char **environ;
extern int __vfprintf_chk(FILE *, int, const char *, va_list);
extern void hold_after(const char *), hold_child(const char *, char *const[]); /* hold.c */

static FILE *said;          /* the file of this make; NULL in other programs */
static int number;          /* its descriptor */
static int *level;          /* make's level of debug words */
static int is_raised;       /* make says what it considers */
static int is_base;         /* the data base is being printed */
static int is_open;         /* make has begun a line for people, and not ended it */
static int is_cut;          /* a limit does not let the file grow */
static int depth;           /* so many blanks make has put before a word */
static int rounds;          /* so often it has begun to update targets */
static int own;             /* the process: a child of make is another one */
static char place[LONGEST]; /* the path of the file, without `make` at its end */
static char *low, *high;    /* where make itself lies: what an object prints that make has loaded is none of its words */

#define NEXT(name) ((__typeof__(&name))dlsym(RTLD_NEXT, #name)) /* that of the C library */
#define CALLER __builtin_return_address(0)
#define FROM_MAKE (said && (char *)CALLER >= low && (char *)CALLER < high)

/* ---- the file */

/* Writes all bytes to the end of a file; whether that could be done. A limit on the size of files, that which make
   began with, is raised meanwhile, as far as it may be. */
static int put_bytes(int file, const char *text, size_t size) {
  static struct rlimit old = {0, 0};
  struct rlimit now = {RLIM_INFINITY, RLIM_INFINITY};
  size_t at = 0;
  if (!old.rlim_max) getrlimit(RLIMIT_FSIZE, &old);
  if (old.rlim_cur != RLIM_INFINITY && setrlimit(RLIMIT_FSIZE, &now)) {
    now.rlim_cur = now.rlim_max = old.rlim_max;
    setrlimit(RLIMIT_FSIZE, &now);
  }
  while (at < size && (now.rlim_cur == RLIM_INFINITY || lseek(file, 0, SEEK_END) + (off_t)(size - at) <= (off_t)now.rlim_cur)) {
    ssize_t done = write(file, text + at, size - at);
    if (done < 0 && errno != EINTR) break;
    at += done < 0 ? 0 : done;
  }
  if (old.rlim_cur != RLIM_INFINITY) setrlimit(RLIMIT_FSIZE, &old);
  return at == size;
}

static ssize_t keep(void *cookie, const char *text, size_t size) {
  char path[LONGEST + 16];
  int before = errno;
  (void)cookie;
  if (getpid() == own && !is_cut && !put_bytes(number, text, size)) {
    is_cut = 1;
    snprintf(path, sizeof path, "%smake.cut", place);
    close(open(path, O_CREAT | O_WRONLY | O_CLOEXEC, 0600));
  }
  errno = before;
  return size;
}

/* A line with a text in which newlines are `\n`. */
static void put_line(const char *key, const char *text) {
  fputs_unlocked(key, said);
  fputc_unlocked(' ', said);
  for (; *text; text++)
    if (*text == '\n' || *text == '\\') fprintf(said, "\\%c", *text == '\n' ? 'n' : '\\');
    else fputc_unlocked(*text, said);
  fputc_unlocked('\n', said);
}

/* Opens the file of this life; where make begins again, that of the last one. */
static int open_file(const char *folder) {
  int fd = -1, again = getenv("MAKE_RESTARTS") != NULL;
  char path[LONGEST + 8], last[LONGEST + 8] = "";
  for (int life = 0; fd < 0; life++) {
    snprintf(place, sizeof place, "%ssaid/%d.%d.", folder, own, life);
    snprintf(path, sizeof path, "%smake", place);
    if (again && *last && access(path, F_OK)) {
      snprintf(place, sizeof place, "%.*s", (int)strlen(last) - 4, last);
      return open(last, O_WRONLY | O_APPEND | O_CLOEXEC);
    }
    strcpy(last, path);
    if (again && !access(path, F_OK)) continue;
    fd = open(path, O_WRONLY | O_CREAT | O_EXCL | O_APPEND | O_CLOEXEC, 0600);
    if (fd < 0 && errno != EEXIST) return -1;
  }
  return fd;
}

/* ---- the end of make */

/* The data base, by the functions of `make -p`. */
static void put_base(void) {
  static const char *const parts[] = {"print_variable_data_base", "print_file_data_base"};
  FILE *real = stdout;
  if (!is_raised || *level < RAISED || getpid() != own) return; /* a signal may have lowered the level: then make has not said all */
  fputs_unlocked("# Make data base, printed on\n", said);
  stdout = said;
  is_base = 1;
  for (size_t at = 0; at < sizeof parts / sizeof *parts; at++) {
    void (*part)(void) = (void (*)(void))dlsym(RTLD_DEFAULT, parts[at]);
    if (part) part();
  }
  is_base = 0;
  stdout = real;
  fputs_unlocked("\n# Finished Make data base on\n", said);
  fflush_unlocked(said);
}

static void end(int status) {
  put_base();
  if (!said || getpid() != own) return;
  fprintf(said, "EXIT %d\n", status);
  fflush_unlocked(said);
}

void exit(int status) {
  fflush(stdout);
  end(status);
  NEXT(exit)(status);
  __builtin_unreachable();
}

/* Nobody reads what make prints: that ends it in the middle of a write. */
static void end_unread(int number_of_signal) {
  end(128 + number_of_signal);
  signal(number_of_signal, SIG_DFL);
  raise(number_of_signal);
}

/* Make begins again, or is a job, which is another process. */
int execvp(const char *file, char *const words[]) {
  put_base();
  if (said && getpid() != own) hold_child(file, words);
  return NEXT(execvp)(file, words);
}

/* ---- the begin of make */

static int range(struct dl_phdr_info *info, size_t size, void *data) {
  (void)size, (void)data;
  for (int at = 0; at < info->dlpi_phnum; at++) {
    const ElfW(Phdr) *part = &info->dlpi_phdr[at];
    char *first = (char *)info->dlpi_addr + part->p_vaddr, *end = first + part->p_memsz;
    if (part->p_type != PT_LOAD) continue;
    low = !low || first < low ? first : low;
    high = end > high ? end : high;
  }
  return 1; /* the program itself is the first of all */
}

__attribute__((constructor)) static void begin(int argc, char **argv) {
  Dl_info here;
  char folder[LONGEST - 64], cwd[LONGEST] = "";
  level = dlsym(RTLD_DEFAULT, "db_level");
  if (!level || !dlsym(RTLD_DEFAULT, "new_job") || !dladdr((void *)begin, &here)) return;
  const char *end = strrchr(here.dli_fname, '/');
  if (!end || end - here.dli_fname + 2 > (long)sizeof folder) return;
  snprintf(folder, sizeof folder, "%.*s", (int)(end - here.dli_fname + 1), here.dli_fname);
  own = getpid();
  int fd = open_file(folder), before = errno;
  if (fd < 0) return;
  number = -1;
  for (int at = HIGH; number < 0 && at > 2; at /= 2) number = fcntl(fd, F_DUPFD_CLOEXEC, at);
  close(fd);
  if (number < 0 || !(said = fopencookie(NULL, "w", (cookie_io_functions_t){.write = keep}))) return;
  dl_iterate_phdr(range, NULL);
  put_line("MAKE", argv[0] ? argv[0] : "");
  for (int at = 1; at < argc; at++) put_line("ARG", argv[at]);
  for (char **one = environ; *one; one++) put_line("ENV", *one);
  put_line("CWD", getcwd(cwd, sizeof cwd) ? cwd : "");
  fflush_unlocked(said);
  if (signal(SIGPIPE, end_unread) != SIG_DFL) signal(SIGPIPE, SIG_IGN);
  errno = before;
}

static void raise_level(void) {
  static const char *const asking[] = {"just_print_flag", "question_flag", "touch_flag", "print_data_base_flag", "db_level"};
  static int is_known;
  if (!said || is_known++) return;
  for (size_t at = 0; at < sizeof asking / sizeof *asking; at++) {
    int *flag = dlsym(RTLD_DEFAULT, asking[at]);
    if (!flag || !*flag) continue;
    put_line("ASKS", asking[at]);
    fflush_unlocked(said);
    return;
  }
  const char **version = dlsym(RTLD_DEFAULT, "version_string");
  put_line("SAYS", version ? *version : "");
  char *own_glob = dlsym(RTLD_DEFAULT, "glob");
  if (own_glob >= low && own_glob < high) put_line("DEAF", "");
  is_raised = 1;
  *level = RAISED;
}

int sigaction(int which, const struct sigaction *now, struct sigaction *old) {
  if (which == SIGUSR1) raise_level(); /* make has read its options, and printed its version where they ask for it */
  return NEXT(sigaction)(which, now, old);
}

/* Make reads the options of a makefile, too. Where they let it print its own words, it is asked no more, and all that it prints is for people. */
int getopt_long(int count, char *const words[], const char *letters, const struct option *names, int *at) {
  int found = NEXT(getopt_long)(count, words, letters, names, at);
  if (!is_raised) return found;
  while (names->name && names->val != found) names++;
  const char *name = names->name ? names->name : "";
  if (strchr("dpv", found) || !strcmp(name, "debug") || (!strcmp(name, "trace") && !dlsym(RTLD_DEFAULT, "trace_flag"))) {
    is_raised = *level = 0;
    put_line("ASKS", "db_level");
  }
  return found;
}

/* ---- what make prints */

static struct { const char *shown, *english; } spoken[REMEMBERED];

char *dcgettext(const char *domain, const char *english, int category) {
  static int at;
  char *shown = NEXT(dcgettext)(domain, english, category);
  if (is_raised && shown != english) {
    spoken[at % REMEMBERED].shown = shown;
    spoken[at++ % REMEMBERED].english = english;
  }
  return shown;
}

/* What a text is in English, in which the file is written. */
static const char *in_english(const char *text) {
  for (int at = 0; at < REMEMBERED; at++)
    if (spoken[at].shown == text) return spoken[at].english;
  return text;
}

/* Make's own words go to its file: whole lines by printf, puts and putchar. What is for people it prints by fputs and fwrite. */
static int is_word(int from_make) {
  return is_raised && from_make && (!is_open || is_base);
}

/* Such a word was written. Who holds recipes reads at once what make says of its children. */
static void end_word(const char *format) {
  if (!is_base && strstr(format, " child ")) fflush_unlocked(said);
}

static void note_text(int from_make, FILE *file, const char *text, size_t size) {
  if (!is_raised || is_base || !from_make || file != stdout || !size) return;
  is_open = text[size - 1] != '\n';
}

/* Whether this is new, of what has been said last. */
static int is_new(uint64_t sum) {
  static uint64_t sums[1 << 16];
  uint64_t *known = &sums[sum >> 48], last = *known;
  *known = sum;
  return last != sum;
}

static uint64_t sum_of(uint64_t sum, const char *text) { /* FNV-1a */
  for (; *text; text++) sum = (sum ^ (unsigned char)*text) * 0x100000001b3;
  return sum;
}

/* Whether make has said this before: whenever a child ends it goes over its targets again, and over the children that live. What a target
   that is new stands below is written once more. */
static int is_repeated(const char *format, va_list words) {
  static struct { char *line; int depth, is_written; } above[DEEPEST]; /* the targets that make looks at */
  static int count;
  int is_child = !strncmp(format, "Live child ", 11);
  int is_target = !strncmp(format, "Considering target ", 19) || !strncmp(format, "Pruning file ", 13) || strstr(format, " was considered already.");
  char *line;
  va_list copy;
  if (!strncmp(format, "Still updating ", 15)) return 1; /* nobody reads it */
  if (!is_child && !is_target) return 0;
  va_copy(copy, words);
  int size = vasprintf(&line, format, copy);
  va_end(copy);
  if (size < 0) return 0;
  uint64_t sum = sum_of(0xcbf29ce484222325 + rounds, line);
  if (is_child) return free(line), !is_new(sum);
  while (count && (count == DEEPEST || above[count - 1].depth >= depth)) free(above[--count].line);
  if (count) sum = sum_of(sum, above[count - 1].line);
  above[count].line = line, above[count].depth = depth, above[count].is_written = is_new(sum);
  for (int at = 0; above[count].is_written && at < count; at++) {
    if (!above[at].is_written) fprintf(said, "%*s%s", above[at].depth, "", above[at].line);
    above[at].is_written = 1;
  }
  return !above[count++].is_written;
}

static void put_blanks(void) {
  for (; depth; depth--) fputc_unlocked(' ', said);
}

static int print(int from_make, int flag, const char *format, va_list words) {
  if (!is_word(from_make)) return flag < 0 ? vfprintf(stdout, format, words) : __vfprintf_chk(stdout, flag, format, words);
  const char *english = in_english(format);
  hold_after(english);
  rounds += !strncmp(english, "Updating ", 9);
  if (is_repeated(english, words)) return depth = 0;
  put_blanks();
  int done = vfprintf(said, english, words);
  if (!strcmp(format, "%s")) fputc_unlocked('\n', said); /* why an object cannot be loaded: make ends no line there */
  end_word(english);
  return done;
}

int printf(const char *format, ...) {
  va_list words;
  va_start(words, format);
  int done = print(FROM_MAKE, -1, format, words);
  va_end(words);
  return done;
}

int __printf_chk(int flag, const char *format, ...) {
  va_list words;
  va_start(words, format);
  int done = print(FROM_MAKE, flag, format, words);
  va_end(words);
  return done;
}

int puts(const char *text) {
  if (!is_word(FROM_MAKE)) {
    int done = NEXT(puts)(text);
    is_open = 0;
    return done;
  }
  put_blanks();
  fprintf(said, "%s\n", in_english(text));
  end_word(text);
  return 1;
}

static int put_sign(int from_make, int sign, FILE *file) {
  if (file == stdout && is_word(from_make) && !is_base && sign == ' ') return depth++, sign;
  if (file == stdout && is_word(from_make)) return put_blanks(), fputc_unlocked(sign, said);
  if (file == stdout && sign == '\n') is_open = 0;
  return NEXT(fputc)(sign, file);
}

int (putchar)(int sign) {
  return put_sign(FROM_MAKE, sign, stdout);
}

int (putc)(int sign, FILE *file) {
  return put_sign(FROM_MAKE, sign, file);
}

int (fputc)(int sign, FILE *file) {
  return put_sign(FROM_MAKE, sign, file);
}

int _IO_putc(int sign, FILE *file) { /* `putchar` of programs that were built before glibc 2.28 */
  return put_sign(FROM_MAKE, sign, file);
}

int fputs(const char *text, FILE *file) {
  note_text(FROM_MAKE, file, text, strlen(text));
  return NEXT(fputs)(is_base && file == stdout ? in_english(text) : text, file);
}

size_t fwrite(const void *text, size_t size, size_t count, FILE *file) {
  note_text(FROM_MAKE, file, text, size * count);
  return NEXT(fwrite)(text, size, count, file);
}

/* ---- patterns */

FILE *fopen(const char *path, const char *mode) {
  if (FROM_MAKE) raise_level(); /* at the latest */
  return NEXT(fopen)(path, mode);
}

int glob(const char *pattern, int flags, int (*fault)(const char *, int), glob_t *found) {
  if (is_raised && getpid() == own) put_line("GLOB", pattern);
  return NEXT(glob)(pattern, flags, fault, found);
}

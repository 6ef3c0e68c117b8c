/* Where a build is tried in another order: the first process of each recipe waits until the gate lets it begin.

   The gate is a socket beside this library. Where there is one, make or ninja starts a copy of itself in the place of a recipe's first
   process: that connects to the gate, waits for an answer, and then becomes the process. So it has its number, its files and its
   environment. All others, such as those of $(shell ..) and of a recipe's further lines, begin at once; further lines wait, too, where
   there is a file `each`, and a file `many` says that no number of jobs holds back a recipe. The answer may be a filter of calls: the kernel reports these, of the process and of all below it, at a descriptor
   whose number goes back to the gate. */

#define _GNU_SOURCE
#include <dlfcn.h>
#include <errno.h>
#include <linux/filter.h>
#include <linux/seccomp.h>
#include <spawn.h>
#include <stdio.h>
#include <stdlib.h>
#include <string.h>
#include <sys/prctl.h>
#include <sys/socket.h>
#include <sys/stat.h>
#include <sys/syscall.h>
#include <sys/un.h>
#include <unistd.h>

#define NEXT(name) ((__typeof__(&name))dlsym(RTLD_NEXT, #name)) /* that of the C library */
#define HOLD "race-hold"                                        /* the first word of a process that waits */
#define JOBS "MAKEFLAGS"                                        /* that of the gate begins with a blank: how many jobs makes have */

static char gate[sizeof((struct sockaddr_un *)0)->sun_path], holder[4096]; /* empty where no recipe waits */
static int is_ninja, is_each; /* is_each: all lines of a recipe wait */
static int is_making;   /* make has said that it is at work on targets */
static int is_later;    /* what make starts next is a further line of a recipe */
static int is_function; /* what make starts next is of a function: it reads what that prints */

/* Make has said something: it reaps a child and may go on with its recipe, or it looks at targets. */
__attribute__((visibility("hidden"))) void hold_after(const char *words) {
  is_making = 1, is_function = 0;
  is_later = !strncmp(words, "Reaping ", 8);
}

static ssize_t answer_of(int channel, void *answer, size_t room) {
  ssize_t size;
  while ((size = read(channel, answer, room)) < 0 && errno == EINTR) {}
  return size;
}

static void be_reported(int channel, struct sock_filter *rows, size_t count) {
  enum { UNTIL_KILLED = 32 }; /* no signal but one that kills ends the waiting: Linux 5.19 */
  struct sock_fprog program = {count, rows};
  prctl(PR_SET_NO_NEW_PRIVS, 1, 0, 0, 0);
  int reports = syscall(SYS_seccomp, SECCOMP_SET_MODE_FILTER, SECCOMP_FILTER_FLAG_NEW_LISTENER | UNTIL_KILLED, &program);
  if (reports < 0) reports = syscall(SYS_seccomp, SECCOMP_SET_MODE_FILTER, SECCOMP_FILTER_FLAG_NEW_LISTENER, &program);
  if (write(channel, &reports, sizeof reports) > 0) answer_of(channel, rows, 1);
  if (reports >= 0) close(reports);
}

static void wait_at_gate(void) {
  struct sockaddr_un address = {.sun_family = AF_UNIX};
  struct sock_filter rows[64];
  int channel = socket(AF_UNIX, SOCK_STREAM | SOCK_CLOEXEC, 0);
  strcpy(address.sun_path, gate);
  if (channel >= 0 && !connect(channel, (struct sockaddr *)&address, sizeof address)) {
    ssize_t size = answer_of(channel, rows, sizeof rows);
    if (size <= 0) _exit(127); /* the gate is gone: so is who wants this build */
    if (size >= (ssize_t)sizeof *rows) be_reported(channel, rows, size / sizeof *rows);
  }
  close(channel);
}

/* The gate chooses among all recipes that are ready: several jobs in the words of a make or a ninja are as many as there are recipes. */
static void take_many(char **words) {
  for (; *words; words++) {
    size_t end = strspn(*words, "-BbdeiknqRrSsvw"); /* flags before it, as in `-kj4` */
    if (**words != '-' || (*words)[end] != 'j') continue;
    end += strncmp(*words, "--jobs", 6) ? 1 : 4;
    end += (*words)[end] == '=';
    char **number = (*words)[end] ? words : words + 1, *many = NULL;
    if (!*number || atoi(*number + (number == words ? end : 0)) < 2) continue;
    if (asprintf(&many, "%.*s1000", number == words ? (int)end : 0, *words) > 0) *number = many;
  }
}

/* Before the other constructors: a process that waits is no make. Its words are HOLD, a program, and the words of that. */
__attribute__((constructor(101))) static void find_gate(int argc, char **argv) {
  Dl_info here;
  if (!dladdr((void *)find_gate, &here)) return;
  const char *end = strrchr(here.dli_fname, '/');
  int length = end ? (int)(end - here.dli_fname) + 1 : 0;
  if (!length || length + sizeof "gate" > sizeof gate) return;
  snprintf(gate, sizeof gate, "%.*sgate", length, here.dli_fname);
  snprintf(holder, sizeof holder, "%.*shold", length, here.dli_fname);
  if (argc > 2 && !strncmp(argv[0], HOLD, sizeof HOLD - 1)) {
    wait_at_gate();
    if (argv[0][sizeof HOLD - 1] && getenv(JOBS) && *getenv(JOBS) == ' ') unsetenv(JOBS); /* ninja hands makes no jobs */
    execvp(argv[1], argv + 2);
    _exit(127);
  }
  is_ninja = !strncmp(program_invocation_short_name, "ninja", 5) || !strncmp(program_invocation_short_name, "samu", 4);
  if (access(gate, F_OK) || access(holder, X_OK)) *gate = 0;
  char path[sizeof holder];
  snprintf(path, sizeof path, "%.*seach", length, here.dli_fname);
  is_each = !access(path, F_OK);
  snprintf(path, sizeof path, "%.*smany", length, here.dli_fname);
  if (!access(path, F_OK)) take_many(argv);
}

static void note_output(int from, int to) {
  struct stat found;
  is_function |= to == STDOUT_FILENO && !fstat(from, &found) && S_ISFIFO(found.st_mode);
}

int posix_spawn_file_actions_adddup2(posix_spawn_file_actions_t *files, int from, int to) {
  note_output(from, to);
  return NEXT(posix_spawn_file_actions_adddup2)(files, from, to);
}

static int waits(void) {
  int is_first = is_ninja || (is_making && (!is_later || is_each) && !is_function);
  is_function = 0;
  return *gate && is_first;
}

/* The words of a copy that waits; NULL where the process begins at once. */
static char **held_words(const char *path, char *const words[]) {
  size_t count = 0;
  while (words[count]) count++;
  char **held = waits() ? malloc((count + 3) * sizeof *held) : NULL;
  if (!held) return NULL;
  held[0] = is_ninja ? HOLD "-ninja" : HOLD, held[1] = (char *)path;
  memcpy(held + 2, words, (count + 1) * sizeof *held);
  return held;
}

int posix_spawn(pid_t *pid, const char *path, const posix_spawn_file_actions_t *files, const posix_spawnattr_t *flags, char *const words[], char *const environment[]) {
  char **held = held_words(path, words);
  if (!held || access(path, X_OK)) {
    free(held);
    return NEXT(posix_spawn)(pid, path, files, flags, words, environment);
  }
  int fault = NEXT(posix_spawn)(pid, holder, files, flags, held, environment);
  free(held);
  return fault;
}

/* GNU make before 4.3 starts a copy of itself by vfork: that is to become the process. */
int dup2(int from, int to) {
  note_output(from, to);
  return NEXT(dup2)(from, to);
}

__attribute__((visibility("hidden"))) void hold_child(const char *file, char *const words[]) {
  char **held = held_words(file, words);
  if (held) execv(holder, held);
}

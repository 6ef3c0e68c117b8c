/* A library that is preloaded into the built program, and lets its calls of the system fail.
 *
 * RACE_FAULTS holds rules, each "KIND FROM TO STEP HOW", with ';' between them: of the calls of that kind, counted from
 * 1, those numbered FROM, FROM + STEP, .. up to TO do not do what they should. KIND is 'memory', 'open', 'read' or
 * 'write'. HOW is an error number (the call fails so; memory is refused, whatever number it is), 'none' (no byte moves,
 * and that is no failure) or 'one' (one byte moves). The rule "space BYTES" lets the address space
 * grow by BYTES and no more, and "stack BYTES" lets the stack be that large.
 *
 * RACE_MARKS names a file of MARKS bytes, in which the library writes how many calls of each kind there were, how many of
 * them met a rule, how many opened a file for more than reading, and for the last of these that failed, or moved nothing, what it was about: a path, or 'fd N'.
 *
 * Only calls of the program itself are counted: what runs before the library is set up goes through.
 *
 * RACE_SERVES holds two descriptors, of a pipe that is asked and of one that answers. Then the program runs as often as it
 * is asked, each time in a child that is forked before `main`, which costs a third of a start from the file. Asked are
 * the rules, in ASKED bytes with zeros behind them; the answer is the status as `wait` gives it. It ends with the pipe.
 */
#define _GNU_SOURCE
#include <errno.h>
#include <fcntl.h>
#include <stdarg.h>
#include <stdio.h>
#include <stdlib.h>
#include <string.h>
#include <sys/mman.h>
#include <sys/resource.h>
#include <sys/syscall.h>
#include <sys/wait.h>
#include <unistd.h>

enum { MEMORY, OPEN, READ, WRITE, KINDS };
enum { PASS = -3, NONE = -2, ONE = -1 };
enum { RULES = 8, MARKS = 8192, ASKED = 256 };

struct rule { int kind, how; unsigned long from, to, step; };
struct marks { unsigned long calls[KINDS], met, changing; char what[MARKS - (KINDS + 2) * sizeof(long)]; };

static const char *const NAMES[KINDS] = {"memory", "open", "read", "write"};
static struct rule rules[RULES];
static int rule_count, ready;
static struct marks nowhere, *marks = &nowhere;

extern void *__libc_malloc(size_t);
extern void *__libc_calloc(size_t, size_t);
extern void *__libc_realloc(void *, size_t);

/* Counts a call, and says what becomes of it: PASS, NONE, ONE or an error number. */
static int fate(int kind) {
    if (!ready) return PASS;
    unsigned long call = ++marks->calls[kind];
    for (struct rule *it = rules; it < rules + rule_count; it++) {
        if (it->kind != kind || call < it->from || call > it->to || (call - it->from) % it->step) continue;
        marks->met++;
        return it->how;
    }
    return PASS;
}

static int refused(void) {
    if (fate(MEMORY) == PASS) return 0;
    errno = ENOMEM;
    return 1;
}

void *malloc(size_t size) { return refused() ? NULL : __libc_malloc(size); }
void *calloc(size_t count, size_t size) { return refused() ? NULL : __libc_calloc(count, size); }
void *realloc(void *old, size_t size) { return refused() ? NULL : __libc_realloc(old, size); }

static int open_file(const char *path, int flags, mode_t mode) {
    int how = fate(OPEN);
    if ((flags & O_ACCMODE) != O_RDONLY || flags & (O_CREAT | O_TRUNC)) marks->changing++;
    if (how == PASS) return syscall(SYS_openat, AT_FDCWD, path, flags, mode);
    snprintf(marks->what, sizeof marks->what, "%s", path);
    errno = how;
    return -1;
}

int open(const char *path, int flags, ...) {
    va_list more;
    va_start(more, flags);
    mode_t mode = va_arg(more, int);
    va_end(more);
    return open_file(path, flags, mode);
}

int open64(const char *path, int flags, ...) __attribute__((alias("open")));

/* Writes down what a descriptor is open for. */
static void note(int fd) {
    char link[64];
    ssize_t length = -1;
    if (fd > 2) {
        snprintf(link, sizeof link, "/proc/self/fd/%d", fd);
        length = readlink(link, marks->what, sizeof marks->what - 1);
    }
    if (length >= 0) marks->what[length] = 0;
    else snprintf(marks->what, sizeof marks->what, "fd %d", fd);
}

/* How many of the bytes a call may move: all, one or none; -1 where it fails. */
static ssize_t share(int kind, int fd, size_t count) {
    int how = fate(kind);
    if (how == PASS) return count;
    if (how == ONE) return count ? 1 : 0;
    note(fd);
    if (how == NONE) return 0;
    errno = how;
    return -1;
}

ssize_t read(int fd, void *buffer, size_t count) {
    ssize_t some = share(READ, fd, count);
    return some > 0 ? syscall(SYS_read, fd, buffer, some) : some;
}

ssize_t write(int fd, const void *bytes, size_t count) {
    ssize_t some = share(WRITE, fd, count);
    return some > 0 ? syscall(SYS_write, fd, bytes, some) : some;
}

ssize_t __write(int fd, const void *bytes, size_t count) __attribute__((alias("write")));

static void bad(const char *what) {
    dprintf(2, "refuse.c: %s cannot be used\n", what);
    _exit(99);
}

static void limit(int resource, unsigned long bytes) {
    struct rlimit both = {bytes, bytes};
    if (setrlimit(resource, &both)) bad("RACE_FAULTS");
}

static void bound_space(unsigned long more) {
    char text[32] = {0};
    int fd = syscall(SYS_openat, AT_FDCWD, "/proc/self/statm", O_RDONLY);
    if (fd < 0 || syscall(SYS_read, fd, text, sizeof text - 1) <= 0) bad("/proc/self/statm");
    close(fd);
    unsigned long now = strtoul(text, NULL, 10) * sysconf(_SC_PAGESIZE);
    limit(RLIMIT_AS, now + more);
}

static void read_rule(const char *text) {
    char kind[16], how[16];
    unsigned long bytes;
    if (sscanf(text, "space %lu", &bytes) == 1) {
        bound_space(bytes);
        return;
    }
    if (sscanf(text, "stack %lu", &bytes) == 1) {
        limit(RLIMIT_STACK, bytes);
        return;
    }
    struct rule *it = &rules[rule_count++];
    if (rule_count > RULES || sscanf(text, "%15s %lu %lu %lu %15[^;]", kind, &it->from, &it->to, &it->step, how) != 5) bad("RACE_FAULTS");
    for (it->kind = 0; it->kind < KINDS && strcmp(kind, NAMES[it->kind]); it->kind++) {}
    if (it->kind == KINDS || !it->step) bad("RACE_FAULTS");
    it->how = strcmp(how, "none") ? strcmp(how, "one") ? atoi(how) : ONE : NONE;
}

static void read_rules(const char *text) {
    for (; text && *text; text = strchr(text, ';') ? strchr(text, ';') + 1 : NULL) read_rule(text);
}

/* Forks a child for each text of rules that is asked for. Returns in the child, as a run with these rules. */
static void serve(int asks, int answers) {
    char rules[ASKED];
    while (syscall(SYS_read, asks, rules, ASKED) == ASKED) {
        pid_t child = fork();
        if (child < 0) bad("fork");
        if (!child) {
            close(asks);
            close(answers);
            read_rules(rules);
            return;
        }
        int status;
        if (waitpid(child, &status, 0) != child) bad("waitpid");
        if (syscall(SYS_write, answers, &status, sizeof status) != sizeof status) bad("RACE_SERVES");
    }
    _exit(0);
}

__attribute__((constructor)) static void set_up(void) {
    const char *path = getenv("RACE_MARKS"), *pipes = getenv("RACE_SERVES");
    int asks, answers, fd = path ? syscall(SYS_openat, AT_FDCWD, path, O_RDWR) : -1;
    if (fd >= 0) {
        void *shared = mmap(NULL, MARKS, PROT_READ | PROT_WRITE, MAP_SHARED, fd, 0);
        if (shared == MAP_FAILED) bad("RACE_MARKS");
        marks = shared;
        close(fd);
    }
    read_rules(getenv("RACE_FAULTS"));
    if (pipes && sscanf(pipes, "%d %d", &asks, &answers) != 2) bad("RACE_SERVES");
    if (pipes) serve(asks, answers);
    ready = 1;
}

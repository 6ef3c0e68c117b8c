/* A study (README.md): watches a command by seccomp user notification. For each call that takes a path it writes PID, the number of the call, the path, and
   whether something is there, and lets the call run.  supervisor FILE COMMAND .. */
#define _GNU_SOURCE
#include <fcntl.h>
#include <linux/audit.h>
#include <linux/filter.h>
#include <linux/seccomp.h>
#include <poll.h>
#include <stddef.h>
#include <stdio.h>
#include <stdlib.h>
#include <string.h>
#include <sys/ioctl.h>
#include <sys/prctl.h>
#include <sys/socket.h>
#include <sys/stat.h>
#include <sys/syscall.h>
#include <sys/uio.h>
#include <sys/wait.h>
#include <unistd.h>

/* The calls, and which of their arguments is the path. */
static const struct { int call, path; } calls[] = {
    {SYS_open, 0}, {SYS_openat, 1}, {SYS_stat, 0}, {SYS_lstat, 0}, {SYS_newfstatat, 1}, {SYS_statx, 1}, {SYS_access, 0}, {SYS_faccessat, 1}, {SYS_faccessat2, 1},
    {SYS_readlink, 0}, {SYS_readlinkat, 1}, {SYS_execve, 0}, {SYS_execveat, 1}, {SYS_unlink, 0}, {SYS_unlinkat, 1}, {SYS_rename, 0}, {SYS_renameat, 1}, {SYS_renameat2, 1},
    {SYS_mkdir, 0}, {SYS_mkdirat, 1}, {SYS_rmdir, 0}, {SYS_link, 0}, {SYS_linkat, 1}, {SYS_symlink, 0}, {SYS_symlinkat, 0}, {SYS_chmod, 0}, {SYS_fchmodat, 1}, {SYS_chdir, 0},
    {SYS_truncate, 0}, {SYS_utimensat, 1}, {SYS_chown, 0}, {SYS_creat, 0}, {SYS_getdents64, -1}};
enum { COUNT = sizeof calls / sizeof *calls };

static int install(void) {
    struct sock_filter code[2 * COUNT + 3];
    int n = 0;
    code[n++] = (struct sock_filter)BPF_STMT(BPF_LD | BPF_W | BPF_ABS, offsetof(struct seccomp_data, nr));
    for (int i = 0; i < COUNT; i++) {
        code[n++] = (struct sock_filter)BPF_JUMP(BPF_JMP | BPF_JEQ | BPF_K, (unsigned)calls[i].call, 0, 1);
        code[n++] = (struct sock_filter)BPF_STMT(BPF_RET | BPF_K, SECCOMP_RET_USER_NOTIF);
    }
    code[n++] = (struct sock_filter)BPF_STMT(BPF_RET | BPF_K, SECCOMP_RET_ALLOW);
    struct sock_fprog program = {(unsigned short)n, code};
    if (prctl(PR_SET_NO_NEW_PRIVS, 1, 0, 0, 0)) return -1;
    return (int)syscall(SYS_seccomp, SECCOMP_SET_MODE_FILTER, SECCOMP_FILTER_FLAG_NEW_LISTENER, &program);
}

static void hand(int socket, int *fd, int is_sender) {
    char byte = 0, room[CMSG_SPACE(sizeof(int))] = {0};
    struct iovec part = {&byte, 1};
    struct msghdr message = {.msg_iov = &part, .msg_iovlen = 1, .msg_control = room, .msg_controllen = sizeof room};
    if (is_sender) {
        struct cmsghdr *head = CMSG_FIRSTHDR(&message);
        *head = (struct cmsghdr){.cmsg_len = CMSG_LEN(sizeof(int)), .cmsg_level = SOL_SOCKET, .cmsg_type = SCM_RIGHTS};
        memcpy(CMSG_DATA(head), fd, sizeof *fd);
        sendmsg(socket, &message, 0);
    } else if (recvmsg(socket, &message, 0) == 1)
        memcpy(fd, CMSG_DATA(CMSG_FIRSTHDR(&message)), sizeof *fd);
}

static void note(FILE *out, const struct seccomp_notif *asked) {
    char path[4096];
    for (int i = 0; i < COUNT; i++)
        if (calls[i].call == asked->data.nr && calls[i].path >= 0) {
            unsigned long at = asked->data.args[calls[i].path];
            struct iovec here = {path, sizeof path - 1}, there[2] = {{(void *)at, 4096 - at % 4096}, {(void *)(at - at % 4096 + 4096), at % 4096}};
            ssize_t got = process_vm_readv((pid_t)asked->pid, &here, 1, there, 1, 0);
            path[got > 0 ? got : 0] = 0;
            if (!memchr(path, 0, got > 0 ? (size_t)got : 1) || (got > 0 && strlen(path) == (size_t)got))
                got = process_vm_readv((pid_t)asked->pid, &here, 1, there, 2, 0), path[got > 0 ? got : 0] = 0;
            char there_as[4200];
            struct stat found;
            int length = snprintf(there_as, sizeof there_as, path[0] == '/' ? "/proc/%u/root%s" : "/proc/%u/cwd/%s", asked->pid, path);
            int is_there = length < (int)sizeof there_as && !fstatat(AT_FDCWD, there_as, &found, AT_SYMLINK_NOFOLLOW);
            fprintf(out, "%u %d %s %d\n", asked->pid, asked->data.nr, path, is_there);
            return;
        }
    fprintf(out, "%u %d\n", asked->pid, asked->data.nr);
}

int main(int count, char **words) {
    int sockets[2], listener = -1, status = 0;
    if (count < 3 || socketpair(AF_UNIX, SOCK_STREAM, 0, sockets)) return 2;
    pid_t child = fork();
    if (!child) {
        int fd = install();
        if (fd < 0) { perror("seccomp"); _exit(2); }
        hand(sockets[1], &fd, 1);
        close(fd), close(sockets[0]), close(sockets[1]);
        execvp(words[2], words + 2);
        _exit(127);
    }
    close(sockets[1]);
    hand(sockets[0], &listener, 0);
    FILE *out = fopen(words[1], "w");
    static char room[1 << 20];
    setvbuf(out, room, _IOFBF, sizeof room);
    struct seccomp_notif asked;
    struct pollfd ready = {listener, POLLIN, 0};
    while (poll(&ready, 1, -1) > 0 && !(ready.revents & POLLHUP)) {
        memset(&asked, 0, sizeof asked);
        if (ioctl(listener, SECCOMP_IOCTL_NOTIF_RECV, &asked)) continue;
        note(out, &asked);
        struct seccomp_notif_resp answer = {.id = asked.id, .flags = SECCOMP_USER_NOTIF_FLAG_CONTINUE};
        ioctl(listener, SECCOMP_IOCTL_NOTIF_SEND, &answer);
    }
    fclose(out);
    waitpid(child, &status, 0);
    return WIFEXITED(status) ? WEXITSTATUS(status) : 1;
}

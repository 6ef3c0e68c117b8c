"""The system calls of Linux, by what each can do to a file. strace traces all of them except those of LEFT_OUT, so a call that nobody has
heard of is in the trace, and the record has a hole (descriptors.py). The newest do not run at all (unfollowed.py), and are not here.

Which calls are followed, calls.py says by its handlers. A call stands here for a reason, and the tests want each call of the kernel's
headers to stand here or to have a handler.
"""

from typing import Dict

# What is left out of a trace, and why that hides no change and no look.
REASONS: Dict[str, str] = {
    # Reads of what is open count where it is opened, and so do writes for who opens it: no call opens a file to write that does not say so.
    "what is open": """read readv pread64 preadv preadv2 lseek _llseek llseek tee vmsplice fallocate fstatfs fstatfs64 fgetxattr flistxattr fsync fdatasync sync syncfs sync_file_range fstat fstat64 oldfstat umask
        sync_file_range2 arm_sync_file_range fadvise64 fadvise64_64 arm_fadvise64_64 readahead close close_range timerfd_gettime timerfd_gettime64 timerfd_settime timerfd_settime64
        io_setup io_submit io_cancel io_destroy io_getevents io_pgetevents io_pgetevents_time64 io_uring_enter io_uring_register getcwd""",
    # A socket counts where it is made, gets a name or is connected; who accepts has given it a name.
    "sockets that are made": """listen getsockname getpeername getsockopt setsockopt shutdown send sendto sendmsg sendmmsg recv recvfrom recvmsg
        recvmmsg recvmmsg_time64 getpmsg putpmsg""",
    # Shared memory, messages and keys count where somebody asks for them by a name.
    "what shares memory or messages and was asked for": """shmat shmctl shmdt semctl semop semtimedop semtimedop_time64 msgctl msgrcv msgsnd mq_getsetattr
        mq_notify mq_timedreceive mq_timedreceive_time64 mq_timedsend mq_timedsend_time64 inotify_rm_watch""",
    # Memory of the process itself. To write a file by it, the file is opened to write.
    "memory": """mmap mmap2 munmap mremap mprotect pkey_mprotect pkey_alloc pkey_free madvise process_madvise mincore mlock mlock2 mlockall munlock munlockall
        msync brk sbrk remap_file_pages mbind get_mempolicy set_mempolicy membarrier rseq cacheflush riscv_flush_icache""",
    # Processes, rights and limits of who calls. What names another process is traced: its number may come from a file that both read, and make is
    # the parent. The end of a process stands in the trace without its call.
    "processes": """exit exit_group pidfd_send_signal
        rt_sigaction rt_sigpending rt_sigprocmask rt_sigtimedwait rt_sigtimedwait_time64 sigaction sigaltstack sigpending
        sigprocmask sgetmask ssetmask restart_syscall getpid getppid gettid getpgrp setsid getuid getuid32 geteuid
        geteuid32 getgid getgid32 getegid getegid32 getresuid getresuid32 getresgid getresgid32 getgroups getgroups32 setuid setuid32 setgid setgid32 setreuid
        setreuid32 setregid setregid32 setresuid setresuid32 setresgid setresgid32 setfsuid setfsuid32 setfsgid setfsgid32 setgroups setgroups32 capget capset
        getrlimit ugetrlimit setrlimit getrusage nice prctl arch_prctl personality seccomp
        sched_get_priority_max sched_get_priority_min sched_yield set_tid_address set_robust_list get_thread_area set_thread_area set_tls get_tls modify_ldt ioperm iopl vm86 vm86old uprobe uretprobe""",
    # Waiting, and the time of day, which nobody can keep a recipe from asking.
    "waiting and time": """poll ppoll ppoll_time64 select _newselect pselect6 pselect6_time64 epoll_ctl epoll_wait epoll_pwait
        epoll_ctl_old epoll_wait_old futex futex_time64 nanosleep clock_nanosleep
        clock_nanosleep_time64 clock_gettime clock_gettime64 clock_getres clock_getres_time64 gettimeofday time times getitimer timer_create
        timer_delete timer_getoverrun timer_gettime timer_gettime64""",
    # What the machine is, and mounts by their numbers: no file of a build.
    "the machine": """uname olduname oldolduname sysinfo syslog sysfs getcpu getrandom vhangup lookup_dcookie ustat riscv_hwprobe fsconfig""",
    # The kernel has these no more, or never had them.
    "gone": """afs_syscall bdflush break create_module ftime get_kernel_syms gtty idle lock mpx prof profil query_module security stty tuxcall ulimit vserver
        arch_specific_syscall syscalls""",
}
LEFT_OUT = {name for names in REASONS.values() for name in names.split()}
# Calls that write what they are handed into what is open: strace shows their arguments as numbers, as it would show all that is written.
WRITES = {"write", "writev", "pwrite64", "pwritev", "pwritev2"}
COPIES = {"sendfile", "sendfile64", "copy_file_range", "splice"}  # the same from one descriptor to another, which strace names
WAITS = {"wait4", "waitpid", "waitid"}
SIGNALS = {"kill", "tkill", "tgkill", "rt_sigqueueinfo", "rt_tgsigqueueinfo", "pidfd_open"}
# What holds of a process, by its number; that of itself is zero.
LIMITS = {"prlimit64", "getpriority", "setpriority", "ioprio_get", "ioprio_set", "sched_getaffinity", "sched_setaffinity", "sched_getattr", "sched_setattr",
          "sched_getparam", "sched_setparam", "sched_getscheduler", "sched_setscheduler", "sched_rr_get_interval", "sched_rr_get_interval_time64", "getpgid",
          "setpgid", "getsid", "kcmp", "get_robust_list", "migrate_pages", "move_pages"}
SLEEPS = {"rt_sigsuspend", "sigsuspend", "pause"}  # until a signal comes
TIMERS = {"alarm", "setitimer", "timer_settime", "timer_settime64"}  # after which a signal comes
SIGNALLED = {"rt_sigreturn", "sigreturn"}  # a handler of a signal has run
DOUBLES = {"dup", "dup2", "dup3"}
# Calls that give a descriptor which leads to no file.
NO_FILES = {"accept", "accept4", "epoll_create", "epoll_create1", "eventfd", "eventfd2", "fanotify_init", "fsopen", "inotify_init", "inotify_init1", "memfd_create",
            "perf_event_open", "signalfd", "signalfd4", "timerfd", "timerfd_create", "userfaultfd"}
PAIRS = {"pipe", "pipe2", "socketpair"}  # two of them

# After these, what a process opens is not what the trace names, or is not in the trace at all.
HIDING = {"chroot", "pivot_root", "mount", "move_mount", "umount", "umount2", "oldumount", "setns", "open_by_handle_at", "io_uring_setup", "fsmount", "fspick",
          "open_tree"}  # guard: new-ways-to-mount
# What processes share that is no file.
SHARING = {"shmget", "semget", "msgget", "mq_open", "mq_unlink", "add_key", "request_key", "keyctl", "process_vm_readv", "process_vm_writev"}
# Known calls that nobody follows, since a build hardly needs them: they change files by other ways, files of others, the clock or the kernel.
UNFOLLOWED = {"acct", "swapon", "swapoff", "quotactl", "uselib", "nfsservctl", "_sysctl", "pidfd_getfd", "bpf", "init_module", "finit_module",
              "delete_module", "kexec_load", "kexec_file_load", "reboot", "settimeofday", "stime", "clock_settime", "clock_settime64", "clock_adjtime",
              "clock_adjtime64", "adjtimex", "sethostname", "setdomainname"}


def traced() -> str:
    """The calls that strace traces. It may know less names than these. Until the first of them it stops a process at all calls, and a child
    that make starts begins with `rt_sigprocmask`."""
    return "!" + ",".join("?" + name for name in sorted(LEFT_OUT - {"rt_sigprocmask"}))  # guard: are-traced


def shown_as_numbers() -> str:
    """The calls of which strace shows the arguments as numbers."""
    return ",".join("?" + name for name in sorted(WRITES))

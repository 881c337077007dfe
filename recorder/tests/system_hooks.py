"""Tests of the hooks of system calls: each row of system_hooks.def used well and with a block that is one byte too
short."""

import errno
import os
import re
from typing import Dict, List, NamedTuple, Sequence, Tuple, Union

from support import RECORDER, Compiler, Suite, expect, placed, run, side_of, write

ROW = re.compile(r"^(NONE|PRE|POST|HOOK)\((\w+)(.*?)\)(?=\n(?! )|\Z)", re.M | re.S)


class Row(NamedTuple):
    """A row of system_hooks.def: its word, its name, and what is checked."""

    word: str
    name: str
    what: str


def table() -> List[Row]:
    with open(f"{RECORDER}/calls/system_hooks.def", encoding="ascii") as file:
        text = re.sub(r"/\*.*?\*/", "", file.read(), flags=re.S)
    return [Row(*it.groups()) for it in ROW.finditer(text)]


# What a block `p` holds, or how many bytes of zeros; the arguments; and the result, or the name of the call that is
# made for it. With one byte less in the block one of both hooks must find it.
Use = Tuple[Union[str, int], str, Union[int, str]]
NO_FILE = "/no/such"


def named(names: str, *uses: Use) -> Dict[str, Sequence[Use]]:
    return {name: uses for name in names.split()}


USES: Dict[str, Sequence[Use]] = {
    # Paths and other texts.
    **named("access acct chdir chmod chown chown16 chroot creat delete_module lchown lchown16 mkdir mknod mq_unlink "
            "oldumount open rmdir spu_create swapoff swapon truncate umount unlink uselib", (NO_FILE, "p, 0, 0", -2)),
    **named("faccessat fchmodat fchownat fremovexattr inotify_add_watch mkdirat mknodat openat quotactl unlinkat",
            (NO_FILE, "-1, p, 0, 0", -2)),
    **named("link lremovexattr pivot_root removexattr rename symlink", (NO_FILE, "p, 0", -2), (NO_FILE, "0, p", -2)),
    **named("linkat renameat", (NO_FILE, "-1, p, -1, 0", -2), (NO_FILE, "-1, 0, -1, p", -2)),
    **named("symlinkat", (NO_FILE, "p, -1, 0", -2), (NO_FILE, "0, -1, p", -2)),
    **named("mount request_key", (NO_FILE, "p, 0, 0, 0", -2), (NO_FILE, "0, p, 0, 0", -2), ("abc", "0, 0, p, 0", -2)),
    **named("fanotify_mark", (NO_FILE, "-1, 0, 0, -1, p", -2)),
    **named("add_key", ("user", "p, 0, 0, 0, 0", -2), ("abc", "0, p, 0, 0, 0", -2), (9, "0, 0, p, 9, 0", -2)),
    **named("init_module", (9, "p, 9, 0", -1), ("abc", "0, 0, p", -1)),
    **named("lsetxattr setxattr", (NO_FILE, "p, 0, 0, 0, 0", -2), ("user.a", "0, p, 0, 0, 0", -2),
            (9, "0, 0, p, 9, 0", -2)),
    **named("fsetxattr", ("user.a", "-1, p, 0, 0, 0", -2), (9, "-1, 0, p, 9, 0", -2)),
    **named("getxattr lgetxattr", (NO_FILE, "p, 0, 0, 0", -2), ("user.a", "0, p, 0, 0", -2), (9, "0, 0, p, 99", 9)),
    **named("fgetxattr", ("user.a", "-1, p, 0, 0", -2), (9, "-1, 0, p, 99", 9)),
    **named("listxattr llistxattr", (NO_FILE, "p, 0, 0", -2), (9, "0, p, 99", 9)),
    **named("flistxattr", (9, "-1, p, 99", 9)),
    # Files.
    **named("lstat newlstat newstat stat", (NO_FILE, "p, room", -2), ("sizeof(struct stat)", '"/", p', 0)),
    **named("lstat64 stat64", (NO_FILE, "p, room", -2), ("sizeof(struct stat)", '"/", p', 0)),
    **named("fstat64 newfstat", ("sizeof(struct stat)", "1, p", 0)),
    **named("fstat", ("sizeof(struct stat)", "zeros, p", "fstat")),
    **named("fstatat64", (NO_FILE, "-1, p, room, 0", -2), ("sizeof(struct stat)", '-1, "/", p, 0', 0)),
    **named("newfstatat", (NO_FILE, "-1, p, room, 0", "newfstatat"),
            ("sizeof(struct stat)", '-1, "/", p, 0', "newfstatat")),
    **named("statfs", (NO_FILE, "p, room", "statfs"), ("sizeof(struct statfs)", '"/", p', "statfs")),
    **named("fstatfs", ("sizeof(struct statfs)", "zeros, p", "fstatfs")),
    **named("statfs64", (NO_FILE, "p, 120, room", -2), ("sizeof(struct statfs)", '"/", 120, p', 0)),
    **named("fstatfs64", ("sizeof(struct statfs)", "zeros, 120, p", 0)),
    **named("ustat", (32, "0, p", 0)),
    **named("utime", (NO_FILE, "p, 0", -2), (16, "0, p", -2)),
    **named("utimes", (NO_FILE, "p, 0", -2), (32, "0, p", -2)),
    **named("futimesat", (NO_FILE, "-1, p, 0", -2), (32, "-1, 0, p", -2)),
    **named("utimensat", (NO_FILE, "-1, p, 0, 0", "utimensat"), (32, '-1, "/no/such", p, 0', "utimensat")),
    **named("readlink", (NO_FILE, "p, room, 9", -2), (9, "0, p, 99", 9)),
    **named("readlinkat", (NO_FILE, "-1, p, room, 9", "readlinkat"), (4, '-1, "/dev/self", p, 99', 4)),
    **named("getcwd", (2, "(chdir(\"/\"), p), 99", "getcwd")),
    **named("getrandom", (9, "p, 9, 0", "getrandom")),
    **named("read", (9, "zeros, p, 9", "read"), (9, "zeros, p, 99", 9)),
    **named("pread64", (9, "zeros, p, 9, 0", "pread64")),
    **named("getdents getdents64 lookup_dcookie", (24, "-1, p, 99", 24)),
    **named("write", (9, "null, p, 9", "write")),
    **named("pwrite64", (9, "null, p, 9, 0", "pwrite64")),
    **named("readv preadv", (9, "zeros, piece(p, 9), 1, 0, 0", 9), (16, "zeros, p, 1, 0, 0", 0)),
    **named("writev pwritev", (9, "null, piece(p, 9), 1, 0, 0", 9), (16, "null, p, 1, 0, 0", 0)),
    **named("vmsplice", (16, "-1, p, 1, 0", -9)),
    **named("process_vm_readv", (9, "getpid(), piece(p, 9), 1, piece(room, 9), 1, 0", "process_vm_readv"),
            (16, "getpid(), 0, 0, p, 1, 0", 0)),
    **named("process_vm_writev", (9, "getpid(), piece(p, 9), 1, piece(room, 9), 1, 0", "process_vm_writev"),
            (16, "getpid(), 0, 0, p, 1, 0", 0)),
    **named("splice", (8, "-1, p, -1, 0, 0, 0", -9), (8, "-1, 0, -1, p, 0, 0", -9)),
    **named("sendfile sendfile64", (8, "null, zeros, p, 0", 0)),
    **named("llseek", (8, "zeros, 0, 0, p, 0", 0)),
    **named("pipe2", (8, "p, 0", "pipe2")),
    **named("pipe", (8, "p", 0)),
    **named("fcntl", ("sizeof(struct flock)", "zeros, F_GETLK, p", "fcntl"),
            ("sizeof(struct flock)", "zeros, F_SETLK, p", "fcntl")),
    **named("fcntl64", ("sizeof(struct flock)", "zeros, F_SETLK, p", 0)),
    **named("ioctl", (4, "pipe_to(room), FIONREAD, p", "ioctl"), (4, "zeros, FIONBIO, p", "ioctl"),
            (4, "-1, (int)TIOCGPTN, p", 0)),
    **named("name_to_handle_at", (NO_FILE, "-1, p, room, room, 0", -2), (8, '-1, "/", p, room, 0', -95),
            (16, '-1, "/", sized(p, 8), room, 0', 0), (4, '-1, "/", room, p, 0', 0)),
    **named("open_by_handle_at", (8, "-1, p, 0", -9), (16, "-1, sized(p, 8), 0", -9)),
    # Waiting for files.
    **named("poll", (8, "p, 1, 0", 0)),
    **named("ppoll", (8, "p, 1, 0, 0, 8", 0), (16, "0, 0, p, 0, 8", 0), (8, "0, 0, 0, p, 8", 0)),
    **named("select", (8, "9, p, 0, 0, 0", 0), (8, "9, 0, p, 0, 0", 0), (8, "9, 0, 0, p, 0", 0),
            (16, "9, 0, 0, 0, p", 0)),
    **named("pselect6", (8, "9, p, 0, 0, 0, 0", 0), (8, "9, 0, p, 0, 0, 0", 0), (8, "9, 0, 0, p, 0, 0", 0),
            (16, "0, 0, 0, 0, p, 0", "pselect6"), (16, "0, 0, 0, 0, room, p", "pselect6"),
            (8, "0, 0, 0, 0, room, piece(p, 8)", "pselect6")),
    **named("epoll_ctl", ("sizeof(struct epoll_event)", "-1, EPOLL_CTL_ADD, 0, p", "epoll_ctl")),
    **named("epoll_wait", ("sizeof(struct epoll_event)", "-1, p, 9, 0", 1)),
    **named("epoll_pwait", ("sizeof(struct epoll_event)", "-1, p, 9, 0, 0, 8", 1), (8, "-1, room, 9, 0, p, 8", 0)),
    **named("epoll_pwait2", ("sizeof(struct epoll_event)", "-1, p, 9, 0, 0, 8", 1), (8, "-1, room, 9, 0, p, 8", 0),
            (16, "-1, room, 9, p, 0, 8", 0)),
    **named("signalfd", (8, "-1, p, 8", -9)),
    **named("signalfd4", (8, "-1, p, 8, 0", "signalfd4")),
    **named("timerfd_settime timer_settime", (32, "-1, 0, p, 0", -9), (32, "-1, 0, 0, p", 0)),
    **named("timerfd_gettime timer_gettime", (32, "-1, p", 0)),
    **named("io_setup", (8, "1, p", 0)),
    **named("io_getevents", (16, "0, 0, 1, room, p", 0), (32, "0, 0, 1, p, 0", 1)),
    **named("io_submit", (8, "0, 1, p", -22), (64, "0, 1, pointer(p)", -22),
            (9, "0, 1, pointer(block_of(IOCB_CMD_PWRITE, p, 9))", -22),
            (9, "0, 1, pointer(block_of(IOCB_CMD_PWRITEV, piece(p, 9), 1))", -22),
            (16, "0, 1, pointer(block_of(IOCB_CMD_PREADV, p, 1))", -22)),
    **named("io_cancel", (64, "0, p, 0", -22)),
    # Sockets.
    **named("bind connect", (16, "-1, p, 16", -9)),
    **named("accept accept4 getpeername getsockname", (4, "-1, room, p, 0", -9)),
    **named("send", (9, "-1, p, 9, 0", -9)),
    **named("sendto", (9, "pipe_to(room), p, 9, 0, 0, 0", -88), (16, "-1, 0, 0, 0, p, 16", -9)),
    **named("recv", (9, "-1, p, 9, 0", 9), (9, "-1, p, 9, 0", 99)),
    **named("recvfrom", (9, "-1, p, 9, 0, 0, 0", 9), (4, "-1, 0, 0, 0, room, p", -9)),
    **named("sendmsg", (56, "-1, p, 0", -9), (9, "-1, message(piece(p, 9), 1), 0", -9),
            (16, "-1, message(p, 1), 0", -9)),
    **named("recvmsg", (56, "-1, p, 0", -9), (9, "-1, message(piece(p, 9), 1), 0", 9),
            (16, "-1, message(p, 1), 0", -9)),
    **named("sendmmsg", (64, "-1, p, 1, 0", -9), (9, "-1, messages(piece(p, 9), 1, 9), 1, 0", -9)),
    **named("recvmmsg", (64, "-1, p, 1, 0, 0", -9), (9, "-1, messages(piece(p, 9), 1, 9), 1, 0, 0", 1),
            (16, "-1, room, 1, 0, p", -9)),
    **named("socketpair", (8, "AF_UNIX, SOCK_STREAM, 0, p", "socketpair")),
    **named("setsockopt", (4, "-1, SOL_SOCKET, SO_REUSEADDR, p, 4", "setsockopt")),
    **named("getsockopt", (4, "-1, SOL_SOCKET, SO_TYPE, p, sized(room, 4)", 0),
            (4, "-1, SOL_SOCKET, SO_TYPE, room, p", -9)),
    # Messages.
    **named("msgsnd", (17, "-1, p, 9, 0", "msgsnd")),
    **named("msgrcv", (17, "-1, p, 9, 0, 0", 9)),
    **named("msgctl", ("sizeof(struct msqid_ds)", "-1, IPC_SET, p", -22),
            ("sizeof(struct msqid_ds)", "0, IPC_STAT, p", 0)),
    **named("shmctl", ("sizeof(struct shmid_ds)", "-1, IPC_SET, p", -22),
            ("sizeof(struct shmid_ds)", "0, IPC_STAT, p", 0)),
    **named("semctl", ("sizeof(struct semid_ds)", "-1, 0, IPC_SET, p", -22),
            ("sizeof(struct semid_ds)", "0, 0, IPC_STAT, p", 0)),
    **named("semop", (6, "-1, p, 1", "semop")),
    **named("semtimedop", (6, "-1, p, 1, 0", -22), (16, "-1, room, 1, p", "semtimedop")),
    **named("mq_open", ("name", "p, 0, 0, 0", -2), (64, '"no", O_CREAT, 0, p', "mq_open")),
    **named("mq_timedsend", (9, "-1, p, 9, 0, 0", -9), (16, "-1, room, 9, 0, p", "mq_timedsend")),
    **named("mq_timedreceive", (9, "-1, p, 99, 0, 0", 9), (4, "-1, room, 9, p, 0", 9), (16, "-1, room, 9, 0, p", -9)),
    **named("mq_notify", (64, "-1, p", "mq_notify")),
    **named("mq_getsetattr", (64, "-1, p, 0", "mq_getsetattr"), (64, "-1, 0, p", 0)),
    # Time.
    **named("time", (8, "p", 0)),
    **named("stime", (8, "p", -1)),
    **named("gettimeofday", (16, "p, 0", "gettimeofday"), (8, "0, p", "gettimeofday")),
    **named("settimeofday", (16, "p, 0", -1), (8, "0, p", -1)),
    **named("adjtimex", ("sizeof(struct timex)", "p", "adjtimex")),
    **named("clock_adjtime", ("sizeof(struct timex)", "0, p", "clock_adjtime")),
    **named("times", (32, "p", "times")),
    **named("nanosleep", (16, "p, 0", "nanosleep")),
    **named("clock_nanosleep", (16, "0, 0, p, 0", "clock_nanosleep")),
    **named("clock_settime", (16, "-1, p", "clock_settime")),
    **named("clock_getres", (16, "0, p", "clock_getres")),
    **named("clock_gettime", (16, "0, p", "clock_gettime")),
    **named("sched_rr_get_interval", (16, "0, p", "sched_rr_get_interval")),
    **named("getitimer", (32, "0, p", "getitimer")),
    **named("setitimer", (32, "0, p, 0", "setitimer"), (32, "0, 0, p", "setitimer")),
    **named("timer_create", (64, "0, p, room", -22), (4, "0, 0, p", "timer_create")),
    # Signals.
    **named("rt_sigaction", (32, "99, p, 0, 8", "rt_sigaction"), (32, "SIGUSR1, 0, p, 8", "rt_sigaction")),
    **named("rt_sigpending", (8, "p, 8", "rt_sigpending")),
    **named("rt_sigprocmask", (8, "0, p, 0, 8", "rt_sigprocmask"), (8, "0, 0, p, 8", "rt_sigprocmask")),
    **named("rt_sigtimedwait", (8, "p, 0, room, 8", "rt_sigtimedwait"), (128, "room, p, 0, 8", 9),
            (16, "room, 0, p, 8", "rt_sigtimedwait")),
    **named("rt_sigqueueinfo", (128, "0, 0, p", -1)),
    **named("rt_tgsigqueueinfo", (128, "0, 0, 0, p", -1)),
    **named("sigaltstack", ("sizeof(stack_t)", "p, 0", "sigaltstack"), ("sizeof(stack_t)", "0, p", "sigaltstack")),
    **named("sigpending", (8, "p", 0)),
    **named("sigprocmask", (8, "0, p, 0", 0), (8, "0, 0, p", 0)),
    # Processes.
    **named("wait4", (4, "-1, p, 0, 0", 9), ("sizeof(struct rusage)", "-1, 0, 0, p", 9)),
    **named("waitpid", (4, "-1, p, 0", 9)),
    **named("waitid", (128, "0, 0, p, 0, 0", 0), ("sizeof(struct rusage)", "0, 0, 0, 0, p", 0)),
    **named("getresgid", (4, "p, room, room", "getresgid"), (4, "room, p, room", "getresgid"),
            (4, "room, room, p", "getresgid")),
    **named("getresuid", (4, "p, room, room", "getresuid"), (4, "room, p, room", "getresuid"),
            (4, "room, room, p", "getresuid")),
    **named("getresgid16 getresuid16", (2, "p, 0, 0", 0), (2, "0, p, 0", 0), (2, "0, 0, p", 0)),
    **named("getgroups", (4, "9, p", 1)),
    **named("getgroups16", (2, "9, p", 1)),
    **named("setgroups", (4, "1, p", -1)),
    **named("setgroups16", (2, "1, p", -1)),
    **named("capget", (8, "p, 0", "capget"), (24, "rights(room), p", "capget")),
    **named("capset", (8, "p, room", -1), (24, "rights(room), p", -1)),
    **named("sched_setparam", (4, "-1, p", -3)),
    **named("sched_setscheduler", (4, "-1, 0, p", -3)),
    **named("sched_getparam", (4, "0, p", "sched_getparam")),
    **named("sched_setaffinity", (8, "-1, 8, p", -3)),
    **named("sched_getaffinity", (8, "0, 4096, p", 8)),
    **named("getrlimit old_getrlimit", (16, "0, p", 0)),
    **named("setrlimit", (16, "99, p", "setrlimit")),
    **named("prlimit64", (16, "0, 99, p, 0", "prlimit64"), (16, "0, 0, 0, p", "prlimit64")),
    **named("getrusage", ("sizeof(struct rusage)", "0, p", "getrusage")),
    **named("ptrace", (8, "PTRACE_PEEKDATA, -1, 0, p", 0), (128, "PTRACE_SETSIGINFO, -1, 0, p", -3),
            (128, "PTRACE_GETSIGINFO, -1, 0, p", 0), (9, "PTRACE_GETREGSET, -1, 0, piece(p, 9)", 0),
            (16, "PTRACE_SETREGSET, -1, 0, p", -3), (9, "PTRACE_SETREGSET, -1, 0, piece(p, 9)", -3)),
    **named("get_robust_list", (8, "0, p, room", "get_robust_list"), (8, "0, room, p", "get_robust_list")),
    **named("getcpu", (4, "p, 0, 0", "getcpu"), (4, "0, p, 0", "getcpu")),
    # The system.
    **named("gethostname", ("name", "p, 99", 0)),
    **named("sethostname setdomainname", (9, "p, 9", -1)),
    **named("newuname", (390, "p", 0)),
    **named("uname", (325, "p", 0)),
    **named("olduname", (45, "p", 0)),
    **named("sysinfo", ("sizeof(struct sysinfo)", "p", "sysinfo")),
    **named("syslog", (9, "3, p, 99", 9)),
    **named("sysfs", ("ext4", "1, p", -22), ("ext4", "2, 0, p", 0)),
    **named("kexec_load", (32, "0, 1, p, 0", -1)),
    **named("perf_event_open", (64, "p, 0, 0, 0, 0", "perf_event_open"),
            (72, "sized(p, 72ul << 32), 0, 0, 0, 0", "perf_event_open")),
    **named("pciconfig_read", (4, "0, 0, 0, 4, p", 0)),
    **named("pciconfig_write", (4, "0, 0, 0, 4, p", 0)),
    **named("spu_run", (4, "-1, p, 0", -9)),
    # Memory.
    **named("mincore", (2, "pages, 8192, p", "mincore")),
    **named("mbind", (8, "0, 0, 0, p, 9, 0", "mbind")),
    **named("set_mempolicy", (8, "9, p, 65", -22)),
    **named("migrate_pages", (8, "-1, 9, p, room", -3), (8, "-1, 9, room, p", -3)),
    **named("get_mempolicy", (4, "p, 0, 0, 0, 0", 0), (8, "0, p, 65, 0, 0", 0)),
    **named("move_pages", (8, "0, 1, p, 0, 0, 0", -22), (4, "0, 1, 0, p, 0, 0", -22), (4, "0, 1, 0, 0, p, 0", 0)),
}

# What the system leaves alone, since it refuses the call or writes less than the result: a block that is too short.
LEFT_ALONE: Dict[str, Sequence[Use]] = {
    **named("poll ppoll", (8, "p, -1, 0, 0, 8", -22)),
    **named("open_by_handle_at", (8, "-1, sized(p, 129), 0", -22)),
    **named("recv recvfrom", (1, "-1, p, 99, MSG_TRUNC, 0, 0", 9)),
    **named("recvmsg", (1, "-1, message(piece(p, 9), 1), MSG_TRUNC", 9)),
    **named("getsockopt", (4, "-1, SOL_NETLINK, NETLINK_LIST_MEMBERSHIPS, p, sized(room, 8)", 0)),
    **named("waitid", (8, "0, 0, 0, WNOHANG, p", 0)),
    **named("gethostname", (1, "0, 9", 0)),
}

HEAD = """
#define _GNU_SOURCE
#include <errno.h>
#include <fcntl.h>
#include <linux/aio_abi.h>
#include <linux/capability.h>
#include <linux/netlink.h>
#include <signal.h>
#include <stdint.h>
#include <stdio.h>
#include <stdlib.h>
#include <string.h>
#include <sys/epoll.h>
#include <sys/ioctl.h>
#include <sys/mman.h>
#include <sys/msg.h>
#include <sys/ptrace.h>
#include <sys/resource.h>
#include <sys/sem.h>
#include <sys/shm.h>
#include <sys/socket.h>
#include <sys/stat.h>
#include <sys/statfs.h>
#include <sys/syscall.h>
#include <sys/sysinfo.h>
#include <sys/timex.h>
#include <sys/uio.h>
#include <sys/wait.h>
#include <unistd.h>
static char room[4096], *pages;
static int zeros, null;
static struct iovec *piece(void *start, size_t size)
{
    static struct iovec all[2];
    static unsigned next;
    struct iovec *it = &all[next++ % 2];
    *it = (struct iovec){start, size};
    return it;
}
static struct msghdr *message(void *pieces, size_t count)
{
    static struct msghdr it;
    it = (struct msghdr){.msg_iov = pieces, .msg_iovlen = count};
    return &it;
}
static struct mmsghdr *messages(void *pieces, size_t count, unsigned length)
{
    static struct mmsghdr it;
    it = (struct mmsghdr){*message(pieces, count), length};
    return &it;
}
static struct iocb *block_of(int operation, void *start, size_t size)
{
    static struct iocb it;
    it = (struct iocb){.aio_lio_opcode = operation, .aio_buf = (uintptr_t)start, .aio_nbytes = size};
    return &it;
}
static void *pointer(void *to) { static void *it; it = to; return &it; }
static void *sized(void *start, uint64_t size) { return memcpy(start, &size, 8); }
static void *rights(void *head) { return sized(head, _LINUX_CAPABILITY_VERSION_3); }
static int pipe_to(void *files) { pipe(files); return *(int *)files; }
#define A(it) ((long)(it))
#define MADE(name, ...) made(syscall(name, __VA_ARGS__))
static long made(long result) { return result < 0 ? -errno : result; }
"""

MAIN = """
struct use { long (*use)(char *); const char *text; size_t size; };
static const struct use uses[] = {
%s
};
int main(int count, char **argv)
{
    size_t less = atol(argv[1]);
    char *edge = (char *)mmap(NULL, 8192, PROT_READ | PROT_WRITE, MAP_PRIVATE | MAP_ANONYMOUS, -1, 0) + 4096;
    mprotect(edge, 4096, PROT_NONE);
    zeros = open("/dev/zero", O_RDONLY);
    null = open("/dev/null", O_WRONLY);
    pages = mmap(NULL, 8192, PROT_READ, MAP_PRIVATE | MAP_ANONYMOUS, -1, 0);
    for (size_t i = 0; i < sizeof uses / sizeof *uses; i++) {
        size_t size = uses[i].size - less;
        char *p = count > 2 ? memset(edge - size, 0, size) : calloc(1, size);
        memset(room, 0, sizeof room);
        if (uses[i].text != NULL)
            memcpy(p, uses[i].text, size);
        long result = uses[i].use(p);
        if (count > 2)
            printf("%%ld\\n", result);
        else
            free(p);
    }
    return 0;
}
"""


def arguments_of(text: str) -> List[str]:
    """What stands between the commas outside of parentheses."""
    parts, depth = [""], 0
    for letter in text:
        depth += (letter == "(") - (letter == ")")
        if letter == "," and depth == 0:
            parts.append("")
        else:
            parts[-1] += letter
    return [f"A({it.strip()})" for it in parts]


def source(uses: Dict[str, Sequence[Use]], are_made: bool = False) -> Tuple[str, Dict[str, str]]:
    """A program that tries each use, or those whose call is made; and what each of its lines is."""
    lines, entries, tried = HEAD.strip().splitlines(), [], {}
    for row in table():
        hooks = [f"__sanitizer_syscall_{moment}_impl_{row.name}" for moment in ("pre", "post")]
        lines.append(f"void {hooks[0]}(), {hooks[1]}();")
        for held, given, result in uses.get(row.name, ()):
            is_made = isinstance(result, str)
            if are_made and not is_made:
                continue
            number, arguments = len(lines) + 1, ", ".join(arguments_of(given))
            made = f"MADE(SYS_{result}, {arguments})" if is_made else result
            lines.append(f"static long use_{number}(char *p) {{ {hooks[0]}({arguments}); "
                         f"long result = A({made}); {hooks[1]}(result, {arguments}); return result; }}")
            is_text = isinstance(held, str) and not held.startswith("sizeof")
            block = f'"{held}", sizeof "{held}"' if is_text else f"NULL, {held}"
            entries.append(f"    {{use_{number}, {block}}},")
            tried[f"hooks.c:{number}"] = f"{row.name}({given})"
    return "\n".join(lines) + MAIN % "\n".join(entries), tried


CALLS_LIBRARY = "int used(int, char **); int main(int count, char **argv) { return used(count, argv); }"


def check_hooks(suite: Suite, folder: str, compiler: Compiler, way: str) -> None:
    """Each use is silent with a block that has room, and found at its line, as a call of that name, with one byte
    less. Nothing is looked at where there is no recorder."""
    text, tried = source(USES)
    write(folder, hooks_c=text, main_c=CALLS_LIBRARY)
    flags = ["-w", "-O1", "-fno-builtin", "-fno-inline", "-fno-optimize-sibling-calls"]
    if way == "-shared":
        compiler.c(folder, ["hooks.c"], f"{folder}/libhooks.so", *flags, way, "-fPIC", "-Dmain=used")
        compiler.c(folder, ["main.c", "./libhooks.so"], f"{folder}/plain", native=True)
        ran = run(["./plain", "1"], folder)
        expect((ran.returncode, ran.stderr), (0, b""), "status of a plain program")
        compiler.c(folder, ["main.c", "./libhooks.so"], f"{folder}/hooks")
    else:
        compiler.c(folder, ["hooks.c"], f"{folder}/hooks", *flags, *way.split())
    ran = run(["./hooks", "1"], folder)
    expect((ran.returncode, ran.stderr), (0, b""), "status, unrecorded")
    for less in (0, 1):
        ran = run(["./hooks", str(less)], folder, ASANCOL_TRACE="t.trace", ASANCOL_WHERE="1")
        expect((ran.returncode, ran.stderr), (0, b""), f"status with {less}")
        said, side = placed(suite.asancol, f"{folder}/t.trace")[0], side_of(f"{folder}/t.trace")
        os.unlink(f"{folder}/t.trace")
        lines = {it.line for it in said}
        if less == 0:
            expect([(it, tried.get(it)) for it in sorted(lines)], [], "reports of good uses")
            continue
        expect([tried[it] for it in tried if it not in lines], [], "what is not found")
        expect(sorted(lines - set(tried)), [], "other lines")
        faults = side.faults()
        places = side.lines([it.place[0] for it in faults])
        named_so = {(line, fault.call) for (_, line), fault in zip(places, faults)}
        wanted = {(line, f"sys_{tried[line].split('(')[0]}") for line in tried}
        expect(named_so, wanted, "names of calls")


# Calls that take a block which is too short: they answer how much of it they have read or written, or look at no more
# with these arguments.
TAKEN = ("capget(p, 0)", "getrandom", "process_vm", "pread64", "pwrite64", "read(", "write(")


def check_sizes(suite: Suite, folder: str, compiler: Compiler) -> None:
    """The system takes a block of that size that ends where memory does, and one byte less is EFAULT."""
    text, tried = source(USES, are_made=True)
    write(folder, hooks_c=text)
    compiler.c(folder, ["hooks.c"], f"{folder}/hooks", "-w")
    whole, less = (run(["./hooks", it, "edge"], folder).stdout.decode().split() for it in ("0", "1"))
    expect((len(whole), len(less)), (len(tried), len(tried)), "results")
    said = list(zip(tried.values(), whole, less))
    fault = str(-errno.EFAULT)
    expect([it for it in said if it[1] == fault], [], "refused")
    taken = [it for it in said if it[2] != fault and int(it[1]) >= 0 and not it[0].startswith(TAKEN)]
    expect(taken, [], "taken")


def check_left_alone(suite: Suite, folder: str, compiler: Compiler) -> None:
    """Nothing is reported of memory that the system leaves alone. Words that are no pointers end no hook, whose call
    would answer EFAULT: in the shadow, beyond all memory, and at no address."""
    words = ("0xdeadbeef", "1ul << 47", "0xdeadul << 48")
    wild: List[Use] = [(1, ", ".join([word] * 6), -errno.EFAULT) for word in words]
    uses: Dict[str, Sequence[Use]] = {row.name: [*wild, *LEFT_ALONE.get(row.name, ())] for row in table()}
    text, tried = source(uses)
    write(folder, hooks_c=text)
    compiler.c(folder, ["hooks.c"], f"{folder}/hooks", "-w")
    ran = run(["./hooks", "0"], folder, ASANCOL_TRACE="t.trace", ASANCOL_WHERE="1")
    expect((ran.returncode, ran.stderr), (0, b""), "status")
    said = placed(suite.asancol, f"{folder}/t.trace")[0]
    expect([tried.get(it.line, it.line) for it in said], [], "reports")


def check_all_tried(suite: Suite, folder: str) -> None:
    checked = {row.name for row in table() if row.word != "NONE"}
    expect(sorted(checked ^ set(USES)), [], "hooks without a use, and uses without a hook")


def tests(suite: Suite, compiler: Compiler) -> None:
    for way in ("", "-static", "-shared"):
        suite.test(f"{compiler} hooks of system calls {way}".rstrip(), check_hooks, compiler, way)
    suite.test(f"{compiler} hooks of system calls: sizes of the system", check_sizes, compiler)
    suite.test(f"{compiler} hooks of system calls: left alone", check_left_alone, compiler)


def tests_of_all(suite: Suite) -> None:
    suite.test("hooks of system calls: all tried", check_all_tried)

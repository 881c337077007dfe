/* Namespaces, other roots, filters of system calls. */
#define _GNU_SOURCE
#include <fcntl.h>
#include <linux/filter.h>
#include <linux/seccomp.h>
#include <sched.h>
#include <signal.h>
#include <sys/mount.h>
#include <sys/prctl.h>
#include <sys/socket.h>
#include <sys/stat.h>
#include <sys/syscall.h>
#include <sys/un.h>
#include <sys/utsname.h>
#include <sys/wait.h>

#include "alone.h"

static void works_on(void)
{
    free(hide(malloc(1000)));
    pid_t child = fork();
    if (child == 0) {
        free(hide(malloc(100000)));
        exit(3);
    }
    say_end("child", child);
}

SITUATION(user_namespace)
{
    TELL(unshare(CLONE_NEWUSER));
    say("%d", (int)getuid());
    works_on();
    become("nothing");
}

SITUATION(process_namespace)
{
    TELL(unshare(CLONE_NEWUSER | CLONE_NEWPID));
    pid_t child = fork();
    if (child == 0) {
        say("%d %d", getpid(), getppid());
        works_on();
        pid_t second = fork();
        if (second == 0) {
            say("%d %d", getpid(), getppid());
            exit(5);
        }
        say_end("second", second);
        exit(4);
    }
    say_end("first", child);
}

SITUATION(network_and_mounts)
{
    TELL(unshare(CLONE_NEWUSER | CLONE_NEWNET | CLONE_NEWNS | CLONE_NEWIPC | CLONE_NEWUTS));
    TELL(sethostname("elsewhere", 9));
    TELL(mount("none", "/mnt", "tmpfs", 0, NULL));
    works_on();
    become("nothing");
}

SITUATION(other_folder_of_temporaries)
{
    TELL(unshare(CLONE_NEWUSER | CLONE_NEWNET | CLONE_NEWNS));
    TELL(mount("none", "/tmp", "tmpfs", 0, NULL));
    works_on();
}

SITUATION(cloned_namespaces)
{
    pid_t child = (pid_t)syscall(SYS_clone, CLONE_NEWUSER | CLONE_NEWPID | SIGCHLD, NULL, NULL, NULL, NULL);
    if (child == 0) {
        say("%d", getpid());
        works_on();
        exit(5);
    }
    say_end("cloned", child);
}

SITUATION(parts_unshared)
{
    TELL(unshare(CLONE_FS));
    TELL(unshare(CLONE_FILES));
    TELL(unshare(CLONE_SIGHAND));
    TELL(unshare(CLONE_VM));
    TELL(unshare(CLONE_THREAD));
    TELL(unshare(CLONE_SYSVSEM));
    works_on();
}

SITUATION(other_root)
{
    mkdir("root", 0700);
    TELL(unshare(CLONE_NEWUSER));
    TELL(chroot("root"));
    TELL(chdir("/"));
    TELL(open("/etc/passwd", O_RDONLY));
    works_on();
    TELL(execl("/bin/true", "true", (char *)NULL));
}

SITUATION(strict_filter)
{
    pid_t child = fork();
    if (child == 0) {
        TELL(prctl(PR_SET_SECCOMP, SECCOMP_MODE_STRICT));
        say("still writes");
        syscall(SYS_exit, 5);
    }
    say_end("strict", child);
    child = fork();
    if (child == 0) {
        prctl(PR_SET_SECCOMP, SECCOMP_MODE_STRICT);
        _exit(5);
    }
    say_end("strict", child);
}

/* From here on only these calls are let pass: others end the process, or fail. */
static void filter(unsigned other)
{
    static const unsigned good[] = {SYS_write, SYS_read,  SYS_exit_group, SYS_exit,     SYS_rt_sigreturn,
                                    SYS_brk,   SYS_mmap,  SYS_munmap,     SYS_mprotect, SYS_madvise,
                                    SYS_futex, SYS_close, SYS_newfstatat, SYS_mremap};
    enum { GOOD = sizeof good / sizeof *good };
    struct sock_filter rules[GOOD + 3];
    rules[0] = (struct sock_filter)BPF_STMT(BPF_LD | BPF_W | BPF_ABS, offsetof(struct seccomp_data, nr));
    for (size_t i = 0; i < GOOD; i++)
        rules[i + 1] = (struct sock_filter)BPF_JUMP(BPF_JMP | BPF_JEQ | BPF_K, good[i], (unsigned char)(GOOD - i), 0);
    rules[GOOD + 1] = (struct sock_filter)BPF_STMT(BPF_RET | BPF_K, other);
    rules[GOOD + 2] = (struct sock_filter)BPF_STMT(BPF_RET | BPF_K, SECCOMP_RET_ALLOW);
    struct sock_fprog program = {GOOD + 3, rules};
    TELL(prctl(PR_SET_NO_NEW_PRIVS, 1, 0, 0, 0));
    TELL(prctl(PR_SET_SECCOMP, SECCOMP_MODE_FILTER, &program));
}

static void works_inside(void)
{
    for (size_t i = 1; i < 200; i++)
        free(hide(malloc(i * 1000)));
    printf("printed\n");
}

SITUATION(filter_that_kills)
{
    filter(SECCOMP_RET_KILL_PROCESS);
    works_inside();
}

SITUATION(filter_that_kills_at__exit)
{
    filter(SECCOMP_RET_KILL_PROCESS);
    works_inside();
    _exit(6);
}

SITUATION(filter_that_kills_at_quick_exit)
{
    filter(SECCOMP_RET_KILL_PROCESS);
    quick_exit(6);
}

SITUATION(filter_that_refuses)
{
    filter(SECCOMP_RET_ERRNO | EPERM);
    works_inside();
    TELL(fork());
    TELL(socket(AF_UNIX, SOCK_STREAM, 0));
    TELL(getpid() > 0);
    TELL(execl("/bin/true", "true", (char *)NULL));
    exit(7);
}

SITUATION(filter_that_refuses_as_unknown)
{
    filter(SECCOMP_RET_ERRNO | ENOSYS);
    works_inside();
    TELL(fork());
    exit(7);
}

SITUATION(no_new_rights)
{
    TELL(prctl(PR_SET_NO_NEW_PRIVS, 1, 0, 0, 0));
    works_on();
    become("nothing");
}

SITUATION(not_dumpable)
{
    TELL(prctl(PR_SET_DUMPABLE, 0));
    works_on();
    TELL(prctl(PR_GET_DUMPABLE));
    become("nothing");
}

"""Programs that shut themselves off: with filters of system calls, and in children that they make as sandboxes do."""

import itertools
import os
from typing import Iterator, List, Tuple

from own_runs import run_alone
from support import CC, REPORT, Ran, Suite, call, compilers_there, expect, expect_ran, leave_out, write_text

FREED = "heap-use-after-free: load of 1 byte"

# The words are a list of calls, what the filter does at all others, good or bad, and the way out.
FILTERED = """
#define _GNU_SOURCE
#include <linux/filter.h>
#include <linux/seccomp.h>
#include <stddef.h>
#include <stdlib.h>
#include <string.h>
#include <sys/prctl.h>
#include <sys/syscall.h>
#include <unistd.h>
#define A(name) BPF_JUMP(BPF_JMP + BPF_JEQ + BPF_K, SYS_##name, 0, 1), BPF_STMT(BPF_RET + BPF_K, SECCOMP_RET_ALLOW)
#define FRONT BPF_STMT(BPF_LD + BPF_W + BPF_ABS, offsetof(struct seccomp_data, nr))
static struct sock_filter ssh[] = {FRONT, A(read), A(write), A(close), A(brk), A(mmap), A(munmap), A(mremap),
    A(madvise), A(exit), A(exit_group), A(rt_sigprocmask), A(clock_gettime), A(gettimeofday), A(getpid),
    A(getrandom), A(poll),
    A(ppoll), A(pselect6), A(select), A(shutdown), A(futex), A(geteuid), A(nanosleep), FRONT};
static struct sock_filter few[] = {FRONT, A(read), A(write), A(exit_group), A(exit), A(mmap), A(munmap), A(brk), FRONT};
static struct sock_filter least[] = {FRONT, A(read), A(write), A(exit_group), A(exit), FRONT};
static int is(const char *word, const char *name) { return strcmp(word, name) == 0; }
static void install(struct sock_filter *filter, size_t count, const char *how, int by_number) {
    unsigned action = is(how, "kill")      ? SECCOMP_RET_KILL_THREAD
                      : is(how, "process") ? SECCOMP_RET_KILL_PROCESS
                      : is(how, "trap")    ? SECCOMP_RET_TRAP
                                           : SECCOMP_RET_ERRNO | 1;
    struct sock_fprog program = {(unsigned short)count, filter};
    filter[count - 1] = (struct sock_filter)BPF_STMT(BPF_RET + BPF_K, action);
    if (prctl(PR_SET_NO_NEW_PRIVS, 1, 0, 0, 0) != 0
        || (by_number ? syscall(SYS_seccomp, SECCOMP_SET_MODE_FILTER, 0, &program)
                      : prctl(PR_SET_SECCOMP, SECCOMP_MODE_FILTER, &program)) != 0)
        _exit(9); }
int main(int count, char **argv) {
    const char *list = argv[1], *how = argv[2], *end = argv[4];
    char *volatile kept = malloc(100), *volatile freed = malloc(100);
    volatile char used = (char)count;
    int allocates = !is(list, "least") && !is(list, "strict");
    free(freed);
    if (is(list, "ssh")) install(ssh, sizeof ssh / sizeof *ssh, how, 0);
    if (is(list, "few")) install(few, sizeof few / sizeof *few, how, 1);
    if (is(list, "least")) install(least, sizeof least / sizeof *least, how, 0);
    if (is(list, "strict") && prctl(PR_SET_SECCOMP, SECCOMP_MODE_STRICT, 0, 0, 0) != 0) _exit(9);
    for (size_t i = 0; allocates && i < 1000; i++) {
        char *volatile some = malloc(i < 980 ? 10 * i + 1 : 300000);
        some[0] = 1;
        free(some);
    }
    if (write(1, "end", 3) != 3) return 8;
    if (is(argv[3], "bad")) used = freed[5];
    free(kept);
    if (is(end, "_exit")) _exit(3);
    if (is(end, "group")) syscall(SYS_exit_group, 3);
    if (is(end, "thread")) syscall(SYS_exit, 3);
    return 3; }
"""


def filtered_words() -> Iterator[Tuple[str, str, str]]:
    for list_, how, end in itertools.product(("ssh", "few", "least"), ("kill", "process", "trap", "errno"),
                                             ("return", "_exit", "group", "thread")):
        if how != "process" or list_ == "ssh":
            yield list_, how, end
    yield "strict", "kill", "thread"


def check_filters(suite: Suite, folder: str, compiler: str) -> None:
    """A program whose filter ends it at all other calls than its own lives, and its errors are found: without a run,
    under asancol-run, and with a run of its own. AddressSanitizer's dies of most of these filters."""
    write_text(f"{folder}/f.c", FILTERED)
    call([CC, "-g", "-w", "-O1", "f.c", "-o", "f"], cwd=folder, env=suite.environment(ASANCOL_CC=compiler), check=True)
    program = f"{folder}/f"
    for words in filtered_words():
        argv = [program, *words[:2], "good", words[2]]
        bad = [program, *words[:2], "bad", words[2]]
        ran = suite.run_argv(argv)
        if ran.status == 9:
            leave_out("filters of system calls: the system takes none")
            return
        alone: List[Ran] = [ran, suite.run_argv(bad), suite.run("-q", "--leaks=no", "--", *argv, ASANCOL_REPORT=REPORT),
                            run_alone(suite, *argv, ASAN_OPTIONS="detect_leaks=0")]
        for ran in alone:
            expect((ran.status, ran.out, ran.err), (3, "end", ""), words)
        for ran in (suite.run("--", *bad, ASANCOL_REPORT=REPORT), run_alone(suite, *bad)):
            expect_ran(ran, 99, FREED, "1 report at 1 place; 1 process, ")


# Each way makes a child, which does what its parent does later, and so does a child of that.
CHILDREN = """
#define _GNU_SOURCE
#include <linux/sched.h>
#include <sched.h>
#include <signal.h>
#include <stdlib.h>
#include <string.h>
#include <sys/syscall.h>
#include <sys/wait.h>
#include <unistd.h>
static char stack[65536] __attribute__((aligned(16)));
static __attribute__((noinline)) void past(void) {
    volatile char *volatile block = malloc(8);
    block[8] = 1;
    free((void *)block); }
static int in_clone(void *with) { past(); return *(int *)with; }
static int quiet(void *with) { return *(int *)with; }
static int is(const char *word, const char *name) { return strcmp(word, name) == 0; }
int main(int count, char **argv) {
    const char *way = argv[1], *what = count > 2 ? argv[2] : "";
    char *words[] = {argv[0], "nothing", NULL};
    int status = 0, seven = 7;
    int all = CLONE_NEWPID | CLONE_NEWUSER | CLONE_NEWNET | CLONE_NEWNS | CLONE_NEWIPC | CLONE_NEWUTS;
    int flags = is(what, "spaces") ? all : is(what, "files") ? CLONE_FILES : is(what, "parent") ? CLONE_PARENT : 0;
    long child = -2;
    struct clone_args args = {.flags = (unsigned)flags, .exit_signal = SIGCHLD};
    if (is(way, "number")) child = syscall(SYS_clone, SIGCHLD | flags, 0, 0, 0, 0);
    if (is(way, "fork")) child = syscall(SYS_fork);
    if (is(way, "three")) child = syscall(SYS_clone3, &args, sizeof args);
    if (is(way, "_Fork")) child = _Fork();
    if (is(way, "clone")) child = clone(in_clone, stack + sizeof stack, SIGCHLD | flags, &seven);
    if (is(way, "vfork")) child = clone(quiet, stack + sizeof stack, SIGCHLD | CLONE_VM | CLONE_VFORK, &seven);
    if (is(way, "memory")) child = clone(quiet, stack + sizeof stack, SIGCHLD | CLONE_VM, &seven);
    if (is(way, "refused") && syscall(SYS_clone, SIGCHLD | CLONE_SIGHAND, 0, 0, 0, 0) == -1
        && syscall(SYS_clone3, 8, sizeof args) == -1 && syscall(SYS_clone3, &args, 3) == -1
        && clone(in_clone, stack + sizeof stack, CLONE_SIGHAND, &seven) == -1) { past(); return 0; }
    if (is(way, "execs")) { past(); syscall(SYS_execve, "/proc/self/exe", words, environ); return 8; }
    if (is(way, "nothing")) { past(); syscall(SYS_exit, 7); }
    if (child == -1) return 9;
    if (child == 0) {
        past();
        if (fork() == 0) { past(); syscall(SYS_exit_group, 0); }
        wait(NULL);
        if (is(what, "spaces") && getpid() != 1) _exit(8);
        syscall(SYS_exit, 7);
    }
    if (flags & CLONE_PARENT) { usleep(300000); return 0; }
    if (waitpid(child, &status, 0) != child || WEXITSTATUS(status) != 7) return 8;
    past();
    return 0; }
"""

# How many processes there are, of which each has one report.
MADE = {"number": 3, "fork": 3, "three": 3, "_Fork": 3, "clone": 2, "vfork": 1, "memory": 1, "refused": 1}


def check_children(suite: Suite, folder: str, compiler: str) -> None:
    """A child with a copy of the memory is recorded, however it was made."""
    write_text(f"{folder}/c.c", CHILDREN)
    call([CC, "-g", "-w", "-O1", "c.c", "-o", "c"], cwd=folder, env=suite.environment(ASANCOL_CC=compiler), check=True)
    program = f"{folder}/c"
    for way, count in MADE.items():
        ran = suite.run("--leaks=no", "--", program, way, ASANCOL_REPORT=REPORT)
        expect_ran(ran, 99, f"{count} report{'s' * (count > 1)} at 1 place; {count} process{'es' * (count > 1)}, ",
                   "all complete")
    for way in ("number", "three", "clone"):
        ran = suite.run("--leaks=no", "--", program, way, "spaces", ASANCOL_REPORT=REPORT)
        if ran.status == 9:
            leave_out("children in namespaces of their own: the system makes none")
            break
        expect_ran(ran, 99, f"{MADE[way]} reports at 1 place; {MADE[way]} processes, ", "all complete")
    ran = suite.run("--leaks=no", "--", program, "number", "parent", ASANCOL_REPORT=REPORT)
    expect_ran(ran, 99, "2 reports at 1 place; 3 processes, ", "all complete")
    ran = suite.run("--leaks=no", "--", program, "number", "files", ASANCOL_REPORT=REPORT)
    expect_ran(ran, 99, "INCOMPLETE: it was not made by fork, but by a call of the system")
    ran = suite.run("--leaks=no", "--", program, "execs", ASANCOL_REPORT=REPORT)
    expect_ran(ran, 99, "2 reports at 1 place; 2 processes, ", "all complete")
    expect_ran(run_alone(suite, program, "nothing"), 99, "1 report at 1 place; 1 process, ")


# As bubblewrap: nothing leads from the new root and the new network to the run.
BOXED = """
#define _GNU_SOURCE
#include <fcntl.h>
#include <pthread.h>
#include <sched.h>
#include <stdlib.h>
#include <string.h>
#include <sys/mount.h>
#include <sys/stat.h>
#include <sys/syscall.h>
#include <sys/wait.h>
#include <unistd.h>
static __attribute__((noinline)) void past(void) {
    volatile char *volatile block = malloc(8);
    block[8] = 1;
    free((void *)block); }
static void tell(const char *name, const char *text) {
    int file = open(name, O_WRONLY);
    if (file >= 0) { write(file, text, strlen(text)); close(file); } }
int main(int count, char **argv) {
    int flags = CLONE_NEWNS | CLONE_NEWNET | CLONE_NEWPID | (geteuid() != 0 ? CLONE_NEWUSER : 0), status = 0;
    char place[100];
    if (unshare(flags) != 0) return 9;
    if (flags & CLONE_NEWUSER) tell("/proc/self/uid_map", "0 1000 1\\n");
    if (mount(NULL, "/", NULL, MS_REC | MS_PRIVATE, NULL) != 0 || mount("none", argv[1], "tmpfs", 0, NULL) != 0)
        return 9;
    if (chdir(argv[1]) != 0 || mkdir("in", 0700) != 0 || mkdir("proc", 0700) != 0) return 8;
    if (count > 2 && mount("/proc", "proc", NULL, MS_BIND | MS_REC, NULL) != 0) return 9;
    if (syscall(SYS_pivot_root, ".", ".") != 0 || umount2(".", MNT_DETACH) != 0 || chdir("/in") != 0) return 8;
    if (fork() == 0) {
        if (fork() == 0) { past(); _exit(0); }
        wait(&status);
        _exit(status != 0 || getcwd(place, sizeof place) == NULL || strcmp(place, "/in") != 0); }
    wait(&status);
    return status != 0 ? 7 : 0; }
"""


def check_boxed(suite: Suite, folder: str, compiler: str) -> None:
    """Children in another root and another network are recorded, and their current folder stays, with /proc and without
    it. So is one that goes on in a further segment."""
    write_text(f"{folder}/b.c", BOXED)
    os.mkdir(f"{folder}/root")
    call([CC, "-g", "-w", "b.c", "-o", "b"], cwd=folder, env=suite.environment(ASANCOL_CC=compiler), check=True)
    argv = [f"{folder}/b", f"{folder}/root"]
    for words in ((), ("proc",)):
        ran = suite.run("--leaks=no", "--", *argv, *words, ASANCOL_REPORT=REPORT)
        if ran.status == 9:
            leave_out("children in another root: the system makes none")
            return
        expect_ran(ran, 99, "1 report at 1 place; 3 processes, ", "all complete", " in past ")
    ran = suite.run("--full", "--leaks=no", "--", *argv, ASANCOL_REPORT=REPORT, ASANCOL_LIMIT="4")
    expect_ran(ran, 99, "1 report at 1 place; 3 processes, ", "all complete")
    expect_ran(run_alone(suite, *argv, ASAN_OPTIONS="detect_leaks=0"), 99, "heap-buffer-overflow", "1 process, ")


def tests(suite: Suite) -> None:
    for compiler in compilers_there():
        suite.test(f"sandbox: filters, {compiler}", check_filters, compiler)
        suite.test(f"sandbox: children, {compiler}", check_children, compiler)
        suite.test(f"sandbox: another root, {compiler}", check_boxed, compiler)

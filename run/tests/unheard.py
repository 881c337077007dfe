"""Programs of asancol-cc that die before main, lose their environment, or cannot reach the hub: the verdict names
them."""

import itertools
import os
import select
import shutil
import socket
import string
import threading
from functools import partial
from typing import List, Tuple

from support import (
    CC, REPORT, RUN, Suite, expect, expect_in, expect_ran, finish, hash_of, leave_out, mark_of, wait_until, write_text,
)
from testing.programs import accept, call, join

# Dies in its first constructor, in the way that its environment says; and is a library that does so, too.
DIES = """
#include <signal.h>
#include <stdlib.h>
#include <string.h>
#include <unistd.h>
int in_library(void);
#ifndef LIBRARY
int main(void) { return IN_LIBRARY ? in_library() : 0; }
#else
int in_library(void) { return 0; }
#endif
#if defined LIBRARY || !IN_LIBRARY
__attribute__((constructor(101))) static void first(void) {
    const char *way = getenv("WAY");
    char *block = malloc(5);
    if (way == NULL) return;
    if (strcmp(way, "segfault") == 0) *(volatile int *)8 = 1;
    if (strcmp(way, "abort") == 0) abort();
    if (strcmp(way, "trap") == 0) raise(SIGTRAP);
    if (strcmp(way, "kill") == 0) kill(getpid(), SIGKILL);
    if (strcmp(way, "past") == 0) block[5] = 1;
    if (strcmp(way, "exit") == 0) exit(3);
    free(block);
}
#endif
"""

# The status: a report, what ended by itself, and what did not come as far as main.
STATUSES = {"past": 99, "exit": 0}
INCOMPLETE = 98

# What the verdict says of each.
WAYS: List[Tuple[str, str]] = [
    ("segfault", "dies: ended by SIGSEGV, by a store at address 0x8\n    #0"),
    ("abort", "dies: ended by SIGABRT\n    #0"),
    ("abort", "dies: INCOMPLETE: ended by SIGABRT before main"),
    ("trap", "dies: ended by SIGTRAP\n"),
    ("kill", "dies: INCOMPLETE: ended abruptly, such as by SIGKILL, or by an _exit or exec in a library, before main"),
    ("past", "heap-buffer-overflow: store of 1 byte"),
    ("exit", "asancol: no reports; 1 process, "),
]


# Runs a program in a way that its first word says.
PARENT = """
#define _GNU_SOURCE
#include <fcntl.h>
#include <spawn.h>
#include <stdlib.h>
#include <string.h>
#include <sys/resource.h>
#include <sys/wait.h>
#include <unistd.h>
static int is(const char *way, const char *what) { return strcmp(way, what) == 0; }
static void limit(void) {
    if (getenv("NO_DESCRIPTORS")) setrlimit(RLIMIT_NOFILE, &(struct rlimit){0, 0});
}
int main(int count, char **argv) {
    const char *way = argv[1];
    char **rest = argv + 2, *none[] = {NULL};
    pid_t child = 0;
    if (is(way, "clearenv")) clearenv();
    if (is(way, "spawn") || is(way, "spawnp")) {
        limit();
        if ((is(way, "spawn") ? posix_spawn : posix_spawnp)(&child, *rest, NULL, NULL, rest, environ)) return 1;
    } else if (is(way, "vfork") ? (child = vfork()) == 0 : is(way, "exec") || (child = fork()) == 0) {
        limit();
        if (is(way, "empty")) execve(*rest, rest, none);
        else if (is(way, "fexecve")) fexecve(open(*rest, O_RDONLY | O_CLOEXEC), rest, environ);
        else execvp(*rest, rest);
        _exit(127);
    }
    waitpid(child, NULL, 0);
    return 0;
}
"""

# Programs that die before any code of theirs runs, or in a resolver.
GOOD = "int main(void) { return 0; }"
NEEDS = "int in_library(void); int main(void) { return in_library(); }"
RESOLVES = """
static void chosen(void) {}
__attribute__((no_sanitize_address)) static void (*resolve(void))(void) { *(volatile int *)8 = 1; return chosen; }
void call(void) __attribute__((ifunc("resolve")));
int main(void) { call(); return 0; }
"""
# Dies before all constructors.
EARLY = """
static void early(int count, char **argv) { if (count > 1) *(volatile int *)8 = 1; }
__attribute__((section(".preinit_array"), used)) static void (*const entry)(int, char **) = early;
int main(void) { return 0; }
"""
# Loads a library; into a namespace of its own, if it is asked for.
HOST = """
#define _GNU_SOURCE
#include <dlfcn.h>
int main(int count, char **argv) {
    return (count > 2 ? dlmopen(LM_ID_NEWLM, argv[1], RTLD_NOW) : dlopen(argv[1], RTLD_NOW)) == 0;
}
#ifdef OTHER_RELEASE
#include <sys/mman.h>
static __attribute__((constructor)) void change(void) {
    unsigned long *release = (unsigned long *)0x500000000000; /* recorder/libc/hook_page.h */
    if (mprotect(release, 4096, PROT_READ | PROT_WRITE) == 0)
        ++*release;
}
#endif
"""
# Forbids all that leads to the hub, and then forks, or becomes another program; or a fork fails.
ALONE = """
#define _GNU_SOURCE
#include <errno.h>
#include <fcntl.h>
#include <linux/filter.h>
#include <linux/seccomp.h>
#include <stddef.h>
#include <stdlib.h>
#include <string.h>
#include <sys/prctl.h>
#include <sys/syscall.h>
#include <sys/wait.h>
#include <unistd.h>
#define AT(field) BPF_STMT(BPF_LD | BPF_W | BPF_ABS, offsetof(struct seccomp_data, field))
#define IF(kind, value, yes, no) BPF_JUMP(BPF_JMP | kind | BPF_K, value, yes, no)
static void forbid(int first, int second, int third) {
    struct sock_filter lines[] = {
        AT(nr), IF(BPF_JEQ, first, 6, 0), IF(BPF_JEQ, second, 5, 0), IF(BPF_JEQ, third, 4, 0),
        IF(BPF_JEQ, SYS_openat, 0, 2), AT(args[2]), IF(BPF_JSET, O_CREAT, 1, 0),
        BPF_STMT(BPF_RET, SECCOMP_RET_ALLOW), BPF_STMT(BPF_RET, SECCOMP_RET_ERRNO | EAGAIN),
    };
    struct sock_fprog filter = {sizeof lines / sizeof *lines, lines};
    if (prctl(PR_SET_NO_NEW_PRIVS, 1, 0, 0, 0) || prctl(PR_SET_SECCOMP, SECCOMP_MODE_FILTER, &filter)) exit(1);
}
int main(int count, char **argv) {
    if (strcmp(argv[1], "fails") == 0) {
        forbid(SYS_clone, SYS_clone3, SYS_fork);
        errno = 0;
        return fork() == -1 && errno == EAGAIN ? 0 : 1;
    }
    if (strcmp(argv[1], "forks") == 0) {
        errno = EXDEV;
        if (fork() == 0) _exit(errno == EXDEV ? 0 : 1);
        int status;
        return errno == EXDEV && wait(&status) > 0 && status == 0 ? 0 : 1;
    }
    forbid(SYS_socket, SYS_symlink, SYS_symlinkat);
    if (strcmp(argv[1], "exec") == 0) execv(argv[2], argv + 2);
    for (int i = 0; i < 2; i++)
        if (fork() == 0) { if (count > 2) execv(argv[2], argv + 2); _exit(0); }
    while (wait(NULL) > 0) continue;
    return 0;
}
"""
# Starts itself and ends that at once, or once it is before its main.
KILLS = """
#include <signal.h>
#include <stdlib.h>
#include <string.h>
#include <sys/wait.h>
#include <unistd.h>
__attribute__((constructor)) static void waits(int count, char **argv) {
    if (count < 2 || strcmp(argv[1], "waits")) return;
    if (getenv("BUG")) ((char *volatile)malloc(5))[5] = 1;
    write(1, "x", 1);
    pause();
}
int main(int count, char **argv) {
    int ends[2], number = atoi(argv[1]), times = atoi(argv[2]);
    char byte;
    for (int i = 0; i < times; i++) {
        pipe(ends);
        pid_t child = fork();
        if (child == 0) { dup2(ends[1], 1); close(ends[1]); execl(argv[0], argv[0], "waits", NULL); }
        close(ends[1]);
        if (count > 3) usleep(i * 300);
        else read(ends[0], &byte, 1);
        kill(child, number);
        close(ends[0]);
        if (count > 4) continue;
        waitpid(child, &number, 0);
        number = WTERMSIG(number);
    }
    return 0;
}
"""
STARTS = ("exec", "fork", "vfork", "spawn", "spawnp", "fexecve")
NEVER = "INCOMPLETE: it ended before its recording began"
# Leaks, frees and has a bad access, or starts another one of itself so, without an environment.
LOST = """
#include <stdlib.h>
#include <string.h>
#include <sys/wait.h>
#include <unistd.h>
int main(int count, char **argv) {
    char *none[] = {NULL};
    char *volatile block = malloc(5);
    int starts = count > 2 && strcmp(argv[2], "starts") == 0;
    for (int i = 0; i < 9 && count > 1 && strchr(argv[1], 'l'); i++) block = malloc(7);
    if (count > 1 && strchr(argv[1], 'b')) block[7] = 1;
    if (count > 1 && strchr(argv[1], 'f')) { free(block); block[0] = 1; }
    if (starts && fork() == 0) execve(argv[0], (char *[]){argv[0], "b", NULL}, none);
    return starts && wait(NULL) < 0;
}
"""


def build(folder: str, name: str, text: str, *flags: str, compiler: str = CC) -> str:
    """Builds a program, or what the flags say, and answers where it is."""
    made, source = f"{folder}/{name}", f"{folder}/{name.partition('.')[0]}.c"
    with open(source, "w", encoding="utf-8") as file:
        file.write(text)
    call([*compiler.split(), "-g", "-w", source, "-o", made, *flags], check=True)
    return made


def check_constructor(suite: Suite, folder: str, is_library: bool) -> None:
    flags = [f"-DIN_LIBRARY={int(is_library)}"]
    if is_library:
        library = build(folder, "libdies.so", DIES, "-DLIBRARY", "-shared", "-fPIC", *flags)
        flags += [library, f"-Wl,-rpath,{folder}"]
    program = build(folder, "dies", DIES, *flags)
    for way, text in WAYS:
        ran = suite.run("--", "sh", "-c", f"WAY={way} {program}; true", ASANCOL_REPORT=REPORT)
        expect_in(ran.err, text, "1 process, ")
        expect(ran.status, STATUSES.get(way, INCOMPLETE), f"status of {way}")


def check_killed(suite: Suite, folder: str) -> None:
    """A child that another process ends before it has come to its main, as a test's that is over, is a line. What ended
    by a mistake is not, nor what had a bug."""
    build(folder, "kills", KILLS)
    for number in (9, 15, 2):
        ran = suite.run("--leaks=no", "--", "./kills", str(number), "1", cwd=folder)
        expect_ran(ran, 0, " before main: seen up to there", "; all complete, 1 ended abruptly")
        waits: Tuple[List[str], ...] = ([], ["not waited for"])
        for not_waited in waits:
            ran = suite.run("--leaks=no", "--", "./kills", str(number), "8", "at once", *not_waited, cwd=folder)
            expect_ran(ran, 0, "; all complete")
    for number in (11, 6, 31):
        ran = suite.run("--leaks=no", "--", "./kills", str(number), "1", cwd=folder, ASANCOL_REPORT=REPORT)
        expect_ran(ran, 98, "kills: INCOMPLETE: ended by SIG", " before main")
    ran = suite.run("--leaks=no", "--", "./kills", "9", "1", cwd=folder, BUG="1", ASANCOL_REPORT=REPORT)
    expect_ran(ran, 99, " before main", "1 report at 1 place")


# Executes itself, is ended before the new program has begun, and is waited for.
ENDS_EARLY = """
#include <signal.h>
#include <stdlib.h>
#include <sys/ptrace.h>
#include <sys/resource.h>
#include <sys/wait.h>
#include <unistd.h>
int main(int count, char **argv) {
    int status;
    siginfo_t how;
    struct rusage used;
    pid_t child = fork();
    if (child == 0) {
        ptrace(PTRACE_TRACEME, 0, NULL, NULL);
        execl(argv[0], argv[0], "never", "begins", NULL);
    }
    waitpid(child, &status, 0);
    ptrace(PTRACE_DETACH, child, NULL, (void *)atol(argv[1]));
    switch (*argv[2]) {
    case 's': return waitpid(child, &status, 0) != child;
    case 'n': return waitpid(child, NULL, 0) != child;
    case 'w': return wait(NULL) != child;
    case '3': return wait3(NULL, 0, &used) != child;
    case '4': return wait4(child, NULL, 0, NULL) != child;
    case 'i': return waitid(P_PID, child, &how, WEXITED) != 0 || how.si_pid != child;
    case 'I': return waitid(P_PID, child, NULL, WEXITED) != 0;
    default: return 0;
    }
}
"""


NAMES = {9: "SIGKILL", 10: "SIGUSR1", 13: "SIGPIPE", 14: "SIGALRM", 15: "SIGTERM", 40: "signal 40"}


def check_ended_early(suite: Suite, folder: str) -> None:
    """A program that another process ends between its exec and its start has no mistake, however its parent waits for
    it. If a fault ended it nobody knows more."""
    build(folder, "early", ENDS_EARLY)
    for number, way in (*((9, way) for way in "snw34iIo"), *((number, "n") for number in (15, 14, 10, 13, 40))):
        ran = suite.run("--leaks=no", "--", "./early", str(number), way, cwd=folder)
        expect_ran(ran, 0, f"early: it ended before its recording began, by {NAMES[number]}: seen up to there",
                   "; all complete, 1 ended abruptly")
    ran = suite.run("--leaks=no", "--", "./early", "11", "n", cwd=folder)
    expect_ran(ran, 98, f"early: {NEVER}, by SIGSEGV", "; 1 INCOMPLETE")


OVERFLOWS = """
#include <stdlib.h>
int main(int count, char **argv) {
    char *volatile text = malloc(5);
    text[5] = 1;
    free(text);
    return 0;
}
"""


def check_found_run(suite: Suite, folder: str) -> None:
    """A process without an environment finds its run where that has an odd folder, and in real time, where the system
    takes the mark away."""
    build(folder, "overflows", OVERFLOWS)
    os.mkdir(f"{folder}/two\nlines")
    ran = suite.run("--", "env", "-i", "./overflows", cwd=folder, TMPDIR=f"{folder}/two\nlines", ASANCOL_REPORT=REPORT)
    expect_ran(ran, 99, "1 report at 1 place; 1 process, ")
    chrt = ["chrt", "-f", "1"]
    if os.geteuid() != 0 or not shutil.which("chrt") or call([*chrt, "true"], check=False).returncode != 0:
        leave_out("a process in real time: nobody but root may start one, by chrt")
        return
    ran = suite.run("--", *chrt, "env", "-i", "./overflows", cwd=folder, ASANCOL_REPORT=REPORT)
    expect_ran(ran, 99, "1 report at 1 place; 1 process, ")


def build_family(folder: str) -> None:
    """Builds a parent, and what it runs."""
    for name, text in (("parent", PARENT), ("good", GOOD), ("resolves", RESOLVES)):
        build(folder, name, text)
    library = build(folder, "libgone.so", DIES, "-DLIBRARY", "-shared", "-fPIC", "-DIN_LIBRARY=1")
    build(folder, "needs", NEEDS, library)
    os.unlink(library)
    build(folder, "plain", GOOD, compiler="cc")
    with open(f"{folder}/script", "w", encoding="utf-8") as file:
        file.write(f"#! {folder}/resolves\n")
    os.chmod(f"{folder}/script", 0o755)
    call(["strip", f"{folder}/resolves"], check=True)


def check_plain_parent(suite: Suite, folder: str) -> None:
    """What runs first of a program, and its resolvers, also where nobody recorded has started it."""
    good = build(folder, "good", GOOD)
    resolves = build(folder, "resolves", RESOLVES)
    ran = suite.run("--", "sh", "-c", f"{resolves}; {good}")
    expect_ran(ran, 98, f"{resolves}: {NEVER}", "2 processes, ", "; 1 INCOMPLETE")
    for flags in ((), ["-no-pie"], ["-static"]):
        early = build(folder, "early", EARLY, *flags)
        ran = suite.run("--", "sh", "-c", f"{early} now; {early}; true", ASANCOL_REPORT=REPORT)
        expect_in(ran.err, f"{early}: ended by SIGSEGV, by a store at address 0x8\n    #0 0x", "2 processes, ")


def check_recorded_parent(suite: Suite, folder: str) -> None:
    """What a recorded process becomes or begins is expected to connect, if asancol-cc has built it."""
    build_family(folder)
    for way in STARTS:
        for name in ("resolves", "needs"):
            ran = suite.run("--", "./parent", way, f"{folder}/{name}", cwd=folder)
            expect_ran(ran, 98, f"{folder}/{name}: {NEVER}", "; 1 INCOMPLETE")
        for name, text in (("good", "; all complete\n"), ("plain", "; not checked: 1 program: plain (not built")):
            ran = suite.run("--", "./parent", way, f"./{name}", cwd=folder)
            expect_ran(ran, 0, text)
    expect_ran(suite.run("--", "./parent", "exec", "./script", cwd=folder), 98, f"./script: {NEVER}, by SIGSEGV")
    expect_ran(suite.run("--", "./parent", "exec", "./needs", cwd=folder), 98, f"./needs: {NEVER}, with status 127")
    ran = suite.run("--", "./parent", "spawnp", "resolves", cwd=folder, PATH=f"/none:{folder}:{os.environ['PATH']}")
    expect_ran(ran, 98, f"resolves: {NEVER}")
    expect_ran(suite.run("--", "./parent", "fork", "./nowhere", cwd=folder), 0, "all complete")
    for name in ("=1", "=" + "x" * 50, f"{folder}/{'deep' * 20}"):
        os.symlink("resolves", os.path.join(folder, name))
        ran = suite.run("--", "./parent", "spawn", name, cwd=folder)
        expect_ran(ran, 98, f"{name}: {NEVER}", "; 1 INCOMPLETE")


def check_no_descriptors(suite: Suite, folder: str, compiler: str) -> None:
    """A program that is started with no descriptor left, neither to look at it nor for its libraries."""
    for name, text in (("parent", PARENT), ("good", GOOD)):
        build(folder, name, text, compiler=f"env ASANCOL_CC={compiler} {CC}")
    for way in ("exec", "fork", "vfork", "spawn", "spawnp"):
        ran = suite.run("--", "./parent", way, "./good", cwd=folder, NO_DESCRIPTORS="1")
        expect_ran(ran, 98,
                   "./good: INCOMPLETE: nothing came of it, and no descriptor was left to see if asancol-cc "
                   "built it", "; 1 INCOMPLETE")


def check_lost_environment(suite: Suite, folder: str) -> None:
    """A process whose environment was cleaned finds the run, and is recorded as any other, with its settings."""
    build_family(folder)
    build(folder, "lost", LOST)
    for line in ("env -i ./good", "env -u ASANCOL_HUB ./good", "ASANCOL_HUB= ./good"):
        expect_ran(suite.run("--", "sh", "-c", f"{line}; ./good", cwd=folder), 0, "2 processes, ", "all complete")
    for way in ("empty", "clearenv"):
        for name in ("good", "plain"):
            expect_ran(suite.run("--", "./parent", way, f"./{name}", cwd=folder), 0, "all complete")
    ran = suite.run("--leaks=no", "--", "env", "-i", "./lost", "b", "starts", cwd=folder, ASANCOL_REPORT=REPORT)
    expect_ran(ran, 99, "2 reports at 1 place; 3 processes, ", "all complete")
    ran = suite.run("--leaks=yes", "--", "env", "-i", "./lost", "l", cwd=folder, ASANCOL_REPORT=REPORT)
    expect_ran(ran, 99, "2 places;")
    inner = [f"ASANCOL={suite.asancol}", RUN, "-q", "--leaks=no", "--", "./lost", "b"]
    ran = suite.run("--", "env", "-i", f"PATH={os.environ['PATH']}", *inner, cwd=folder, ASANCOL_REPORT=REPORT)
    expect_ran(ran, 99, "1 process in 2 runs, ")
    expect_ran(suite.run("--", "env", "-i", "ASANCOL_TRACE=x", "./good", cwd=folder), 98,
               "./good: INCOMPLETE: ASANCOL_TRACE is set for it, so its trace is there")
    for name, text in (("ASANCOL_LIMIT", "reached the event limit: "),
                       ("ASANCOL_HALT", "ERROR: AddressSanitizer: heap-")):
        ran = suite.run("--", "env", "-i", "./lost", "f", cwd=folder, ASANCOL_SEGMENTS="0", ASANCOL_REPORT=REPORT,
                        **{name: "1"})
        expect_in(ran.err, text)


# Takes a mark away, and becomes a program.
UNMARKED = "import ctypes, os, sys; ctypes.CDLL(None).prctl(29, 50000); os.execvp(sys.argv[1], sys.argv[1:])"


def check_lost_mark(suite: Suite, folder: str) -> None:
    """A process that has not even the mark finds the run by its ancestors, whatever their names."""
    lost = build(folder, "lost", LOST)
    odd = shutil.copy(shutil.which("sh") or "", f"{folder}/a) S 1 (")
    line = f"{lost}; python3 -c '{UNMARKED}' env -i {lost} b; true"
    for shell in ([odd, "-c", line], ["env", "A=", "sh", "-c", f"env -i '{odd}' -c \"{line}\"; true"]):
        ran = suite.run("--leaks=no", "--unchecked=no", "--", *shell, ASANCOL_REPORT=REPORT)
        expect_ran(ran, 99, "1 report at 1 place; 2 processes, ", " events; all complete")


def check_other_places(suite: Suite, folder: str) -> None:
    """The same in another network, where there are other names; there also if the folder of the run is not where each
    looks."""
    lost = build(folder, "lost", LOST, "-static")
    for line in (["unshare", "-n", "env", "-i", lost], ["env", "-i", "unshare", "-n", "-p", "-f", lost]):
        ran = suite.run("--leaks=no", "--", *line, "b", ASANCOL_REPORT=REPORT)
        expect_ran(ran, 99, "1 report at 1 place; 1 process, ")
    ran = suite.run("--leaks=no", "--", "sh", "-c", f"unshare -n env -i {lost} b; true", TMPDIR=folder,
                    ASANCOL_REPORT=REPORT)
    expect_ran(ran, 99, "1 report at 1 place; 1 process, ")


def names_listed() -> List[str]:
    """Returns abstract names in the order in which the system lists them. Others come and go in the meantime, and it
    may pass over one that stays."""
    with open("/proc/net/unix", encoding="utf-8") as names:
        return [line.rstrip("\n").partition(" @")[2] for line in names if " @" in line]


class Namesake:
    """Another run with the mark of one. It answers nothing. If few names do for that it is listed first."""

    MOST = 200
    LETTERS = string.ascii_letters + string.digits + "!#$%&*+,.:;<=>?^_|~"

    def __init__(self, folder: str, hub: str, slack: int) -> None:
        self.is_asked = self.is_over = self.is_first = False
        front = f"{folder}/asancol-other/"
        before = hash_of(front)
        ends = ("".join(it) for it in itertools.product(self.LETTERS, repeat=4))
        names = (front + it for it in ends if mark_of(hash_of(it, before)) == slack % 4096)
        self.sockets = [self.listen(f"{front}ask")]
        for name in itertools.islice(names, self.MOST):
            self.sockets.append(self.listen(name))
            listed = names_listed()
            self.is_first = {name, hub} <= set(listed) and listed.index(name) < listed.index(hub)
            if self.is_first:
                break
        self.thread = threading.Thread(target=self.answer, daemon=True)

    @staticmethod
    def listen(name: str) -> socket.socket:
        made = socket.socket(socket.AF_UNIX)
        made.bind(f"\0{name}")
        made.listen()
        return made

    def answer(self) -> None:
        while not self.is_over:
            if select.select(self.sockets[:1], [], [], 0.1)[0]:
                with accept(self.sockets[0]) as peer:
                    self.is_asked |= peer.recv(64) == b"settings"

    def __enter__(self) -> "Namesake":
        self.thread.start()
        return self

    def __exit__(self, *_: object) -> None:
        self.is_over = True
        join(self.thread, "the end of what answers")
        for it in self.sockets:
            it.close()


def check_same_mark(suite: Suite, folder: str) -> None:
    """Of two runs whose marks are the same each process finds its own, and so does a run in a run."""
    inner = f"env -i PATH={os.environ['PATH']} ASANCOL={suite.asancol} {RUN} -q --leaks=no --"
    for line, said in ((f"env -i {suite.program} past", "1 process, "),
                       (f"{inner} {suite.program} past", "1 process in 2 runs, ")):
        go, named = f"{folder}/go", f"{folder}/named"
        script = f"echo $(cat /proc/$$/timerslack_ns) ${{ASANCOL_HUB%-*}} > {named}.new; mv {named}.new {named}; "
        script += f"timeout 20 sh -c 'while [ ! -e {go} ]; do sleep 0.05; done'; {line}"
        run = suite.start("--leaks=no", "--", "sh", "-c", script, ASANCOL_REPORT=REPORT)
        wait_until(partial(os.path.exists, named), "the mark")
        with open(named, encoding="utf-8") as file:
            slack, hub = file.read().rstrip("\n").split(" ", 1)
        # Each time with names of its own: what another test starts just now may still have the others.
        with Namesake(f"{folder}/{len(said)}", hub, int(slack)) as other:
            write_text(go, "")
            expect_ran(finish(run), 99, said)
        expect(other.is_asked or not other.is_first, True, f"whether the other was asked first, by {line}")
        for path in (go, named):
            os.unlink(path)


# A program that makes room for a title of its own where its arguments and its environment are, as servers do.
TITLE = """
#include <stdlib.h>
#include <string.h>
#include <sys/wait.h>
#include <unistd.h>
extern char **environ;
int main(int argc, char **argv)
{
    char *end = argv[0], **moved;
    int count = 0;
    while (environ[count]) count++;
    moved = calloc(count + 1, sizeof *moved);
    for (int i = 0; i < count; i++) {
        end = environ[i] + strlen(environ[i]) + 1;
        moved[i] = strdup(environ[i]);
    }
    environ = moved;
    memset(argv[0], 'x', end - argv[0]);
    for (int i = 0; i < 2; i++)
        if (fork() == 0) {
            char *volatile p = malloc(5);
            p[5] = 1;
            _exit(0);
        }
    while (wait(NULL) > 0) ;
    return 0;
}
"""


def check_title(suite: Suite, folder: str, compiler: str) -> None:
    """A program that has written over its environment has the run's children."""
    program = build(folder, "title", TITLE, compiler=f"env ASANCOL_CC={compiler} {CC}")
    ran = suite.run("--leaks=no", "--", program, ASANCOL_REPORT=REPORT)
    expect_ran(ran, 99, "heap-buffer-overflow", "2 reports at 1 place; 3 processes, ", "; all complete\n",
               absent=["can't be reached"])


def check_set_user(suite: Suite, folder: str) -> None:
    """A set-user-ID program ignores its settings: its parent says so, or it does."""
    build_family(folder)
    os.chmod(folder, 0o755)
    os.chown(f"{folder}/good", 1, 1)
    os.chmod(f"{folder}/good", 0o4755)
    ran = suite.run("--", "./parent", "fork", "./good", cwd=folder)
    expect_ran(ran, 98, "./good: INCOMPLETE: it is set-user-ID or set-group-ID, so it ignores its settings")
    for line in ("./good; ./parent fork ./plain", "env -i ./good; ./parent fork ./plain"):
        ran = suite.run("--", "sh", "-c", line, cwd=folder)
        expect_ran(ran, 98, "./good: INCOMPLETE: it is set-user-ID or set-group-ID", "3 processes, ", "; 1 INCOMPLETE",
                   absent=["refused"])


def check_foreign_host(suite: Suite, folder: str) -> None:
    """A library of asancol-cc in a program that is not is named, with the program, and so it is in one of another
    release; in one of asancol-cc it is seen, and that another namespace has another malloc."""
    library = build(folder, "libgood.so", "int twice(int it) { return 2 * it; }", "-shared", "-fPIC")
    host = build(folder, "host", HOST, compiler="cc")
    words = f"it loaded {library}, which was built by asancol-cc, and was not built so itself"
    for name, line in (("host", f"{host} {library}"), ("host", f"{host} {library} new"),
                       ("true", f"LD_PRELOAD={library} /bin/true"),
                       ("python3", f"python3 -c 'import ctypes; ctypes.CDLL(\"{library}\")'")):
        ran = suite.run("--", "sh", "-c", f"{line}; {suite.program} sound")
        expect_ran(ran, 98, f"{name}: INCOMPLETE: {words}", "2 processes, ", "; 1 INCOMPLETE")
    host = build(folder, "host", HOST)
    expect_ran(suite.run("--", host, library), 0, "all complete")
    expect_ran(suite.run("--", host, library, "new"), 0, "; not checked: malloc of libc.so.6")
    other = build(folder, "other", HOST, "-DOTHER_RELEASE")
    words = f"it loaded {library}, which was built by asancol-cc of another release: build both with one"
    expect_ran(suite.run("--", other, library), 98, f"other: INCOMPLETE: {words}")


def check_out_of_reach(suite: Suite, folder: str) -> None:
    """A child of a fork, and a program of an exec, that can do nothing to reach the hub: who has made it says so."""
    alone = build(folder, "alone", ALONE)
    good = build(folder, "good", GOOD)
    plain = build(folder, "plain", GOOD, compiler="cc")
    for argv in (["fork"], ["fork", good], ["fork", plain]):
        ran = suite.run("--", "sh", "-c", f"{alone} {' '.join(argv)} 2>/dev/null")
        expect_ran(ran, 98, f"{alone}: INCOMPLETE: 2 children that it forked never connected", "; 1 INCOMPLETE")
    ran = suite.run("--json", f"{folder}/x", "--", alone, "exec", good, ASANCOL_REPORT=REPORT)
    expect_ran(ran, 98, f"{alone}: INCOMPLETE: it became a program of asancol-cc that never connected")
    for argv in (["exec", plain], ["fails"], ["forks"]):
        expect_ran(suite.run("--", alone, *argv), 0, "all complete")


def tests(suite: Suite) -> None:
    expect(os.access(CC, os.X_OK), True, "the recorder is built")
    for name, is_library in (("the program", False), ("a library", True)):
        suite.test(f"unheard: in a constructor of {name}", check_constructor, is_library)
    suite.test("unheard: killed at once", check_killed)
    suite.test("unheard: ended before its start", check_ended_early)
    suite.test("unheard: a run that is found", check_found_run)
    suite.test("unheard: of a plain parent", check_plain_parent)
    suite.test("unheard: of a recorded parent", check_recorded_parent)
    for compiler in ("gcc", "clang"):
        suite.test(f"{compiler} unheard: without descriptors", check_no_descriptors, compiler)
        suite.test(f"{compiler} unheard: with a title of its own", check_title, compiler)
    suite.test("unheard: without the environment", check_lost_environment)
    suite.test("unheard: without the mark", check_lost_mark)
    suite.test("unheard: runs with the same mark", check_same_mark)
    suite.test("unheard: a library in a foreign program", check_foreign_host)
    suite.test("unheard: out of reach", check_out_of_reach)
    if os.geteuid() == 0:
        suite.test("unheard: set-user-ID", check_set_user)
        suite.test("unheard: another network", check_other_places)

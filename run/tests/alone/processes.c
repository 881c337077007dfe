/* Children, programs that are executed, groups, sessions, and tracing. */
#define _GNU_SOURCE
#include <fcntl.h>
#include <linux/sched.h>
#include <sched.h>
#include <signal.h>
#include <spawn.h>
#include <stdatomic.h>
#include <sys/mman.h>
#include <sys/pidfd.h>
#include <sys/prctl.h>
#include <sys/ptrace.h>
#include <sys/resource.h>
#include <sys/stat.h>
#include <sys/syscall.h>
#include <sys/uio.h>
#include <sys/user.h>
#include <sys/wait.h>
#include <time.h>

#include "alone.h"

extern char **environ;

SITUATION(no_children)
{
    int status;
    siginfo_t info;
    TELL(wait(&status));
    TELL(waitpid(-1, &status, WNOHANG));
    TELL(waitpid(-1, &status, __WALL | WNOHANG));
    TELL(waitid(P_ALL, 0, &info, WEXITED | WNOHANG));
    TELL(waitpid(0, NULL, 0));
    TELL(waitpid(1, NULL, 0));
    TELL(waitpid(-1, NULL, __WCLONE));
    free(hide(malloc(100000)));
    TELL(wait(&status));
}

static pid_t child_of(int status)
{
    pid_t child = fork();
    if (child == 0)
        exit(status);
    return child;
}

SITUATION(forms_of_wait)
{
    int status;
    struct rusage usage;
    siginfo_t info = {0};
    pid_t child = child_of(1);
    TELL(wait(&status) == child);
    say_status("wait", status);
    child = child_of(2);
    TELL(wait3(&status, 0, &usage) == child);
    say_status("wait3", status);
    child = child_of(3);
    TELL(wait4(child, &status, 0, &usage) == child);
    say_status("wait4", status);
    child = child_of(4);
    TELL(waitid(P_PID, (id_t)child, &info, WEXITED | WNOWAIT));
    say("%d %d %d %d", info.si_pid == child, info.si_code, info.si_status, info.si_uid == getuid());
    TELL(waitid(P_PGID, 0, &info, WEXITED));
    child = child_of(5);
    int file = pidfd_open(child, 0);
    say("%d", file);
    TELL(waitid(P_PIDFD, (id_t)file, &info, WEXITED));
    say("%d %d", info.si_code, info.si_status);
    TELL(waitid(P_ALL, 0, &info, WEXITED));
    TELL(waitpid(child, &status, 0));
    TELL(waitpid(-1, &status, 0x12345678));
}

SITUATION(children_in_order)
{
    pid_t all[20];
    for (int i = 0; i < 20; i++)
        all[i] = child_of(i);
    for (int i = 0; i < 20; i++)
        say_end("child", all[i]);
    TELL(wait(NULL));
}

SITUATION(grandchildren)
{
    pid_t child = fork();
    if (child == 0) {
        pid_t grandchild = fork();
        if (grandchild == 0) {
            say("grandchild");
            exit(3);
        }
        say_end("grandchild", grandchild);
        exit(4);
    }
    say_end("child", child);
}

SITUATION(orphans)
{
    int ends[2];
    TELL(pipe(ends));
    pid_t child = fork();
    if (child == 0) {
        if (fork() == 0) {
            while (getppid() == child)
                usleep(100);
            char byte;
            close(ends[1]);
            if (read(ends[0], &byte, 1) == 0)
                say("the orphan's parent is the first process: %d", getppid() == 1);
            exit(0);
        }
        exit(0);
    }
    say_end("child", child);
    usleep(3000);
    TELL(wait(NULL));
}

SITUATION(orphans_adopted)
{
    TELL(prctl(PR_SET_CHILD_SUBREAPER, 1));
    pid_t child = fork();
    if (child == 0) {
        if (fork() == 0) {
            usleep(10000);
            exit(6);
        }
        exit(5);
    }
    say_end("child", child);
    int status;
    TELL(wait(&status) > 0);
    say_status("orphan", status);
    TELL(wait(&status));
}

static void say_death(int number)
{
    say("the parent has ended: %d", number == SIGUSR1);
    _exit(0);
}

SITUATION(death_of_parent)
{
    pid_t child = fork();
    if (child == 0) {
        int ready[2];
        if (pipe(ready))
            _exit(1);
        if (fork() == 0) {
            signal(SIGUSR1, say_death);
            prctl(PR_SET_PDEATHSIG, SIGUSR1);
            if (write(ready[1], "x", 1) == 1)
                pause();
        }
        char byte;
        exit(read(ready[0], &byte, 1) == 1 ? 0 : 1);
    }
    int status;
    waitpid(child, &status, 0);
}

SITUATION(descriptors_of_processes)
{
    pid_t child = fork();
    if (child == 0) {
        pause();
        exit(1);
    }
    int file = pidfd_open(child, 0);
    TELL(pidfd_send_signal(file, 0, NULL, 0));
    TELL(pidfd_send_signal(file, SIGTERM, NULL, 0));
    say_end("child", child);
    TELL(pidfd_send_signal(file, 0, NULL, 0));
    TELL(pidfd_open(child, 0));
}

SITUATION(vforks)
{
    pid_t child = vfork();
    if (child == 0)
        _exit(7);
    say_end("child", child);
    child = vfork();
    if (child == 0) {
        execl("/bin/sh", "sh", "-c", "exit 8", (char *)NULL);
        _exit(1);
    }
    say_end("sh", child);
    child = vfork();
    if (child == 0) {
        execl("/nonexistent", "x", (char *)NULL);
        _exit(errno);
    }
    say_end("nothing", child);
    child = vfork();
    if (child == 0) {
        execl("/proc/self/exe", "alone", "exit_handlers", (char *)NULL);
        _exit(1);
    }
    say_end("itself", child);
    child = vfork();
    if (child == 0) {
        kill(getpid(), SIGKILL);
        _exit(1);
    }
    say_end("killed", child);
}

static int child_says(void *word)
{
    say("cloned: %s", (char *)word);
    return 9;
}

static long clone_by(unsigned long flags)
{
    return syscall(SYS_clone, flags, NULL, NULL, NULL, NULL);
}

SITUATION(clones)
{
    static char stack[65536] __attribute__((aligned(16)));
    pid_t child = clone(child_says, stack + sizeof stack, SIGCHLD, (char *)"a copy");
    say_end("clone", child);
    child = clone(child_says, stack + sizeof stack, CLONE_VM | CLONE_VFORK | SIGCHLD, (char *)"in memory");
    say_end("clone", child);
    child = clone(child_says, stack + sizeof stack, 0, (char *)"silent");
    int status;
    TELL(waitpid(child, &status, __WCLONE) == child);
    say_status("silent", status);
    child = (pid_t)clone_by(SIGCHLD);
    if (child == 0) {
        say("child of a system call");
        exit(10);
    }
    say_end("clone", child);
    child = (pid_t)syscall(SYS_fork);
    if (child == 0)
        exit(11);
    say_end("fork", child);
    child = _Fork();
    if (child == 0)
        exit(12);
    say_end("_Fork", child);
    struct clone_args how = {.exit_signal = SIGCHLD};
    child = (pid_t)syscall(SYS_clone3, &how, sizeof how);
    if (child == 0)
        exit(13);
    say_end("clone3", child);
    TELL(wait(NULL));
}

static void leave_by_fault(int number)
{
    say("signal %d", number);
    _exit(14);
}

/* The C library writes to the child's stack before its system call. */
SITUATION(clones_without_stack)
{
    char *page = mmap(NULL, 4096, PROT_READ, MAP_PRIVATE | MAP_ANONYMOUS, -1, 0);
    TELL(clone(NULL, page, SIGCHLD, NULL));
    TELL(clone(child_says, NULL, SIGCHLD, NULL));
    pid_t child = fork();
    if (child == 0) {
        signal(SIGSEGV, leave_by_fault);
        exit(clone(child_says, page + 4096, SIGCHLD, NULL));
    }
    say_end("handled", child);
    child = fork();
    if (child == 0)
        exit(clone(child_says, page + 4096, SIGCHLD, NULL));
    say_end("not handled", child);
}

static void spawn(const char *what, const char *path, char *const *argv, posix_spawn_file_actions_t *actions,
                  posix_spawnattr_t *attributes)
{
    pid_t child = -7;
    int result = posix_spawn(&child, path, actions, attributes, argv, environ);
    say("%s: %d", what, result);
    if (result == 0)
        say_end(what, child);
}

SITUATION(spawns)
{
    char *const argv[] = {(char *)"sh", (char *)"-c", (char *)"echo \"$0\" here; exit 6", NULL};
    char *const itself[] = {(char *)"alone", (char *)"signals_after_exec", NULL};
    posix_spawnattr_t attributes;
    posix_spawn_file_actions_t actions;
    sigset_t set;
    posix_spawnattr_init(&attributes);
    posix_spawn_file_actions_init(&actions);
    spawn("plain", "/bin/sh", argv, NULL, NULL);
    spawn("missing", "/nonexistent", argv, NULL, NULL);
    spawn("a folder", "/", argv, NULL, NULL);
    spawn("itself", "/proc/self/exe", itself, NULL, NULL);
    sigfillset(&set);
    sigprocmask(SIG_BLOCK, &set, NULL);
    signal(SIGUSR1, SIG_IGN);
    signal(SIGSEGV, SIG_IGN);
    spawn("itself", "/proc/self/exe", itself, NULL, NULL);
    posix_spawnattr_setsigdefault(&attributes, &set);
    sigemptyset(&set);
    sigaddset(&set, SIGUSR2);
    posix_spawnattr_setsigmask(&attributes, &set);
    posix_spawnattr_setflags(&attributes, POSIX_SPAWN_SETSIGDEF | POSIX_SPAWN_SETSIGMASK | POSIX_SPAWN_SETPGROUP);
    spawn("with attributes", "/proc/self/exe", itself, NULL, &attributes);
    posix_spawn_file_actions_addopen(&actions, 1, "out", O_WRONLY | O_CREAT, 0600);
    posix_spawn_file_actions_addchdir_np(&actions, "/");
    posix_spawn_file_actions_addclose(&actions, 99);
    spawn("with actions", "/bin/sh", argv, &actions, NULL);
    posix_spawn_file_actions_adddup2(&actions, 999, 3);
    spawn("with a bad action", "/bin/sh", argv, &actions, NULL);
    pid_t child;
    TELL(posix_spawnp(&child, "nonexistent-program", NULL, NULL, argv, environ));
    posix_spawn_file_actions_destroy(&actions);
    posix_spawnattr_destroy(&attributes);
}

SITUATION(shells)
{
    TELL(system(NULL));
    TELL(system("exit 3"));
    TELL(system("kill -9 $$"));
    TELL(system("echo from the shell"));
    TELL(system("/nonexistent 2> /dev/null"));
    FILE *pipe = popen("cat > file; exit 4", "w");
    TELL(fputs("text\n", pipe));
    TELL(pclose(pipe));
    pipe = popen("echo one; echo two; kill -15 $$", "r");
    char line[64];
    while (fgets(line, sizeof line, pipe))
        say("%s", line);
    TELL(pclose(pipe));
    TELL_KIND(popen("true", "x"));
    pipe = popen("exec /proc/$PPID/exe nothing", "re");
    TELL(pclose(pipe));
}

SITUATION(arguments)
{
    char text[4096];
    int file = open("/proc/self/cmdline", O_RDONLY);
    ssize_t size = read(file, text, sizeof text);
    close(file);
    for (ssize_t i = 0; i < size; i += (ssize_t)strlen(text + i) + 1)
        say("argument %s", strncmp(text + i, "/tmp/", 5) == 0 ? strrchr(text + i, '/') : text + i);
    say("%s; %s", program_invocation_short_name, getenv("ALONE_WORD") ?: "-");
}

static void run_with(char *const *argv, char *const *environment)
{
    pid_t child = fork();
    if (child == 0) {
        execve("/proc/self/exe", argv, environment);
        _exit(errno);
    }
    say_end("child", child);
}

SITUATION(odd_arguments)
{
    char *const none[] = {NULL}, *const no_name[] = {(char *)"", (char *)"arguments", NULL};
    char *const odd[] = {(char *)"--asancol/../x y", (char *)"arguments", (char *)"", (char *)"-q", (char *)"--", NULL};
    char *const slash[] = {(char *)"/", (char *)"arguments", NULL}, *const dash[] = {(char *)"-alone",
                                                                                     (char *)"arguments", NULL};
    char *const word[] = {(char *)"ALONE_WORD=here", (char *)"", (char *)"NOEQUALS", (char *)"=x", NULL};
    run_with(no_name, environ);
    run_with(odd, environ);
    run_with(slash, environ);
    run_with(dash, environ);
    run_with(no_name, none);
    run_with(odd, word);
    run_with(no_name, NULL);
    char *many[2002] = {(char *)"many", (char *)"nothing"};
    for (int i = 2; i < 2001; i++)
        many[i] = (char *)"argument";
    run_with(many, environ);
}

SITUATION(execs_refused)
{
    char *const argv[] = {(char *)"x", NULL};
    TELL(execv("/nonexistent", argv));
    TELL(execv("/", argv));
    TELL(execv((const char *)hide((char *)""), argv));
    TELL(execv("/etc/passwd", argv));
    TELL(execvp("nonexistent-program", argv));
    TELL(execvp("", argv));
    FILE *file = fopen("text", "w");
    fputs("no program\n", file);
    fclose(file);
    TELL(chmod("text", 0700));
    TELL(execv("./text", argv));
    int text = open("text", O_RDONLY);
    TELL(fexecve(text, argv, environ));
    TELL(execveat(text, "", argv, environ, AT_EMPTY_PATH));
    TELL(execveat(99, "x", argv, environ, 0));
    TELL(execv((const char *)hide((void *)1), argv));
    size_t size = 200000;
    char *large = malloc(size);
    memset(large, 'x', size - 1);
    large[size - 1] = 0;
    char *const huge[] = {(char *)"x", large, NULL};
    TELL(execv("/bin/true", huge));
    free(large);
    symlink("loop", "loop") == 0 ? TELL(execv("./loop", argv)) : (void)0;
    file = fopen("script", "w");
    fputs("#!/nonexistent\n", file);
    fclose(file);
    chmod("script", 0700);
    TELL(execv("./script", argv));
    TELL(execlp("./text", "x", (char *)NULL));
}

SITUATION(execs_of_all_forms)
{
    for (int i = 0; i < 8; i++) {
        pid_t child = fork();
        if (child == 0) {
            char *const argv[] = {(char *)"itself", (char *)"arguments", NULL};
            char *const word[] = {(char *)"ALONE_WORD=given", NULL};
            int file = open("/proc/self/exe", O_RDONLY | O_CLOEXEC);
            switch (i) {
            case 0:
                execl("/proc/self/exe", "itself", "arguments", (char *)NULL);
                break;
            case 1:
                execle("/proc/self/exe", "itself", "arguments", (char *)NULL, word);
                break;
            case 2:
                execlp("/proc/self/exe", "itself", "arguments", (char *)NULL);
                break;
            case 3:
                execvpe("/proc/self/exe", argv, word);
                break;
            case 4:
                fexecve(file, argv, word);
                break;
            case 5:
                execveat(AT_FDCWD, "/proc/self/exe", argv, environ, 0);
                break;
            case 6:
                syscall(SYS_execve, "/proc/self/exe", argv, word);
                break;
            default:
                setenv("PATH", "/nonexistent:.", 1);
                execvp("alone", argv);
            }
            _exit(errno);
        }
        say_end("child", child);
    }
}

static void *executes(void *it)
{
    become("arguments");
    return it;
}

SITUATION(exec_in_thread)
{
    pthread_join(begin(executes, NULL), NULL);
}

SITUATION(script_of_itself)
{
    char path[4096] = "";
    TELL_KIND(readlink("/proc/self/exe", path, sizeof path - 1));
    FILE *file = fopen("script", "w");
    fprintf(file, "#!%s arguments\n", path);
    fclose(file);
    chmod("script", 0700);
    fflush(stdout);
    pid_t child = fork();
    if (child == 0) {
        execl("./script", "script", "more", (char *)NULL);
        _exit(errno);
    }
    say_end("script", child);
    TELL(unlink("script"));
}

SITUATION(program_in_memory)
{
    int from = open("/proc/self/exe", O_RDONLY), to = memfd_create("program", MFD_CLOEXEC);
    char block[65536];
    for (ssize_t size; (size = read(from, block, sizeof block)) > 0;)
        if (write(to, block, (size_t)size) != size)
            say("not written");
    close(from);
    char *const argv[] = {(char *)"alone", (char *)"exit_handlers", NULL};
    TELL(fexecve(to, argv, environ));
}

SITUATION(groups_and_sessions)
{
    pid_t child = fork();
    if (child == 0) {
        TELL(getpgrp() == getppid() || getpgrp() != getpid());
        TELL(setsid() == getpid());
        TELL(setsid());
        TELL(getsid(0) == getpid());
        TELL(setpgid(0, 0));
        exit(0);
    }
    say_end("child", child);
    child = fork();
    if (child == 0) {
        setpgid(0, 0);
        for (int i = 0; i < 3; i++)
            if (fork() == 0) {
                pause();
                exit(1);
            }
        usleep(10000);
        signal(SIGTERM, SIG_IGN);
        TELL(kill(0, SIGTERM));
        int status;
        for (int i = 0; i < 3; i++) {
            wait(&status);
            say_status("of the group", status);
        }
        exit(2);
    }
    say_end("child", child);
    TELL(setpgid(1, 1));
    TELL(tcgetpgrp(0));
    TELL(kill(-999999, 0));
}

SITUATION(daemons)
{
    int ends[2];
    TELL(pipe(ends));
    pid_t child = fork();
    if (child == 0) {
        if (daemon(1, 1))
            _exit(1);
        char go;
        TELL(read(ends[0], &go, 1));
        say("daemon: group %d, session %d", getpgrp() == getpid(), getsid(0) != getpid());
        free(hide(malloc(1000)));
        exit(0);
    }
    say_end("child", child);
    if (write(ends[1], "x", 1) != 1)
        say("not written");
}

static void prepare(void)
{
    say("prepare");
}

static void in_parent(void)
{
    errno = EDOM;
}

static void in_child(void)
{
    say("in the child");
    errno = EDOM;
}

static void *forks_in_thread(void *it)
{
    pid_t child = fork();
    if (child == 0) {
        say("a thread's child: %d", gettid() == getpid());
        exit(3);
    }
    say_end("child", child);
    return it;
}

SITUATION(handlers_of_fork)
{
    TELL(pthread_atfork(prepare, in_parent, in_child));
    errno = 0;
    pid_t child = fork();
    if (child == 0) {
        say("errno %d", errno);
        exit(2);
    }
    int number = errno;
    say_end("child", child);
    say("errno %d", number);
    pthread_join(begin(forks_in_thread, NULL), NULL);
    TELL(system("exit 1"));
    child = _Fork();
    if (child == 0)
        _exit(1);
    say_end("child", child);
}

static void fork_in_handler(int number)
{
    pid_t child = fork();
    if (child == 0) {
        free(hide(malloc(10)));
        _exit(number);
    }
    say_end("child of a handler", child);
}

SITUATION(fork_in_handlers)
{
    signal(SIGUSR1, fork_in_handler);
    signal(SIGSEGV, fork_in_handler);
    raise(SIGUSR1);
    raise(SIGSEGV);
}

static void *allocates(void *it)
{
    const atomic_bool *is_over = it;
    for (size_t i = 0; !atomic_load(is_over); i++)
        free(hide(malloc(i % 3000)));
    return NULL;
}

SITUATION(forks_beside_allocations)
{
    static atomic_bool is_over;
    pthread_t first = begin(allocates, &is_over), second = begin(allocates, &is_over);
    for (int i = 0; i < 30; i++) {
        pid_t child = fork();
        if (child == 0) {
            for (size_t k = 0; k < 100; k++)
                free(hide(malloc(k * 50)));
            _exit(i); /* blocks of other threads are lost here */
        }
        say_end("child", child);
    }
    atomic_store(&is_over, 1);
    TELL(pthread_join(first, NULL));
    TELL(pthread_join(second, NULL));
}

/* Traces a child to its end, and says each stop. */
static void trace(pid_t child, int most)
{
    for (int i = 0; i < most; i++) {
        int status;
        if (waitpid(child, &status, 0) != child)
            break;
        if (!WIFSTOPPED(status)) {
            say_status("traced", status);
            return;
        }
        int number = WSTOPSIG(status);
        say("stopped by %s, event %d", sigabbrev_np(number), status >> 16);
        ptrace(PTRACE_CONT, child, NULL, number == SIGTRAP || number == SIGSTOP ? 0 : number);
    }
}

SITUATION(traced_child)
{
    pid_t child = fork();
    if (child == 0) {
        ptrace(PTRACE_TRACEME, 0, NULL, NULL);
        raise(SIGSTOP);
        signal(SIGUSR1, SIG_IGN);
        raise(SIGUSR1);
        raise(SIGUSR2);
        exit(1);
    }
    trace(child, 20);
    child = fork();
    if (child == 0) {
        ptrace(PTRACE_TRACEME, 0, NULL, NULL);
        become("exit_handlers");
    }
    trace(child, 20);
    child = fork();
    if (child == 0) {
        ptrace(PTRACE_TRACEME, 0, NULL, NULL);
        *(volatile int *)hide(NULL) = 1;
    }
    trace(child, 20);
    child = fork();
    if (child == 0) {
        ptrace(PTRACE_TRACEME, 0, NULL, NULL);
        signal(SIGSEGV, _exit);
        *(volatile int *)hide(NULL) = 1;
    }
    trace(child, 20);
}

static void *nothing_at_all(void *it)
{
    return it;
}

SITUATION(traced_events)
{
    pid_t child = fork();
    if (child == 0) {
        raise(SIGSTOP);
        pthread_join(begin(nothing_at_all, NULL), NULL);
        pid_t grandchild = fork();
        if (grandchild == 0)
            exit(4);
        waitpid(grandchild, NULL, 0);
        grandchild = vfork();
        if (grandchild == 0)
            _exit(5);
        waitpid(grandchild, NULL, 0);
        exit(6);
    }
    int status;
    TELL(waitpid(child, &status, WUNTRACED) == child);
    long options = PTRACE_O_TRACEFORK | PTRACE_O_TRACEVFORK | PTRACE_O_TRACECLONE | PTRACE_O_TRACEEXIT;
    TELL(ptrace(PTRACE_SEIZE, child, NULL, options));
    TELL(kill(child, SIGCONT));
    int events[8] = {0};
    for (pid_t it; (it = waitpid(-1, &status, __WALL)) > 0;) {
        if (WIFSTOPPED(status)) {
            int event = status >> 16;
            events[event & 7]++;
            int number = event ? 0 : WSTOPSIG(status);
            ptrace(PTRACE_CONT, it, NULL, number == SIGTRAP || number == SIGSTOP || number == SIGCONT ? 0 : number);
        } else if (it == child) {
            say_status("traced", status);
        }
    }
    say("forks %d, vforks %d, clones %d, exits %d", events[PTRACE_EVENT_FORK], events[PTRACE_EVENT_VFORK],
        events[PTRACE_EVENT_CLONE], events[PTRACE_EVENT_EXIT]);
}

SITUATION(attached_and_detached)
{
    static volatile int shown = 77;
    pid_t child = fork();
    if (child == 0) {
        int left = (int)sleep(1000);
        _exit(left > 0 ? 3 : 4);
    }
    usleep(10000);
    int status;
    TELL(ptrace(PTRACE_ATTACH, child, NULL, NULL));
    TELL(waitpid(child, &status, 0) == child);
    say_status("attached", status);
    TELL(ptrace(PTRACE_PEEKDATA, child, (void *)&shown, NULL) & 0xffff);
    struct user_regs_struct registers;
    TELL(ptrace(PTRACE_GETREGS, child, NULL, &registers));
    int seen = 0;
    struct iovec here = {&seen, sizeof seen}, there = {(void *)&shown, sizeof seen};
    TELL(process_vm_readv(child, &here, 1, &there, 1, 0));
    say("%d", seen);
    TELL(ptrace(PTRACE_DETACH, child, NULL, NULL));
    TELL(kill(child, SIGTERM));
    say_end("child", child);
    TELL(ptrace(PTRACE_ATTACH, 1, NULL, NULL) == 0);
}

SITUATION(traced_by_itself)
{
    TELL(ptrace(PTRACE_TRACEME, 0, NULL, NULL));
    TELL(ptrace(PTRACE_TRACEME, 0, NULL, NULL));
}

SITUATION(usage_of_children)
{
    struct rusage usage;
    getrusage(RUSAGE_CHILDREN, &usage);
    say("%ld %ld", usage.ru_maxrss, usage.ru_nvcsw);
}

SITUATION(memory_shared_with_child)
{
    atomic_int *shared = mmap(NULL, 4096, PROT_READ | PROT_WRITE, MAP_SHARED | MAP_ANONYMOUS, -1, 0);
    for (int i = 0; i < 4; i++) {
        pid_t child = fork();
        if (child == 0) {
            for (int k = 0; k < 1000; k++)
                atomic_fetch_add(shared, 1);
            exit(0);
        }
        say_end("child", child);
    }
    say("%d", atomic_load(shared));
}

SITUATION(pipeline)
{
    int ends[2];
    TELL(pipe(ends));
    pid_t writer = fork();
    if (writer == 0) {
        dup2(ends[1], 1);
        close(ends[0]);
        close(ends[1]);
        for (int i = 0; i < 100; i++)
            printf("line %d\n", i);
        exit(1);
    }
    pid_t reader = fork();
    if (reader == 0) {
        dup2(ends[0], 0);
        close(ends[0]);
        close(ends[1]);
        execlp("wc", "wc", "-l", (char *)NULL);
        _exit(1);
    }
    close(ends[0]);
    close(ends[1]);
    say_end("reader", reader);
    say_end("writer", writer);
}

SITUATION(output_of_forks_once)
{
    printf("before");
    fflush(stdout);
    setvbuf(stdout, NULL, _IOFBF, 4096);
    printf(", buffered");
    pid_t child = fork();
    if (child == 0) {
        printf(" of the child\n");
        exit(0);
    }
    say_end("child", child);
    printf(" of the parent\n");
}

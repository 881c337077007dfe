/* Signals: their handlers, masks, what they tell, and what they interrupt. */
#define _GNU_SOURCE
#include <fcntl.h>
#include <linux/filter.h>
#include <linux/seccomp.h>
#include <setjmp.h>
#include <signal.h>
#include <stdbool.h>
#include <sys/mman.h>
#include <sys/prctl.h>
#include <sys/resource.h>
#include <sys/signalfd.h>
#include <sys/syscall.h>
#include <sys/time.h>
#include <sys/wait.h>
#include <time.h>
#include <ucontext.h>

#include "alone.h"

#pragma GCC diagnostic ignored "-Wdeprecated-declarations"

static int turns;
static const int faults[] = {SIGSEGV, SIGBUS, SIGFPE, SIGILL, SIGTRAP, SIGABRT, SIGSYS};
enum { FAULTS = sizeof faults / sizeof *faults };

static void note(int number)
{
    say("handler of %s", sigabbrev_np(number) ? sigabbrev_np(number) : "RT");
}

static void say_set(const char *what, const sigset_t *set)
{
    char line[512] = "";
    for (int i = 1; i <= 64; i++)
        if (sigismember(set, i) == 1)
            snprintf(line + strlen(line), sizeof line - strlen(line), " %d", i);
    say("%s:%s", what, line);
}

static void say_mask(const char *what)
{
    sigset_t set;
    sigprocmask(SIG_SETMASK, NULL, &set);
    say_set(what, &set);
}

static void say_action(int number)
{
    struct sigaction was;
    errno = 0;
    int result = sigaction(number, NULL, &was);
    if (result) {
        say("%d: %d %s", number, result, strerrorname_np(errno));
        return;
    }
    const char *handler = was.sa_handler == SIG_DFL   ? "default"
                          : was.sa_handler == SIG_IGN ? "ignored"
                          : was.sa_handler == note    ? "note"
                                                      : "another";
    say("%d: %s, flags %x, first in mask %d", number, handler, (unsigned)was.sa_flags & ~0x04000000u,
        sigismember(&was.sa_mask, SIGUSR2));
}

SITUATION(actions_at_start)
{
    for (int i = 1; i <= 65; i++)
        say_action(i);
    say_mask("mask");
}

SITUATION(actions_set_and_asked)
{
    static const int flags[] = {0,
                                SA_RESTART,
                                SA_NODEFER,
                                (int)SA_RESETHAND,
                                SA_ONSTACK,
                                SA_SIGINFO,
                                SA_NOCLDSTOP,
                                SA_NOCLDWAIT,
                                SA_RESTART | SA_NODEFER | SA_ONSTACK};
    for (int number = 1; number <= 64; number++) {
        for (size_t i = 0; i < sizeof flags / sizeof *flags; i++) {
            struct sigaction action = {.sa_handler = note, .sa_flags = flags[i]};
            sigaddset(&action.sa_mask, SIGUSR2);
            if (sigaction(number, &action, NULL) == 0)
                say_action(number);
        }
        signal(number, SIG_IGN);
        say_action(number);
        signal(number, SIG_DFL);
        say_action(number);
    }
}

SITUATION(actions_refused)
{
    struct sigaction action = {.sa_handler = note};
    TELL(sigaction(SIGKILL, &action, NULL));
    TELL(sigaction(SIGSTOP, &action, NULL));
    TELL(sigaction(0, &action, NULL));
    TELL(sigaction(65, &action, NULL));
    TELL(sigaction(32, &action, NULL));
    TELL(sigaction(33, NULL, &action));
    TELL(sigaction(SIGKILL, NULL, &action));
    TELL(signal(SIGKILL, note) == SIG_ERR);
    TELL(signal(SIGUSR1, note) == SIG_DFL);
    TELL(signal(SIGUSR1, SIG_IGN) == note);
    TELL(signal(SIGSEGV, note) == SIG_DFL);
    TELL(signal(SIGSEGV, SIG_DFL) == note);
    TELL(sigprocmask(99, &action.sa_mask, NULL));
    TELL(pthread_sigmask(99, &action.sa_mask, NULL));
    TELL(kill(getpid(), 99));
    TELL(kill(getpid(), 0));
    TELL(pthread_kill(pthread_self(), 99));
    say("%d %d", SIGRTMIN, SIGRTMAX);
}

static void tell_info(int number, siginfo_t *info, void *context)
{
    const ucontext_t *at = context;
    say("%s: signo %d, errno %d, code %d, me %d, value %d, masks itself %d, USR2 %d", sigabbrev_np(number) ?: "RT",
        info->si_signo, info->si_errno, info->si_code, info->si_code <= 0 && info->si_pid == getpid(),
        info->si_code == SI_QUEUE ? info->si_value.sival_int : 0, sigismember(&at->uc_sigmask, number),
        sigismember(&at->uc_sigmask, SIGUSR2));
    say_mask("inside");
}

static void handle(int number, void (*handler)(int, siginfo_t *, void *), int flags)
{
    struct sigaction action = {.sa_sigaction = handler, .sa_flags = SA_SIGINFO | flags};
    sigaddset(&action.sa_mask, SIGUSR2);
    sigaction(number, &action, NULL);
}

SITUATION(info_of_each_way_to_send)
{
    for (size_t i = 0; i < FAULTS + 2; i++) {
        int number = i < FAULTS ? faults[i] : i == FAULTS ? SIGUSR1 : SIGRTMIN + 1;
        handle(number, tell_info, 0);
        TELL(raise(number));
        TELL(kill(getpid(), number));
        TELL(pthread_kill(pthread_self(), number));
        TELL(sigqueue(getpid(), number, (union sigval){.sival_int = 77}));
        TELL(pthread_sigqueue(pthread_self(), number, (union sigval){.sival_int = 78}));
        TELL(syscall(SYS_tgkill, getpid(), gettid(), number));
        TELL(syscall(SYS_tkill, gettid(), number));
        handle(number, tell_info, SA_NODEFER);
        TELL(raise(number));
    }
    say_mask("after");
}

static sigjmp_buf back;
static char *page;

static void tell_fault(int number, siginfo_t *info, void *context)
{
    (void)context;
    say("%s: code %d, at page %ld, nulls %d, again %d", sigabbrev_np(number), info->si_code,
        (size_t)info->si_addr - (size_t)page < 4096 ? (char *)info->si_addr - page : -1L, info->si_addr == NULL,
        turns++);
    say_mask("inside");
    siglongjmp(back, 1);
}

static void fault_as(int which)
{
    volatile int zero = 0;
    switch (which) {
    case 0:
        *(volatile char *)hide(page + 3) = 1;
        break;
    case 1: {
        int file = open("short", O_RDWR | O_CREAT, 0600);
        TELL(ftruncate(file, 1));
        volatile char *mapped = mmap(NULL, 8192, PROT_READ, MAP_SHARED, file, 0);
        zero = mapped[4096];
        break;
    }
    case 2:
        zero = 1 / zero;
        break;
    case 3:
        __asm__ volatile("ud2");
        break;
    case 4:
        __asm__ volatile("int3");
        break;
    case 5:
        *(volatile char *)hide(NULL) = 1;
        break;
    case 6:
        *(volatile char *)hide((void *)0x8000000000000000) = 1;
        break;
    default:
        raise(SIGSYS);
    }
}

SITUATION(faults_caught_by_jump)
{
    page = mmap(NULL, 4096, PROT_NONE, MAP_PRIVATE | MAP_ANONYMOUS, -1, 0);
    for (size_t i = 0; i < FAULTS; i++)
        handle(faults[i], tell_fault, 0);
    for (volatile int i = 0; i < 16; i++)
        if (sigsetjmp(back, 1) == 0)
            fault_as(i % 8);
    say_mask("after");
}

static void open_page(int number, siginfo_t *info, void *context)
{
    (void)number;
    (void)context;
    turns++;
    mprotect((void *)((size_t)info->si_addr & ~4095ul), 4096, PROT_READ | PROT_WRITE);
}

SITUATION(faults_mended_by_handler)
{
    char *pages = mmap(NULL, 16 * 4096, PROT_NONE, MAP_PRIVATE | MAP_ANONYMOUS, -1, 0);
    handle(SIGSEGV, open_page, 0);
    for (int i = 0; i < 16; i++)
        ((volatile char *)pages)[i * 4096] = (char)i;
    say("%d faults", turns);
    mprotect(pages, 16 * 4096, PROT_NONE);
    memset(hide(pages), 1, 16 * 4096);
    say("%d faults", turns);
    mprotect(pages, 16 * 4096, PROT_NONE);
    int zero = open("/dev/zero", O_RDONLY);
    TELL(read(zero, hide(pages), 4096));
    say("%d faults", turns);
}

#ifdef __x86_64__
static void skip_instruction(int number, siginfo_t *info, void *context)
{
    (void)info;
    ucontext_t *at = context;
    say("skips after %s", sigabbrev_np(number));
    at->uc_mcontext.gregs[REG_RIP] += number == SIGTRAP ? 0 : 2;
    at->uc_mcontext.gregs[REG_RAX] = 41;
    sigaddset(&at->uc_sigmask, SIGUSR2);
}

SITUATION(context_changed_by_handler)
{
    handle(SIGILL, skip_instruction, 0);
    handle(SIGTRAP, skip_instruction, 0);
    long value = 0;
    __asm__ volatile("ud2" : "+a"(value));
    say("%ld", value);
    say_mask("now");
    value = 0;
    __asm__ volatile("int3" : "+a"(value));
    say("%ld", value);
}

static int steps;

static void count_step(int number)
{
    (void)number;
    steps++;
}

SITUATION(single_steps)
{
    signal(SIGTRAP, count_step);
    __asm__ volatile("pushfq; orl $0x100, (%%rsp); popfq; nop; nop; nop; pushfq; andl $~0x100, (%%rsp); popfq; nop"
                     :
                     :
                     : "memory", "cc");
    say("%d steps", steps);
}
#endif

static void say_end_of(const char *who, void (*run)(void))
{
    pid_t child = fork();
    if (child == 0) {
        struct rlimit none = {0, 0};
        setrlimit(RLIMIT_CORE, &none);
        run();
        _exit(0);
    }
    say_end(who, child);
}

static void faults_ignored(void)
{
    signal(SIGSEGV, SIG_IGN);
    TELL(raise(SIGSEGV));
    *(volatile char *)hide(NULL) = 1;
}

static void faults_blocked(void)
{
    sigset_t all;
    sigfillset(&all);
    sigprocmask(SIG_SETMASK, &all, NULL);
    signal(SIGSEGV, note);
    *(volatile char *)hide(NULL) = 1;
}

static void faults_once(void)
{
    struct sigaction action = {.sa_handler = note, .sa_flags = (int)SA_RESETHAND};
    sigaction(SIGSEGV, &action, NULL);
    *(volatile char *)hide(NULL) = 1;
}

static void faults_in_handler(int number)
{
    say("inside %d", number);
    *(volatile char *)hide(NULL) = 1;
}

static void faults_twice(void)
{
    signal(SIGSEGV, faults_in_handler);
    *(volatile char *)hide(NULL) = 1;
}

static void defaults_in_handler(int number)
{
    say("sets the default");
    signal(number, SIG_DFL);
}

static void faults_to_default(void)
{
    signal(SIGSEGV, defaults_in_handler);
    *(volatile char *)hide(NULL) = 1;
}

static void raises_in_handler(int number)
{
    signal(number, SIG_DFL);
    say("raises again");
    raise(number);
    say("still in the handler");
}

static void faults_and_raises(void)
{
    signal(SIGSEGV, raises_in_handler);
    *(volatile char *)hide(NULL) = 1;
}

static void exits_in_handler(int number)
{
    exit(number);
}

static void faults_and_exits(void)
{
    signal(SIGSEGV, exits_in_handler);
    *(volatile char *)hide(NULL) = 1;
}

static void sends_blocked(void)
{
    sigset_t set;
    sigemptyset(&set);
    sigaddset(&set, SIGSEGV);
    sigprocmask(SIG_SETMASK, &set, NULL);
    TELL(raise(SIGSEGV));
    sigpending(&set);
    say_set("pending", &set);
    sigemptyset(&set);
    sigprocmask(SIG_SETMASK, &set, NULL);
    say("never here");
}

SITUATION(faults_that_end)
{
    say_end_of("ignored", faults_ignored);
    say_end_of("blocked", faults_blocked);
    say_end_of("once", faults_once);
    say_end_of("twice", faults_twice);
    say_end_of("to default", faults_to_default);
    say_end_of("raised again", faults_and_raises);
    say_end_of("exit", faults_and_exits);
    say_end_of("sent while blocked", sends_blocked);
}

static int depth;

static void nests(int number)
{
    say("nest %d", ++depth);
    if (depth < 4 && turns++ < 8)
        raise(number);
    say("leaves %d", depth--);
}

SITUATION(handlers_nested)
{
    struct sigaction action = {.sa_handler = nests, .sa_flags = SA_NODEFER};
    sigaction(SIGUSR1, &action, NULL);
    raise(SIGUSR1);
    sigaction(SIGSEGV, &action, NULL);
    raise(SIGSEGV);
    action.sa_flags = 0;
    sigaction(SIGUSR1, &action, NULL);
    depth = 2;
    raise(SIGUSR1);
}

static void tell_value(int number, siginfo_t *info, void *context)
{
    (void)context;
    say("%d with %d", number - SIGRTMIN, info->si_value.sival_int);
}

SITUATION(queued_in_order)
{
    sigset_t all, none;
    sigfillset(&all);
    sigemptyset(&none);
    for (int i = 0; i < 4; i++)
        handle(SIGRTMIN + i, tell_value, 0);
    sigprocmask(SIG_SETMASK, &all, NULL);
    for (int i = 0; i < 12; i++)
        TELL(sigqueue(getpid(), SIGRTMIN + 3 - i % 4, (union sigval){.sival_int = i}));
    sigpending(&none);
    say_set("pending", &none);
    sigemptyset(&none);
    sigprocmask(SIG_SETMASK, &none, NULL);
}

SITUATION(pending_limit)
{
    struct rlimit few = {5, 5};
    sigset_t set;
    sigfillset(&set);
    sigprocmask(SIG_SETMASK, &set, NULL);
    TELL(setrlimit(RLIMIT_SIGPENDING, &few));
    int sent = 0;
    while (sent < 100 && sigqueue(getpid(), SIGRTMIN + 5, (union sigval){.sival_int = sent}) == 0)
        sent++;
    say("%s", strerrorname_np(errno));
}

SITUATION(interrupted_or_restarted)
{
    int ends[2];
    char byte;
    TELL(pipe(ends));
    for (int i = 0; i < 2; i++) {
        struct sigaction action = {.sa_handler = note, .sa_flags = i ? SA_RESTART : 0};
        sigaction(SIGALRM, &action, NULL);
        struct itimerval soon = {.it_value = {0, 60000}}; /* each call has begun by then, beside other work too */
        int ready[2];
        TELL(pipe(ready));
        pid_t child = fork();
        if (child == 0) {
            if (write(ready[1], "x", 1) != 1)
                _exit(1);
            usleep(i ? 300000 : 10000000);
            write(ends[1], "x", 1) == 1 ? _exit(0) : _exit(1);
        }
        TELL(read(ready[0], &byte, 1));
        setitimer(ITIMER_REAL, &soon, NULL);
        TELL(read(ends[0], &byte, 1));
        setitimer(ITIMER_REAL, &soon, NULL);
        TELL(usleep(100000000));
        setitimer(ITIMER_REAL, &soon, NULL);
        struct timespec rest = {100, 0}, left;
        TELL(nanosleep(&rest, &left));
        say("left %d", left.tv_sec == 99);
        kill(child, SIGKILL);
        waitpid(child, NULL, 0);
    }
}

SITUATION(waited_for)
{
    sigset_t set;
    siginfo_t info;
    int got = 0;
    sigemptyset(&set);
    sigaddset(&set, SIGUSR1);
    sigaddset(&set, SIGSEGV);
    sigprocmask(SIG_BLOCK, &set, NULL);
    raise(SIGUSR1);
    TELL(sigwait(&set, &got));
    say("%d", got);
    raise(SIGSEGV);
    TELL(sigwaitinfo(&set, &info));
    say("%d %d", info.si_signo, info.si_code);
    struct timespec none = {0, 1000};
    TELL(sigtimedwait(&set, &info, &none));
    int file = signalfd(-1, &set, SFD_NONBLOCK | SFD_CLOEXEC);
    struct signalfd_siginfo from;
    TELL(read(file, &from, sizeof from));
    raise(SIGUSR1);
    TELL(read(file, &from, sizeof from));
    say("%u %d", from.ssi_signo, from.ssi_code);
    signal(SIGUSR1, note);
    raise(SIGUSR1);
    sigemptyset(&set);
    TELL(sigsuspend(&set));
    say_mask("after");
}

static void *says_mask(void *it)
{
    say_mask("of a thread");
    return it;
}

SITUATION(masks_inherited)
{
    sigset_t set;
    sigemptyset(&set);
    for (int i = 1; i < 64; i += 3)
        sigaddset(&set, i);
    sigaddset(&set, SIGFPE);
    sigprocmask(SIG_SETMASK, &set, NULL);
    pthread_join(begin(says_mask, NULL), NULL);
    pid_t child = fork();
    if (child == 0) {
        say_mask("of a child");
        _exit(0);
    }
    waitpid(child, NULL, 0);
    child = vfork();
    if (child == 0) {
        say_mask("of a vforked child");
        _exit(0);
    }
    waitpid(child, NULL, 0);
    signal(SIGUSR1, SIG_IGN);
    signal(SIGSEGV, SIG_IGN);
    signal(SIGTERM, note);
    raise(SIGHUP);
    raise(SIGFPE);
    raise(10);
    become("signals_after_exec");
}

SITUATION(pending_bus_error)
{
    sigset_t set;
    sigemptyset(&set);
    sigaddset(&set, SIGBUS);
    sigprocmask(SIG_SETMASK, &set, NULL);
    raise(SIGBUS);
    become("signals_after_exec");
}

SITUATION(signals_after_exec)
{
    say_mask("mask");
    sigset_t set;
    sigpending(&set);
    say_set("pending", &set);
    for (int i = 1; i <= 64; i++) {
        struct sigaction was;
        if (sigaction(i, NULL, &was) == 0 && was.sa_handler != SIG_DFL)
            say_action(i);
    }
}

SITUATION(signals_by_old_calls)
{
    TELL(sigset(SIGUSR1, note) == SIG_DFL);
    TELL(sighold(SIGUSR1));
    TELL(raise(SIGUSR1));
    say_mask("held");
    TELL(sigrelse(SIGUSR1));
    TELL(sigset(SIGUSR1, SIG_HOLD) == note);
    TELL(sigset(SIGUSR1, SIG_IGN) == SIG_HOLD);
    TELL(sigignore(SIGUSR2));
    TELL(raise(SIGUSR2));
    TELL(signal(SIGALRM, note) == SIG_DFL);
    TELL(siginterrupt(SIGALRM, 1));
    say_action(SIGALRM);
    TELL(siginterrupt(SIGALRM, 0));
    say_action(SIGALRM);
    TELL(ssignal(SIGTERM, note) == SIG_DFL);
    TELL(gsignal(SIGTERM));
    TELL(sysv_signal(SIGTERM, note) == note);
    say_action(SIGTERM);
    psignal(SIGSEGV, "told");
    say("%s %s %s", strsignal(11), strsignal(99), sigabbrev_np(6));
}

static volatile sig_atomic_t children;

static void count_children(int number)
{
    (void)number;
    children++;
}

SITUATION(child_signals)
{
    signal(SIGCHLD, count_children);
    for (int i = 0; i < 5; i++) {
        pid_t child = fork();
        if (child == 0)
            exit(i);
        say_end("child", child);
    }
    say("%d signals", (int)children);
    TELL(system("exit 1"));
    FILE *pipe = popen("echo a line", "r");
    char line[32] = "";
    TELL_KIND(fgets(line, sizeof line, pipe));
    TELL(pclose(pipe));
    say("%d signals", (int)children);
    signal(SIGCHLD, SIG_IGN);
    pid_t child = fork();
    if (child == 0)
        exit(1);
    TELL(waitpid(child, NULL, 0));
    struct sigaction action = {.sa_handler = count_children, .sa_flags = SA_NOCLDWAIT};
    sigaction(SIGCHLD, &action, NULL);
    child = fork();
    if (child == 0)
        exit(1);
    TELL(waitpid(child, NULL, 0));
}

SITUATION(stopped_and_continued)
{
    int ends[2], status;
    char byte = 0;
    TELL(pipe(ends));
    pid_t child = fork();
    if (child == 0) {
        for (int i = 0; i < 2; i++) {
            raise(SIGSTOP);
            while (read(ends[0], &byte, 1) != 1) /* the parent has seen it go on */
                continue;
        }
        exit(4);
    }
    for (int i = 0; i < 2; i++) {
        TELL(waitpid(child, &status, WUNTRACED) == child);
        say_status("child", status);
        TELL(kill(child, SIGCONT));
        TELL(waitpid(child, &status, WUNTRACED | WCONTINUED) == child);
        say_status("child", status);
        TELL(write(ends[1], &byte, 1));
    }
    say_end("child", child);
}

static void trap_call(int number, siginfo_t *info, void *context)
{
    ucontext_t *at = context;
    say("%s: code %d, call %d", sigabbrev_np(number), info->si_code, info->si_syscall == SYS_getppid);
    at->uc_mcontext.gregs[REG_RAX] = -ENOTSUP;
}

SITUATION(trapped_system_call)
{
    struct sock_filter rules[] = {
        BPF_STMT(BPF_LD | BPF_W | BPF_ABS, offsetof(struct seccomp_data, nr)),
        BPF_JUMP(BPF_JMP | BPF_JEQ | BPF_K, SYS_getppid, 0, 1),
        BPF_STMT(BPF_RET | BPF_K, SECCOMP_RET_TRAP),
        BPF_STMT(BPF_RET | BPF_K, SECCOMP_RET_ALLOW),
    };
    struct sock_fprog program = {sizeof rules / sizeof *rules, rules};
    handle(SIGSYS, trap_call, 0);
    TELL(prctl(PR_SET_NO_NEW_PRIVS, 1, 0, 0, 0));
    TELL(prctl(PR_SET_SECCOMP, SECCOMP_MODE_FILTER, &program));
    TELL(syscall(SYS_getppid));
}

static void *waits_for_signal(void *it)
{
    TELL((long)sleep(100) > 0);
    return it;
}

SITUATION(signal_to_a_thread)
{
    struct sigaction action = {.sa_handler = note};
    sigaction(SIGUSR1, &action, NULL);
    sigaction(SIGSEGV, &action, NULL);
    for (int i = 0; i < 2; i++) {
        pthread_t other = begin(waits_for_signal, NULL);
        usleep(20000);
        int error = pthread_kill(other, i ? SIGSEGV : SIGUSR1);
        TELL(pthread_join(other, NULL));
        say("%d", error);
    }
}

SITUATION(mask_in_handler_of_process)
{
    sigset_t set;
    handle(SIGTERM, tell_info, 0);
    handle(SIGINT, tell_info, SA_NODEFER);
    sigemptyset(&set);
    sigaddset(&set, SIGWINCH);
    sigprocmask(SIG_SETMASK, &set, NULL);
    raise(SIGTERM);
    raise(SIGINT);
    say_mask("after");
}

/* Signals are read from a signalfd; those for the command are passed on. */
#define _GNU_SOURCE
#include "signals.h"

#include <errno.h>
#include <signal.h>
#include <stddef.h>
#include <stdint.h>
#include <string.h>
#include <sys/prctl.h>
#include <sys/resource.h>
#include <sys/signalfd.h>
#include <unistd.h>

#include "common/array.h"
#include "descendants.h"
#include "say.h"

/* And those of real time. The rest is for asancol-run itself: faults, limits, and stops. */
static const int passed_on[] = {SIGINT,    SIGTERM, SIGHUP, SIGQUIT, SIGUSR1,   SIGUSR2, SIGABRT, SIGALRM,
                                SIGVTALRM, SIGPROF, SIGIO,  SIGPWR,  SIGSTKFLT, SIGURG,  SIGWINCH};
/* Of the terminal's stops only this one is for a foreground process. */
static const int others[] = {SIGCHLD, SIGTSTP, SIGCONT};

static sigset_t mask_before;
static sigset_t ours; /* signals that are passed on, and were not ignored */
static struct sigaction child_before;

static void add_unless_ignored(sigset_t *set, int number)
{
    struct sigaction action;
    if (sigaction(number, NULL, &action) == 0 && action.sa_handler != SIG_IGN)
        sigaddset(set, number);
}

static bool is_passed_on(int number)
{
    for (size_t i = 0; i < COUNT(passed_on); i++)
        if (passed_on[i] == number)
            return true;
    return number >= SIGRTMIN && number <= SIGRTMAX;
}

/* Gives all of ours the same action. While they are blocked they are read all the same. */
static void set_ours(void (*handler)(int))
{
    struct sigaction action = {.sa_handler = handler};
    for (int number = 1; number <= SIGRTMAX; number++)
        if (sigismember(&ours, number))
            sigaction(number, &action, NULL);
}

int signals_open(void)
{
    sigset_t blocked;
    struct sigaction usual = {.sa_handler = SIG_DFL};
    sigaction(SIGCHLD, &usual, &child_before); /* if it is ignored, children vanish without their status */
    sigemptyset(&ours);
    for (int number = 1; number <= SIGRTMAX; number++)
        if (is_passed_on(number))
            add_unless_ignored(&ours, number);
    blocked = ours;
    for (size_t i = 0; i < COUNT(others); i++)
        add_unless_ignored(&blocked, others[i]);
    sigprocmask(SIG_BLOCK, &blocked, &mask_before);
    /* A signal to our process group may come to a checker or the report before that has a group for itself. */
    set_ours(SIG_IGN);
    int descriptor = signalfd(-1, &blocked, SFD_CLOEXEC | SFD_NONBLOCK);
    if (descriptor < 0)
        fail(OWN_FAILURE, "no descriptor for signals", strerror(errno));
    return descriptor;
}

void signals_restore(void)
{
    sigaction(SIGCHLD, &child_before, NULL);
    set_ours(SIG_DFL);
    sigprocmask(SIG_SETMASK, &mask_before, NULL);
}

void signals_ignore_writes(void)
{
    struct sigaction none = {.sa_handler = SIG_IGN};
    sigaction(SIGPIPE, &none, NULL);
    sigaction(SIGXFSZ, &none, NULL);
}

/* Stops as without us: not at all if no shell would let us go on. */
static void stop(void)
{
    sigset_t set;
    sigemptyset(&set);
    sigaddset(&set, SIGTSTP);
    progress_erase();
    raise(SIGTSTP);
    sigprocmask(SIG_UNBLOCK, &set, NULL);
    sigprocmask(SIG_BLOCK, &set, NULL);
}

/* Whether the command has it too. A timer that was set before our start is for the command, but is ours. */
static bool is_of_terminal(const struct signalfd_siginfo *info)
{
    uint32_t number = info->ssi_signo;
    return info->ssi_code == SI_KERNEL && number != SIGALRM && number != SIGVTALRM && number != SIGPROF;
}

/* Whether the command or one that it has started sent it: to a parent that would be another without us, or to the
   process group, in which the command has it too. */
static bool is_from_below(const struct signalfd_siginfo *info)
{
    return descendants_kinship((pid_t)info->ssi_pid) == KINSHIP_OURS;
}

/* Whether one without a handler ends a process. */
static bool ends(int number)
{
    return number != SIGCONT && number != SIGURG && number != SIGWINCH;
}

int signals_read(int descriptor, pid_t command)
{
    struct signalfd_siginfo info;
    int count = 0;
    while (read(descriptor, &info, sizeof info) == (ssize_t)sizeof info) {
        int number = (int)info.ssi_signo;
        if (number == SIGCHLD)
            continue;
        bool is_below = is_from_below(&info);
        if (command != 0 && !is_of_terminal(&info) && !is_below)
            kill(command, number);
        if (number == SIGTSTP)
            stop();
        else
            count += !is_below && ends(number);
    }
    return count;
}

void signals_end_by(int number)
{
    struct rlimit none = {0, 0};
    struct sigaction usual = {.sa_handler = SIG_DFL};
    sigset_t set;
    sigemptyset(&set);
    sigaddset(&set, number);
    setrlimit(RLIMIT_CORE, &none);
    prctl(PR_SET_DUMPABLE, 0);
    sigaction(number, &usual, NULL);
    raise(number);
    sigprocmask(SIG_UNBLOCK, &set, NULL);
}

/* One set of signals that come through all the same: `faults`. All else is the thread's mask, which the system has. */
#define _GNU_SOURCE
#include "base/disturbance.h"

#include <errno.h>
#include <signal.h>
#include <stdatomic.h>

#include "base/system.h"

/* Written before there is a second thread, or with none of them in the middle of protected code. */
static _Atomic uint64_t faults;

static uint64_t most_signals(void)
{
    uint64_t others = signal_bit(SIGBUS) | signal_bit(USER_SIGNAL);
    return ~(others | atomic_load_explicit(&faults, memory_order_relaxed));
}

void undisturbed_begin(struct disturbance *before)
{
    uint64_t most = most_signals();
    before->mask = 0; /* a filter may refuse the call */
    system_sigprocmask(SIG_SETMASK, &most, &before->mask);
}

void undisturbed_by_faults(uint64_t set)
{
    atomic_store_explicit(&faults, set, memory_order_relaxed);
}

bool is_undisturbed(uint64_t mask)
{
    uint64_t kept = signal_bit(SIGKILL) | signal_bit(SIGSTOP);
    return (mask | kept) == most_signals();
}

void undisturbed_end(const struct disturbance *before)
{
    system_sigprocmask(SIG_SETMASK, &before->mask, NULL);
}

void signal_take_away(int number)
{
    uint64_t set = signal_bit(number);
    while (system_sigtake(&set) == -EINTR)
        ;
}

/* The handlers that a program sets. Where it sets the default, or asks for the current one, it must not meet the
   recorder's own. No state is here: signals.c has it.

   Called: by the program, in any thread, also in a signal handler, without a lock. */
#define _GNU_SOURCE
#include <signal.h>

#include "calls/stubs.h"
#include "interface/hooks.h"
#include "base/system.h"

REAL(int, sigaction, (int, const struct sigaction *, struct sigaction *));

GUARD_INTERCEPTED(sigaction);
CHECK int checked_sigaction(int number, const struct sigaction *action, struct sigaction *old)
{
    return HAS_HOOKS ? asancol_hooks.set_action(number, action, old) : real_sigaction(number, action, old);
}

static sighandler_t set_handler(int number, sighandler_t handler, int flags)
{
    struct sigaction action = {.sa_handler = handler, .sa_flags = flags}, old;
    if (!(flags & SA_NODEFER) && number > 0 && number < NSIG)
        action.sa_mask.__val[0] = signal_bit(number);
    return checked_sigaction(number, &action, &old) == 0 ? old.sa_handler : SIG_ERR;
}

GUARD_INTERCEPTED(signal);
CHECK sighandler_t checked_signal(int number, sighandler_t handler)
{
    return set_handler(number, handler, SA_RESTART);
}

GUARD_OWN(__sysv_signal);
CHECK sighandler_t checked___sysv_signal(int number, sighandler_t handler)
{
    return set_handler(number, handler, (int)SA_RESETHAND | SA_NODEFER);
}

/* Other names of these. */
GUARD_OWN(bsd_signal);
CHECK sighandler_t checked_bsd_signal(int number, sighandler_t handler)
{
    return set_handler(number, handler, SA_RESTART);
}

GUARD_OWN(ssignal);
CHECK sighandler_t checked_ssignal(int number, sighandler_t handler)
{
    return set_handler(number, handler, SA_RESTART);
}

GUARD_OWN(sysv_signal);
CHECK sighandler_t checked_sysv_signal(int number, sighandler_t handler)
{
    return set_handler(number, handler, (int)SA_RESETHAND | SA_NODEFER);
}

/* It asks for the current one by the C library's own sigaction, and may block the signal. */
REAL(sighandler_t, sigset, (int, sighandler_t));

GUARD_OWN(sigset);
CHECK sighandler_t checked_sigset(int number, sighandler_t handler)
{
    struct sigaction before;
    bool is_known = checked_sigaction(number, NULL, &before) == 0;
    sighandler_t seen = real_sigset(number, handler);
    return is_known && seen != SIG_ERR && seen != SIG_HOLD ? before.sa_handler : seen;
}

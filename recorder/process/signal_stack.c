/* Each thread gets a stack for handlers if it has none: that of its frames may be used up. `left` is one that a thread
   which has ended has left. */
#define _GNU_SOURCE
#include "process/signal_stack.h"

#include <signal.h>
#include <stdatomic.h>
#include <stdbool.h>
#include <stdint.h>
#include <sys/mman.h>

#include "base/platform.h"
#include "base/system.h"
#include "shadow/shadow.h"

static bool is_wanted; /* written before there is a second thread */

enum { HANDLERS_STACK = 1 << 17 };

static void give_stack(void *start)
{
    stack_t stack = {.ss_sp = start, .ss_size = HANDLERS_STACK}, seen;
    if (system_sigaltstack(&stack, &seen) == 0 && !(seen.ss_flags & SS_DISABLE))
        system_sigaltstack(&seen, NULL);
}

/* Those of other threads than the first. One that has ended leaves its own to the next. */
static _Atomic uintptr_t left;
static _Thread_local uintptr_t given;

void signal_stack_begins(void)
{
    if (!is_wanted)
        return;
    given = atomic_exchange(&left, 0);
    if (given == 0) {
        int flags = MAP_PRIVATE | MAP_ANONYMOUS | MAP_NORESERVE | MAP_STACK;
        long made = system_mmap(NULL, HANDLERS_STACK, PROT_READ | PROT_WRITE, flags, -1, 0);
        given = made < 0 ? 0 : (uintptr_t)made;
    }
    if (given != 0)
        give_stack((void *)given);
}

/* The thread may have another one by now, or be on it. */
void signal_stack_ends(void)
{
    stack_t none = {.ss_flags = SS_DISABLE}, seen;
    if (given == 0 || system_sigaltstack(NULL, &seen) != 0 || (seen.ss_flags & SS_ONSTACK))
        return;
    if ((uintptr_t)seen.ss_sp == given)
        system_sigaltstack(&none, NULL);
    shadow_clear(given, HANDLERS_STACK);
    given = atomic_exchange(&left, given);
    if (given != 0)
        system_munmap((void *)given, HANDLERS_STACK);
    given = 0;
}

void signal_stack_of_first(void)
{
    static AS_TABLE _Alignas(16) char room[HANDLERS_STACK];
    give_stack(room);
    is_wanted = true;
}

/* `waiting` has the number of the process, and of its threads below that. */
#include "process/halt_wait.h"

#include <stdatomic.h>

#include "base/self.h"

static _Atomic uint64_t waiting;
static _Thread_local bool is_waiting;

void halt_wait(bool begins)
{
    uint64_t own = (uint64_t)self_process() << 32, before = atomic_load(&waiting), after;
    if (is_waiting == begins)
        return;
    do {
        uint64_t count = before >> 32 == own >> 32 ? (uint32_t)before : 0;
        after = own | (begins ? count + 1 : count - (count > 0));
    } while (!atomic_compare_exchange_weak(&waiting, &before, after));
    is_waiting = begins;
}

uint32_t halt_others_wait(void)
{
    uint64_t seen = atomic_load(&waiting);
    bool is_ours = seen >> 32 == (uint64_t)self_process();
    return is_ours ? (uint32_t)seen - is_waiting : 0;
}

bool halt_has_waited(void)
{
    return atomic_load(&waiting) != 0;
}

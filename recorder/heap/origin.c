/* `said` of each thread, from the caller's word until the next malloc or free takes it back. */
#include "heap/origin.h"

#include <stdatomic.h>

#include "heap/heap.h"

_Thread_local struct said said;

void heap_called_from(uintptr_t caller)
{
    said.caller = caller;
    said.frame = caller != 0 ? *(const uintptr_t *)__builtin_frame_address(0) : 0;
}

/* Whether the word is that of an operator which this one, with that frame, has interrupted, or which has called it. One
   that was left by an exception has a frame below this one. */
static bool is_interrupted(uintptr_t frame)
{
    enum { NEAR = 1 << 20 };
    return origin_has_operator() && frame - said.frame > NEAR;
}

void heap_operator_begins(struct said *before, uintptr_t caller, struct use use)
{
    uintptr_t frame = *(const uintptr_t *)__builtin_frame_address(0);
    before->use.family = FAMILY_MALLOC;
    if (UNLIKELY(is_interrupted(frame)))
        *before = said;
    said.use.family = use.family; /* first: a handler that comes now finds an operator, and leaves its word alone */
    atomic_signal_fence(memory_order_seq_cst);
    said.use = use;
    said.frame = frame;
    said.caller = caller;
}

static void forget(void)
{
    said.caller = said.frame = 0;
    atomic_signal_fence(memory_order_seq_cst);
    said.use = (struct use){FAMILY_MALLOC, 0, 0};
}

void heap_operator_ends(const struct said *before)
{
    if (UNLIKELY(before->use.family != FAMILY_MALLOC))
        said = *before;
    else
        forget();
}

bool heap_is_called_by_operator(void)
{
    return origin_has_operator() && !origin_is_of_another((uintptr_t)__builtin_frame_address(0));
}

void origin_left_by_jump(uintptr_t target)
{
    if (UNLIKELY(origin_has_operator()) && said.frame < target)
        forget();
}

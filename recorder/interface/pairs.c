/* Stateless: two pointers near to each other are judged by the shadow between them, others by the variable, block or
   global that the lower one is in. */
#include "interface/pairs.h"

#include <stdbool.h>
#include <stddef.h>

#include "heap/arena.h"
#include "heap/blocks.h"
#include "process/process.h"
#include "environment/settings.h"
#include "shadow/globals.h"
#include "shadow/shadow.h"
#include "stacks/own_stack.h"
#include "stream/findings.h"
#include "stream/near.h"

enum { NULLS_ARE_GOOD = 1 };
/* Up to this many bytes apart, two pointers are of one object if all between them is addressable. */
enum { NEAR = 2048 };

/* The start of the block that has an address, or that ends there; or 0. */
static uintptr_t block_of(uintptr_t address)
{
    struct nearest block;
    bool is_found = is_in_arena(address) && arena_find_nearest(address, &block) && !block.is_forgotten;
    return is_found && address - block.start <= block.size ? block.start : 0;
}

/* Where in the shadow the variable on this thread's stack begins that has an address; or 0. */
static uintptr_t variable_of(uintptr_t address)
{
    if (!is_of_own_stack(address))
        return 0;
    const volatile unsigned char *at = shadow_of(address), *low = shadow_of(stack_low());
    while (at >= low && (*at < SHADE_LEFT || *at > SHADE_RIGHT))
        at--;
    return (uintptr_t)(at + 1);
}

static uintptr_t global_of(uintptr_t address)
{
    struct global global;
    return globals_find(address, &global) ? global.start : 0;
}

/* Whether the two, of which `left` is the lower one, are not of one object. */
static bool is_invalid(uintptr_t left, uintptr_t right)
{
    uintptr_t start;
    if (right - left <= NEAR)
        return !shadow_is_clean(left, right - left);
    if ((start = variable_of(left)) != 0)
        return variable_of(right) != start;
    if ((start = block_of(left)) != 0)
        return block_of(right) != start;
    if ((start = global_of(left)) != 0)
        return global_of(right - 1) != start;
    return variable_of(right) != 0 || block_of(right) != 0 || global_of(right - 1) != 0;
}

void pair_look(uintptr_t one, uintptr_t other, uintptr_t caller)
{
    int wanted = recorder_settings()->pointer_pairs;
    if (wanted == 0 || one == other || (wanted == NULLS_ARE_GOOD && (one == 0 || other == 0)))
        return;
    if (one < other ? is_invalid(one, other) : is_invalid(other, one))
        finding_note_call(&(struct wrong_call){.kind = FINDING_POINTERS, .caller = caller, .start = one,
                                               .other = other});
}

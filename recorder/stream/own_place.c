/* The thread has the address of the place, or the cursor, in a register or in one of its innermost frames, from the
   addition to the cursor up to the store of the code. No other thread's place has the same. */
#include "stream/own_place.h"

#include <stddef.h>

#include "base/memory.h"
#include "base/platform.h"
#include "stacks/own_stack.h"
#include "stacks/unwinding.h"

/* Handlers that have interrupted one another; and where the frames of the recorder lie, from below the stack pointer
   on, where a function that calls none may have words. */
enum { MOST_HANDLERS = 4, BELOW_STACK = 128, FRAMES_BYTES = 2048 };

/* Whether one of the two is among these words, as far as they can be read. */
static bool has_word(uintptr_t from, uintptr_t end, uintptr_t address, uint64_t cursor)
{
    struct known_page page = {0};
    uintptr_t readable = stack_readable(from);
    for (uintptr_t at = from; at < end; at += sizeof at) {
        if (at >= readable && !memory_is_there(&page, at, sizeof at))
            return false;
        uintptr_t word = *(const uintptr_t *)at;
        if (word == address || word == cursor)
            return true;
    }
    return false;
}

bool own_place_is_at(const unsigned char *address, uint64_t cursor)
{
    uintptr_t stored[MOST_HANDLERS];
    unsigned count = unwind_to_handlers((uintptr_t)__builtin_frame_address(0), stored, MOST_HANDLERS);
    for (unsigned i = 0; i < count; i++) {
        uintptr_t stack = *(const uintptr_t *)(stored[i] + STORED_STACK);
        if (has_word(stored[i] + STORED_FIRST, stored[i] + STORED_INSTRUCTION, (uintptr_t)address, cursor)
            || has_word(stack - BELOW_STACK, stack + FRAMES_BYTES, (uintptr_t)address, cursor))
            return true;
    }
    return false;
}

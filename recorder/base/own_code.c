/* Two ranges of code, whose ends the linker says: the recorder's own, and that of own.c, which works for anybody. */
#include "base/own_code.h"

#include <string.h>

#include "base/memory.h"

#define HIDDEN __attribute__((visibility("hidden"), weak))

/* What the linker says of the two sections (Makefile). */
extern const char own_begin[] NAMED("__start_asancol_own_text") HIDDEN;
extern const char own_end[] NAMED("__stop_asancol_own_text") HIDDEN;
extern const char helpers_begin[] NAMED("__start_asancol_helper_text") HIDDEN;
extern const char helpers_end[] NAMED("__stop_asancol_helper_text") HIDDEN;

static bool is_between(uintptr_t address, const char *begin, const char *end)
{
    return address - (uintptr_t)begin < (uintptr_t)end - (uintptr_t)begin;
}

bool own_code_has(uintptr_t instruction, uintptr_t frame)
{
    enum { MOST = 4 }; /* of these functions call each other */
    struct known_page page = {0};
    for (int i = 0; i < MOST && is_between(instruction, helpers_begin, helpers_end); i++) {
        const uintptr_t *words = (const uintptr_t *)frame;
        if (!memory_is_there(&page, frame, 2 * sizeof *words))
            return false;
        frame = words[0];
        instruction = words[1];
    }
    return is_between(instruction, own_begin, own_end);
}

/* No compiler may go to the function in place of a call: the frame here says for whom it works. */
OF_PROGRAM void program_clear(void *to, size_t size)
{
    memset(to, 0, size);
    STAYS_IN_ORDER;
}

OF_PROGRAM void program_copy(void *to, const void *from, size_t size)
{
    memcpy(to, from, size);
    STAYS_IN_ORDER;
}

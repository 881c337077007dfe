/* Stateless: the cheap answers come first, and a call of the system last. */
#include "process/given.h"

#include "base/memory.h"
#include "base/platform.h"
#include "environment/startup.h"
#include "shadow/mapping.h"
#include "shadow/shadow.h"
#include "stacks/own_stack.h"

static bool is_above_us(uintptr_t start, size_t size)
{
    uintptr_t here = (uintptr_t)__builtin_frame_address(0), end = stack_readable(here);
    return start >= here && start < end && size <= end - start;
}

/* Among the arguments and variables that the process was started with. */
static bool is_at_beginning(uintptr_t start, size_t size)
{
    return start >= (uintptr_t)startup.argv && start < startup.end && size <= startup.end - start;
}

bool given_is_there(uintptr_t start, size_t size)
{
    struct known_page page = {0};
    if (is_in_shadow(start)) /* nobody knows the shadow of that */
        return false;
    if (is_above_us(start, size) || is_at_beginning(start, size) || is_in_own_file(start, size))
        return true;
    return (is_in_arena(start) && shadow_is_clean(start, size)) || memory_is_there(&page, start, size);
}

bool given_text_is_there(const char *text)
{
    size_t length = given_text_length(text, given_is_there);
    return length > 0 && text[length - 1] == 0;
}

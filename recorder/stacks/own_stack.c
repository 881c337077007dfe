/* `own_stack` of each thread. */
#define _GNU_SOURCE
#include "stacks/own_stack.h"

#include <sys/mman.h>
#include <sys/resource.h>

#include "base/platform.h"
#include "base/system.h"
#include "environment/startup.h"

/* The first thread's stack reaches at least so far down. */
enum { DEFAULT_STACK_SIZE = 8 << 20 };
_Thread_local struct own_stack own_stack;

uintptr_t page_above(uintptr_t address)
{
    return address / PAGE * PAGE + PAGE;
}

/* Of several parts that are forbidden, what lies between counts as such, too. */
static void hide(uintptr_t start, uintptr_t end)
{
    if (own_stack.all == 0)
        own_stack.all = own_stack.readable, own_stack.hidden = 0;
    if (start < own_stack.readable)
        own_stack.readable = start;
    if (end > own_stack.hidden)
        own_stack.hidden = end;
}

static void show(uintptr_t end)
{
    if (end < own_stack.hidden) {
        own_stack.readable = end;
        return;
    }
    own_stack.readable = own_stack.all;
    own_stack.all = 0;
}

bool stack_note_rights(uintptr_t start, size_t size, bool can_be_read)
{
    uintptr_t highest = own_stack.all != 0 ? own_stack.all : own_stack.readable, end = start + size;
    if (end <= stack_low() || start >= highest || end < start)
        return false;
    if (!can_be_read)
        hide(start, end);
    else if (own_stack.all != 0 && start <= own_stack.readable && end > own_stack.readable)
        show(end);
    else
        return false;
    return true;
}

void stack_start(void)
{
    struct rlimit limit;
    uint64_t size = DEFAULT_STACK_SIZE;
    if (system_getrlimit(RLIMIT_STACK, &limit) == 0 && limit.rlim_cur > size)
        size = limit.rlim_cur < MAX_STACK_SIZE ? limit.rlim_cur : MAX_STACK_SIZE;
    own_stack.top = page_above((uintptr_t)startup.argv);
    own_stack.low = own_stack.top - size;
    own_stack.readable = own_stack.top;
    own_stack.may_grow = true;
}

/* Whether memory is there, without a hole: a look at it would let the stack grow. */
static bool is_there(uintptr_t start, uintptr_t end)
{
    return system_msync((const void *)start, end - start, MS_ASYNC) == 0;
}

/* Other memory lies at a distance from where the stack ends. */
bool stack_has_grown(uintptr_t frame)
{
    struct rlimit limit;
    uintptr_t page = frame / SYSTEM_PAGE * SYSTEM_PAGE, size = own_stack.top - page;
    if (size > MAX_STACK_SIZE || !is_there(page, page + SYSTEM_PAGE))
        return false;
    if (system_getrlimit(RLIMIT_STACK, &limit) == 0 && size <= limit.rlim_cur && is_there(page, own_stack.low))
        own_stack.low = page;
    else
        own_stack.other = page + SYSTEM_PAGE;
    return own_stack.low == page;
}

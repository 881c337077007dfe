/* What the checks of calls record; no state of its own.

   Called: as calls.h says. */
#include <errno.h>

#include "calls/calls.h"
#include "interface/hooks.h"

__attribute__((noinline, cold)) void call_is_bad(enum code code, uintptr_t start, size_t size, size_t good,
                                                 struct call call)
{
    int before = errno;
    note_bad_call(code, start, size, good, call.caller, call.name);
    errno = before;
}

__attribute__((noinline, cold)) void call_overlaps(const void *to, const void *from, size_t size, struct call call)
{
    int before = errno;
    note_wrong_call(&(struct wrong_call){FINDING_OVERLAP, call.caller, call.name, (uintptr_t)to, size,
                                         (uintptr_t)from});
    errno = before;
}

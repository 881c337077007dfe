/* What goes out, and memory in pieces. Whoever gets what goes out may free it before the call returns, so it is looked
   at before. No state is here.

   Called: by the checks of the program's calls, in any thread, also in a signal handler. No lock (calls.h). */
#define _GNU_SOURCE
#include <limits.h>

#include "calls/calls.h"

/* No more than this goes out at once: the system's limit of one write. A size beyond it may be that of a mistake. */
enum { MAX_SENT = 0x7ffff000 };

size_t good_length(const void *start, size_t size)
{
    size = least(size, MAX_SENT);
    if (LIKELY(shadow_is_clean((uintptr_t)start, size)))
        return SIZE_MAX;
    uintptr_t bad = shadow_first_bad((uintptr_t)start, size);
    return bad < (uintptr_t)start + size ? bad - (uintptr_t)start : SIZE_MAX;
}

size_t good_pieces(const struct iovec *pieces, size_t count)
{
    size_t before = 0, most = least(count, IOV_MAX);
    if (!call_is_there(pieces, most * sizeof *pieces))
        return SIZE_MAX;
    for (size_t i = 0; i < most; i++) {
        size_t good = good_length(pieces[i].iov_base, pieces[i].iov_len);
        if (good != SIZE_MAX)
            return before + good;
        before += pieces[i].iov_len;
    }
    return SIZE_MAX;
}

void pieces_check(enum code code, const struct iovec *pieces, size_t count, size_t from, size_t size,
                  struct call call)
{
    for (size_t i = 0; i < least(count, IOV_MAX) && size > 0; i++) {
        size_t here = least(pieces[i].iov_len, size), left = least(from, here);
        call_checks_after(code, pieces[i].iov_base, here, left, call);
        from -= left;
        size -= here;
    }
}

/* Two ranges of addresses, one for streams and one for what stands beside them, each of WINDOWS windows. */
#define _GNU_SOURCE
#include "stream/windows.h"

#include <stddef.h>
#include <sys/mman.h>

#include "base/platform.h"
#include "base/system.h"

static unsigned char *streams, *sides;

unsigned char *windows_start(void)
{
    size_t of_streams = (size_t)WINDOWS << WINDOW_SHIFT, all = of_streams + ((size_t)WINDOWS << SIDE_WINDOW_SHIFT);
    if (streams != NULL)
        return streams;
    long start = system_mmap(NULL, all, PROT_READ | PROT_WRITE, MAP_PRIVATE | MAP_ANONYMOUS | MAP_NORESERVE, -1, 0);
    if (start < 0)
        return NULL;
    system_madvise((void *)start, all, MADV_DONTDUMP); /* no debugger wants 5 GB of ours in a core */
    streams = (unsigned char *)start;
    sides = (unsigned char *)(start + (long)of_streams);
    return streams;
}

struct window windows_of_stream(unsigned number)
{
    static unsigned used; /* one bit for each */
    bool is_new = (used >> number & 1) == 0;
    used |= 1U << number;
    return (struct window){streams + ((size_t)number << WINDOW_SHIFT), STREAM_ROOM, is_new};
}

struct window windows_of_side(unsigned number)
{
    return (struct window){sides + ((size_t)number << SIDE_WINDOW_SHIFT), SIDE_ROOM, false};
}

static bool is_in(const unsigned char *range, unsigned shift, const void *address)
{
    return range != NULL && (uintptr_t)address - (uintptr_t)range < (size_t)WINDOWS << shift;
}

bool windows_mend(const void *address)
{
    if (!is_in(streams, WINDOW_SHIFT, address) && !is_in(sides, SIDE_WINDOW_SHIFT, address))
        return false;
    void *page = (void *)((uintptr_t)address / SYSTEM_PAGE * SYSTEM_PAGE);
    return system_mmap(page, SYSTEM_PAGE, PROT_READ | PROT_WRITE, MAP_PRIVATE | MAP_ANONYMOUS | MAP_FIXED, -1, 0) > 0;
}

/* By three calls of the system, which answer where a load would fault: process_vm_readv copies, rt_sigprocmask looks at
   one page, and MADV_POPULATE_READ at many. */
#define _GNU_SOURCE
#include "base/memory.h"

#include <errno.h>
#include <string.h>
#include <sys/mman.h>

#include "common/format.h"
#include "base/platform.h"
#include "base/system.h"

#if MAY_BE_EMULATED

/* An emulator may not know the call: then it is asked of each page whether it is there. */
static bool read_by_pages(uint64_t from, void *to, size_t size)
{
    struct known_page page = {0};
    if (!memory_is_there(&page, from, size))
        return false;
    memcpy(to, (const void *)(uintptr_t)from, size);
    return true;
}

#endif

/* The system copies it, and answers where a load of our own would fault. */
bool memory_read(uint64_t from, void *to, size_t size)
{
    struct iovec here = {to, size}, there = {(void *)(uintptr_t)from, size};
    ssize_t done = system_process_vm_readv(system_getpid(), &here, &there, 1);
#if MAY_BE_EMULATED
    if (done == -ENOSYS)
        return read_by_pages(from, to, size);
#endif
    return done == (ssize_t)size;
}

size_t memory_read_each(const uint64_t *from, unsigned char *const *to, size_t count, size_t size)
{
    enum { MOST = 16 };
    struct iovec here[MOST], there[MOST];
    count = count < MOST ? count : MOST;
    for (size_t i = 0; i < count; i++) {
        here[i] = (struct iovec){to[i], size};
        there[i] = (struct iovec){(void *)(uintptr_t)from[i], size};
    }
    ssize_t done = system_process_vm_readv(system_getpid(), here, there, count);
#if MAY_BE_EMULATED
    for (size_t i = 0; done == -ENOSYS; i++)
        if (i == count || !read_by_pages(from[i], to[i], size))
            return i;
#endif
    return done > 0 ? (size_t)done / size : 0;
}

bool memory_read_text(uint64_t from, char *to, size_t room)
{
    enum { PIECE = 64 };
    size_t length = 0;
    while (length < room - 1) {
        /* Not across the end of what may be its last page. */
        size_t piece = PIECE - (from + length) % PIECE;
        if (piece > room - 1 - length)
            piece = room - 1 - length;
        if (!memory_read(from + length, to + length, piece)) {
            to[0] = 0;
            return false;
        }
        const char *end = memchr(to + length, 0, piece);
        if (end != NULL) {
            memset(to + (end - to), 0, room - (size_t)(end - to));
            return true;
        }
        length += piece;
    }
    to[length] = 0;
    return true;
}

/* A call that changes nothing: it reads the set of signals first, and then finds that it does not know what to do. It
   is quick, and no sandbox refuses it. */
static bool is_page_there(uintptr_t page)
{
    enum { NOTHING_TO_DO = -1 };
    return system_sigprocmask(NOTHING_TO_DO, (const uint64_t *)page, NULL) == -EINVAL;
}

bool memory_is_there(struct known_page *known, uintptr_t address, size_t size)
{
    if (address < PAGE || address >= MEMORY_END || size > MEMORY_END - address)
        return false;
    for (uintptr_t page = address / PAGE * PAGE; page < address + size; page += PAGE) {
        if (page == known->start)
            continue;
        if (!is_page_there(page))
            return false;
        known->start = page;
    }
    return true;
}

#ifndef MADV_POPULATE_READ
#define MADV_POPULATE_READ 22
#endif

bool memory_is_all_there(uintptr_t start, uintptr_t end)
{
    uintptr_t first = start / SYSTEM_PAGE * SYSTEM_PAGE, last = (end + SYSTEM_PAGE - 1) / SYSTEM_PAGE * SYSTEM_PAGE;
#if MAY_BE_EMULATED
    if (system_madvise(NULL, PAGE, MADV_POPULATE_READ) == 0)
        return false; /* it is taken for a hint: nothing is there */
#endif
    return start >= PAGE && start < end && end <= MEMORY_END
           && system_madvise((const void *)first, last - first, MADV_POPULATE_READ) == 0;
}

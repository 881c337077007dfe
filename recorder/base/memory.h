/* Reading memory of the process that may be gone at any time, as when another thread closes a library or ends.

   Called: memory_read_each by stream/modules.c, with the stream's lock; memory_is_all_there by leaks/marking.c,
   while all other threads stand still; the rest by any file that reads memory which is not the recorder's, in any
   thread, also in a handler. No lock: the system is asked. A struct known_page is the caller's. */
#ifndef ASANCOL_MEMORY_H
#define ASANCOL_MEMORY_H

#include <stdbool.h>
#include <stddef.h>
#include <stdint.h>

#include "base/platform.h"

/* False: not all of it is there. */
bool memory_read(uint64_t from, void *to, size_t size) OWN_NAME(memory_read);
/* Reads as much from each of these addresses, by one call of the system. Answers how many it has read before one that
   is not there. */
size_t memory_read_each(const uint64_t *from, unsigned char *const *to, size_t count, size_t size);
/* Reads a text up to its zero, or as much of it as there is room for. False: it is not there. */
bool memory_read_text(uint64_t from, char *to, size_t room) OWN_NAME(memory_read_text);

/* The page that could be read last; 0: none. */
struct known_page {
    uintptr_t start;
};

/* Whether this many bytes can be read: the system is asked once for each page. Nothing is in page 0, and nothing beyond
   the end of addresses. No more than what the system says now, so not for memory that another thread gives back. */
bool memory_is_there(struct known_page *known, uintptr_t address, size_t size);
/* The same for pages from this address to that, by one call. False: the system does not say so. */
bool memory_is_all_there(uintptr_t start, uintptr_t end);

#endif

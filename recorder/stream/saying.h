/* The statements before a bad access or free, in a history that begins there (group.h): a function of its circumstances
   alone. By them the collector has as many addressable bytes in the access's granule as the shadow, and the byte that
   says the class, there or in the next granule.

   Called: by group.c, in the thread that has made the access or free, also in a handler. They only compute: nothing is
   read but what they are given, nothing is kept, and no lock is needed. */
#ifndef ASANCOL_SAYING_H
#define ASANCOL_SAYING_H

#include <stdbool.h>
#include <stdint.h>

#include "common/format.h"

/* The circumstances, read once. */
struct found {
    uint64_t granule;          /* that of the access's first byte */
    unsigned char shade, next; /* its shadow byte, and that of the granule after it, or 0 where no memory can be */
    bool is_of_heap;           /* it is the allocator's memory */
    /* The block that has left the byte that says the class, if that is a block's and there is one; or that is freed
       again. It may be a piece of a larger one: the collector can hold it. */
    bool has_block, is_held;
    uint32_t size;
    uint64_t start;
};

struct statement {
    enum code code;
    enum kind kind; /* of poison */
    uint64_t address, size;
};

enum { MOST_STATEMENTS = 3 };

/* Before a bad access. Answers how many there are, at least one. If no block says it, that is poison. */
unsigned say_access(const struct found *found, struct statement to[MOST_STATEMENTS]);
/* Before a bad free: of the block alone, if there is one. */
unsigned say_free(const struct found *found, struct statement to[MOST_STATEMENTS]);

#endif

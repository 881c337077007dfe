/* An access, or a free, as the program has asked for it. Its pieces are recorded one after another, each as an event,
   and are one report.

   Called: by record.c, watched.c, heap/allocating.c and process/halt.c, in the thread that makes the access, also in
   a handler. It alone has the struct, on its stack; no lock. */
#ifndef ASANCOL_ACCESS_H
#define ASANCOL_ACCESS_H

#include <stdbool.h>
#include <stdint.h>

#include "common/format.h"

struct access {
    enum code code;
    uintptr_t caller;     /* the address after the call */
    uint64_t start, size; /* of a free 0 bytes */
    const char *call;     /* the library's function that makes it; null: the program itself */
    /* Of its pieces so far. */
    bool is_noted;  /* one that was bad is an event */
    uint32_t list;  /* the list in which it has its fault; 0: it has none yet */
    uint32_t fault; /* the number there; 0: there is no room */
};

static inline struct access access_of(enum code code, uint64_t start, uint64_t size, uintptr_t caller, const char *call)
{
    return (struct access){.code = code, .caller = caller, .start = start, .size = size, .call = call};
}

#endif

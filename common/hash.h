/* The hash of Fowler, Noll and Vo, FNV-1a, of 32 bits.

   Called: by the recorder (hub_word.c, and orphan.c by inherited.h), in any thread, also in a signal handler, by the
   wrapper (checked_names.c, compiling.c) and by asancol-run; no lock: it only reads what it is given. */
#ifndef ASANCOL_HASH_H
#define ASANCOL_HASH_H

#include <stddef.h>
#include <stdint.h>

static inline uint32_t hash_of(const char *bytes, size_t length)
{
    uint32_t hash = 2166136261U;
    for (size_t i = 0; i < length; i++)
        hash = (hash ^ (unsigned char)bytes[i]) * 16777619U;
    return hash;
}

#endif

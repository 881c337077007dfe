/* The shadow of blocks: what the collector will make of them. Only the allocator uses this.

   What a record makes bad is painted before the record takes its place in the stream: the redzones of a malloc, the
   bytes of a free. What it makes good is painted after: the bytes of a malloc. So whoever finds a byte addressable
   here came before the record that takes it away, or after the one that gives it.

   Called: by allocating.c and freeing.c, in the thread that is in its shard, for that shard's blocks, or has all
   (blocks.h); paint_released by quarantine.c with all; no further lock. block_shadow by allocating.c and differing.c
   too: it only computes. Also in a handler. */
#ifndef ASANCOL_PAINT_H
#define ASANCOL_PAINT_H

#include <string.h>

#include "shadow/shadow.h"

enum { RED_GRANULES = REDZONE / GRANULE };
_Static_assert(RED_GRANULES == sizeof(uint32_t), "a redzone is one number in the shadow");

/* From this many granules on whole pages are given back. */
enum { LARGE_PAINT = 1 << 16 };
/* Up to this many are stored one by one, without a call. */
enum { SMALL_PAINT = 64 };

static inline unsigned char *block_shadow(uintptr_t address)
{
    return (unsigned char *)(uintptr_t)(SHADOW_START + address / GRANULE);
}

static inline void paint_redzone(unsigned char *at)
{
    uint32_t shades = SHADE_HEAP * UINT32_C(0x01010101);
    __builtin_memcpy(at, &shades, sizeof shades);
}

static inline void paint_granules(unsigned char *at, size_t count, unsigned char shade)
{
    uint64_t shades = shade * UINT64_C(0x0101010101010101);
    if (count > SMALL_PAINT) {
        memset(at, shade, count);
        return;
    }
    for (; count >= sizeof shades; count -= sizeof shades, at += sizeof shades) {
        __builtin_memcpy(at, &shades, sizeof shades);
        STAYS_AT(at); /* else compilers call memset here */
    }
    for (; count > 0; count--)
        *(volatile unsigned char *)at++ = shade;
}

/* Before the record of a malloc. */
static inline void paint_redzones(uintptr_t address, size_t size)
{
    unsigned char *at = block_shadow(address), *end = at + size / GRANULE;
    paint_redzone(at - RED_GRANULES);
    if (size % GRANULE != 0)
        *end++ = SHADE_HEAP;
    paint_redzone(end);
}

/* After it. */
static inline void paint_live(uintptr_t address, size_t size)
{
    unsigned char *at = block_shadow(address);
    size_t whole = size / GRANULE;
    if (whole > LARGE_PAINT)
        shadow_clear(address, whole * GRANULE);
    else
        paint_granules(at, whole, 0);
    if (size % GRANULE != 0)
        at[whole] = size % GRANULE;
}

/* Before the record of a free. */
static inline void paint_held(uintptr_t address, size_t size)
{
    paint_granules(block_shadow(address), (size + GRANULE - 1) / GRANULE, SHADE_FREED);
}

static inline void paint_released(uintptr_t address, size_t size)
{
    paint_granules(block_shadow(address) - RED_GRANULES, span_bytes(size) / GRANULE, SHADE_HEAP);
}

#endif

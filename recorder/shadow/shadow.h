/* The shadow: a byte for each granule of 8 bytes, as AddressSanitizer has it. The compilers' inline checks read it
   before each access, and their code writes the redzones of frames into it. The allocator writes the state of blocks,
   variables.c that of globals and of scopes that end, and the process its own poison.

   **The shadow decides only about recording; the verdict is the collector's.** An access that the check lets through
   leaves no record. So the shadow must never be laxer than what the collector makes of the stream: a byte addressable
   here must be addressable there, at the place that a record of the access would have. Being stricter
   costs a record, and no verdict.

   Of memory outside the allocator's the stream says nothing until an access comes that the check flags: its record
   comes with what states the bytes there (stream/group.h). So a frame whose redzones nobody comes near costs nothing.

   Called: by compiled code, which reads and writes it, and by any file, in any thread, also in a handler. No lock:
   who writes owns the memory, and who reads may see the byte before or after. Of the notes in shadow.c,
   shadow_is_of_file is asked by heap/ and unused.c, and shadow_note_file called by unused.c alone, with the
   allocator's lock; shadow_note_poison by stream/record.c, and shadow_may_be_poisoned by heap/differing.c. */
#ifndef ASANCOL_SHADOW_H
#define ASANCOL_SHADOW_H

#include <stdbool.h>
#include <stddef.h>
#include <stdint.h>

#include "base/platform.h"
#include "libc/hook_page.h"
#include "common/format.h"
#include "common/shades.h"

/* Where it lies is a matter of the processor (processor.h): in the place of AddressSanitizer's, and the allocator's
   memory after it. */
#define SHADOW_BYTES (MEMORY_END / GRANULE)

#if MEMORY_VARIES

/* Traces have addresses of 47 bits, so one of 48 is spelled without its upper bit. No two pieces of memory have one
   spelling that matters: the holes are empty, of which one is spelled as the allocator's memory is. Of other memory the
   stream keeps nothing (stream/group.h). */
_Static_assert((uint64_t)1 << ADDRESS_BITS == 2 * ADDRESS_END, "one bit is left out");
_Static_assert(HOOK_PAGE_START >= (uint64_t)(ARENA_NUMBER + 1) << ARENA_SHIFT, "it follows the allocator's memory");
_Static_assert(FAKE_SLOTS_START + ((uint64_t)1 << (24 + FAKE_SLOTS_SHIFT)) <= SHADOW_START + HOLE_END / GRANULE,
               "what has a number lies before the shadow of memory behind the hole");

static inline uint64_t spelled(uint64_t address)
{
    return address % ADDRESS_END;
}

/* The addresses whose shadow would lie where the allocator's memory is, and those that are spelled as all up to there.
   Nothing is there (mapping.c). */
static inline bool is_in_hole(uint64_t address)
{
    return address - FEWEST_END < HOLE_END - FEWEST_END || address - ADDRESS_END < HOLE_END;
}

static inline bool is_in_shadow(uint64_t address)
{
    const uint64_t hole = SHADOW_START + FEWEST_END / GRANULE, hole_bytes = (HOLE_END - FEWEST_END) / GRANULE;
    return address - SHADOW_START < SHADOW_BYTES && address - hole >= hole_bytes;
}

#else

_Static_assert(MEMORY_END <= ADDRESS_END, "a trace can spell each address");

/* An address as traces have it. */
static inline uint64_t spelled(uint64_t address)
{
    return address;
}

/* Whether no memory can be there, below the end of addresses. */
static inline bool is_in_hole(uint64_t address)
{
    (void)address;
    return false;
}

static inline bool is_in_shadow(uint64_t address)
{
    return address - SHADOW_START < SHADOW_BYTES;
}

#endif

/* Whether a trace can't have an access to as many bytes, since no memory can be there. */
static inline bool is_beyond(uint64_t address, uint64_t size)
{
    return address > MEMORY_END - size || is_in_hole(address);
}

static inline bool is_in_arena(uint64_t address)
{
    return address >> ARENA_SHIFT == ARENA_NUMBER;
}

/* This many bytes of the allocator's memory, from a multiple of that on, may have a file as their shadow (unused.h). At
   any time. */
#define SHADOW_OF_FILE ((uint64_t)1 << 25)
bool shadow_is_of_file(uint64_t address);
void shadow_note_file(uint64_t address, bool is_of_file);

/* The process poisons or unpoisons memory of the allocator's: before its shadow is written, also in part. */
void shadow_note_poison(uint64_t address, uint64_t size);
/* Whether it may have done so near an address, at any time. */
bool shadow_may_be_poisoned(uint64_t address);

static inline volatile unsigned char *shadow_of(uint64_t address)
{
    return (volatile unsigned char *)(SHADOW_START + address / GRANULE);
}

/* How many of a granule's first bytes are addressable, by its shadow byte. */
static inline unsigned addressable_of(unsigned char shade)
{
    return shade == 0 ? GRANULE : shade < GRANULE ? shade : 0;
}

/* The check of the compilers, which is the collector's too: the granule of the first byte decides. */
static inline bool shade_is_bad(unsigned shade, uint64_t address, unsigned width)
{
    return shade != 0 && (shade >= GRANULE || address % GRANULE + width > shade);
}

static inline bool shadow_is_bad(uint64_t address, unsigned width)
{
    return shade_is_bad(*shadow_of(address), address, width);
}

/* A redzone of a frame, or a variable whose scope has ended. */
static inline bool is_of_frame(unsigned char shade)
{
    return (shade >= SHADE_LEFT && shade <= SHADE_RETURNED) || shade == SHADE_SCOPE || shade == SHADE_ALLOCA_LEFT
           || shade == SHADE_ALLOCA_RIGHT;
}

/* The byte that a block leaves in a granule of its span. */
static inline unsigned char shade_of_block(uintptr_t start, size_t size, bool is_held, uintptr_t granule)
{
    uintptr_t end = start + size;
    if (granule < start || granule >= end)
        return SHADE_HEAP;
    if (is_held)
        return SHADE_FREED;
    return end - granule < GRANULE ? (unsigned char)(end - granule) : 0;
}

/* Whether an access meets the redzone of a frame that lies in a block: of a coroutine, or of a thread or a handler with
   a stack that the program has allocated. For the collector that memory is the block's. It may be used for something
   else without a word: so the redzones there are nobody's, unless this thread is on that stack now (threads.h). */
static inline bool is_frame_in_block(uint64_t address, unsigned width)
{
    if (!is_in_arena(address))
        return false;
    unsigned char shade = *shadow_of(address);
    if (shade >= GRANULE)
        return is_of_frame(shade);
    return shade != 0 && address % GRANULE + width > shade && is_of_frame(*shadow_of(address + GRANULE));
}

/* Whether an address is one of the last of the memory below the shadow: that of the shadow itself can't be read. */
static inline bool is_before_shadow(uint64_t address, uint64_t size)
{
    return SHADOW_START - 1 - address < size;
}

/* Whether each byte of a region is addressable, of any region; */
bool shadow_is_clean_long(uint64_t address, uint64_t size) OWN_NAME(shadow_is_clean_long);

/* and of one whose granules have their shadow in one word. Of others it is false. The last granule's comes to the top,
   without what lies after it, and all before it have to be zeros. */
static inline bool shadow_is_clean_short(uint64_t address, uint64_t size)
{
    uint64_t word, within = address % GRANULE, last = within + size - 1;
    if (UNLIKELY(size - 1 >= sizeof word * GRANULE - within || address >= MEMORY_END - sizeof word * GRANULE
                 || is_before_shadow(address, sizeof word * GRANULE) || is_in_hole(address)))
        return false;
    __builtin_memcpy(&word, (const unsigned char *)shadow_of(address), sizeof word);
    word <<= ~last & (sizeof word - 1) * GRANULE;
    uint64_t shade = word >> (sizeof word - 1) * GRANULE;
    return LIKELY(word == 0) || (word << GRANULE == 0 && shade < GRANULE && last % GRANULE < shade);
}

static inline bool shadow_is_clean(uint64_t address, uint64_t size)
{
    return LIKELY(shadow_is_clean_short(address, size)) || shadow_is_clean_long(address, size);
}

/* Makes all granules that a region touches addressable. */
void shadow_clear(uint64_t address, uint64_t size) OWN_NAME(shadow_clear);
/* By the rules of a poison and an unpoison (docs/inside/MODEL.md). Other threads see them on return. */
void shadow_poison(uint64_t address, uint64_t size, unsigned char code) OWN_NAME(shadow_poison);
/* By interface/variables.c as a scope begins, and by stream/record.c after a record; heap/paint.h paints blocks. */
void shadow_unpoison(uint64_t address, uint64_t size) OWN_NAME(shadow_unpoison);
/* The first byte of a region that is not addressable, or its end. */
uint64_t shadow_first_bad(uint64_t address, uint64_t size) OWN_NAME(shadow_first_bad);

#endif

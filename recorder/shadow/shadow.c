/* The shadow is no variable: its bytes are found by arithmetic. Whole granules are filled by pages, and the two at the
   ends one by one, by the rules of docs/inside/MODEL.md. */
#define _GNU_SOURCE
#include "shadow/shadow.h"

#include <stdatomic.h>
#include <string.h>
#include <sys/mman.h>

#include "base/platform.h"
#include "base/system.h"

#ifndef IN_SHARED_OBJECT

#define ARENA_START ((uint64_t)ARENA_NUMBER << ARENA_SHIFT)
enum { FILE_COUNT = ((uint64_t)1 << ARENA_SHIFT) / SHADOW_OF_FILE, BITS = 32 };
/* Pages further apart than all of these share a bit. */
enum { POISON_COUNT = 1 << 16 };

/* A bit for each part: a file is its shadow. Written with the allocator's lock. */
static AS_TABLE _Atomic uint32_t of_file[FILE_COUNT / BITS];
/* A bit for each page: the process has poisoned or unpoisoned some of it. */
static AS_TABLE _Atomic uint32_t has_poison[POISON_COUNT / BITS];

bool shadow_is_of_file(uint64_t address)
{
    uint64_t number = (address - ARENA_START) / SHADOW_OF_FILE;
    return address >= ARENA_START && number < FILE_COUNT
           && (atomic_load_explicit(&of_file[number / BITS], memory_order_relaxed) >> number % BITS & 1) != 0;
}

void shadow_note_file(uint64_t address, bool is_of_file)
{
    uint64_t number = (address - ARENA_START) / SHADOW_OF_FILE;
    uint32_t bit = UINT32_C(1) << number % BITS;
    if (is_of_file)
        atomic_fetch_or_explicit(&of_file[number / BITS], bit, memory_order_relaxed);
    else
        atomic_fetch_and_explicit(&of_file[number / BITS], ~bit, memory_order_relaxed);
}

bool shadow_may_be_poisoned(uint64_t address)
{
    uint64_t number = address / PAGE % POISON_COUNT;
    return (atomic_load_explicit(&has_poison[number / BITS], memory_order_relaxed) >> number % BITS & 1) != 0;
}

void shadow_note_poison(uint64_t address, uint64_t size)
{
    uint64_t pages = size != 0 ? (address + size - 1) / PAGE - address / PAGE + 1 : 0;
    for (uint64_t i = 0; i < pages && i < POISON_COUNT; i++) {
        uint64_t number = (address / PAGE + i) % POISON_COUNT;
        if (!shadow_may_be_poisoned(number * PAGE))
            atomic_fetch_or_explicit(&has_poison[number / BITS], UINT32_C(1) << number % BITS, memory_order_relaxed);
    }
    atomic_thread_fence(memory_order_release);
}

#endif

/* Where memory ends that begins at an address. The shadow of the shadow is not there. */
static uint64_t end_from(uint64_t address)
{
    return address < SHADOW_START ? SHADOW_START : MEMORY_END;
}

bool shadow_is_clean_long(uint64_t address, uint64_t size)
{
    if (size == 0)
        return true;
    if (address >= MEMORY_END || size > end_from(address) - address || is_in_hole(address))
        return false;
    const unsigned char *at = (const unsigned char *)shadow_of(address);
    const unsigned char *last = (const unsigned char *)shadow_of(address + size - 1);
    for (uint64_t words[4]; last - at >= (ptrdiff_t)sizeof words; at += sizeof words) {
        __builtin_memcpy(words, at, sizeof words);
        if ((words[0] | words[1] | words[2] | words[3]) != 0)
            return false;
    }
    uint64_t word;
    for (; last - at >= (ptrdiff_t)sizeof word; at += sizeof word) {
        __builtin_memcpy(&word, at, sizeof word);
        if (word != 0)
            return false;
    }
    for (; at < last; at++)
        if (*at != 0)
            return false;
    return *last == 0 || (*last < GRANULE && (address + size - 1) % GRANULE < *last);
}

/* Whether whole pages of it are zeros once they are given back. */
static bool has_zeros_behind(uint64_t address, uint64_t size)
{
#ifdef IN_SHARED_OBJECT
    (void)size;
    return !is_in_arena(address);
#else
    for (uint64_t at = address; at < address + size && is_in_arena(at); at += SHADOW_OF_FILE)
        if (shadow_is_of_file(at))
            return false;
    return !shadow_is_of_file(address + size - 1);
#endif
}

/* Fills the shadow of whole granules. Zeros in whole pages give the pages back. */
static void fill(uint64_t address, uint64_t size, unsigned char shade)
{
    unsigned char *first = (unsigned char *)shadow_of(address), *end = (unsigned char *)shadow_of(address + size);
    if (shade == 0 && end - first > 2 * (ptrdiff_t)SYSTEM_PAGE && has_zeros_behind(address, size)) {
        uintptr_t mask = ~(uintptr_t)(SYSTEM_PAGE - 1);
        unsigned char *pages = (unsigned char *)(((uintptr_t)first + SYSTEM_PAGE - 1) & mask);
        unsigned char *pages_end = (unsigned char *)((uintptr_t)end & mask);
        if (system_madvise(pages, (size_t)(pages_end - pages), MADV_DONTNEED) == 0) {
            memset(first, 0, (size_t)(pages - first));
            first = pages_end;
        }
    }
    memset(first, shade, (size_t)(end - first));
}

/* Cuts a region at the end of addresses. Returns whether anything is left of it. */
static bool clip(uint64_t address, uint64_t *size)
{
    if (address >= MEMORY_END || is_in_hole(address))
        return false;
    if (*size > end_from(address) - address)
        *size = end_from(address) - address;
    return *size != 0;
}

void shadow_clear(uint64_t address, uint64_t size)
{
    if (!clip(address, &size))
        return;
    uint64_t first = address / GRANULE * GRANULE;
    fill(first, (address + size - first + GRANULE - 1) / GRANULE * GRANULE, 0);
}

/* Of one granule, its bytes from `from` up to `to`. */
static void poison_part(uint64_t granule, unsigned from, unsigned to, unsigned char code)
{
    volatile unsigned char *shade = shadow_of(granule);
    unsigned count = addressable_of(*shade);
    if (to < count || from >= count)
        return;
    *shade = from == 0 ? code : (unsigned char)from;
}

static void unpoison_part(uint64_t granule, unsigned to)
{
    volatile unsigned char *shade = shadow_of(granule);
    if (to > addressable_of(*shade))
        *shade = (unsigned char)to;
}

void shadow_poison(uint64_t address, uint64_t size, unsigned char code)
{
    if (!clip(address, &size))
        return;
    uint64_t end = address + size, first = address / GRANULE * GRANULE;
    if (first != address) {
        unsigned to = end - first < GRANULE ? (unsigned)(end - first) : GRANULE;
        poison_part(first, (unsigned)(address - first), to, code);
        first += GRANULE;
    }
    uint64_t last = end / GRANULE * GRANULE;
    if (first < last)
        fill(first, last - first, code);
    if (last >= first && last < end)
        poison_part(last, 0, (unsigned)(end - last), code);
    atomic_thread_fence(memory_order_seq_cst);
}

void shadow_unpoison(uint64_t address, uint64_t size)
{
    if (!clip(address, &size))
        return;
    uint64_t end = address + size, first = address / GRANULE * GRANULE, last = end / GRANULE * GRANULE;
    if (first < last)
        fill(first, last - first, 0);
    if (last < end)
        unpoison_part(last, (unsigned)(end - last));
    atomic_thread_fence(memory_order_seq_cst);
}

uint64_t shadow_first_bad(uint64_t address, uint64_t size)
{
    enum { STEP = 64 * GRANULE };
    if (!clip(address, &size))
        return address + size;
    uint64_t at = address, end = address + size;
    while (end - at > STEP && shadow_is_clean(at, STEP))
        at += STEP;
    for (; at < end; at = at / GRANULE * GRANULE + GRANULE) {
        uint64_t good_end = at / GRANULE * GRANULE + addressable_of(*shadow_of(at));
        uint64_t bad = at > good_end ? at : good_end;
        if (bad / GRANULE == at / GRANULE && bad < end)
            return bad;
    }
    return end;
}

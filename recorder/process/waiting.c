/* A table by hash, with some places for each stack. An entry has words of the shadow that are not zeros: of deep stacks
   those that are nearest to where it waits. */
#include "process/waiting.h"

#include <stdatomic.h>
#include <stdbool.h>
#include <string.h>

#include "base/platform.h"
#include "base/tables.h"
#include "heap/heap.h"
#include "shadow/shadow.h"

enum { ENTRY_BYTES = 1 << 11, HEAD_BYTES = 24, WORD_BYTES = 12, WORDS = (ENTRY_BYTES - HEAD_BYTES) / WORD_BYTES };
enum { ENTRY_BITS = 14, ENTRIES = 1 << ENTRY_BITS, TRIED = 8, BUSY = 1 };

struct entry {
    _Atomic uintptr_t stack; /* 0: it is free */
    uintptr_t frame;
    uint32_t count;
    uint32_t places[WORDS]; /* in bytes of the shadow from that of the frame on */
    uint64_t words[WORDS];
};

_Static_assert(sizeof(struct entry) <= ENTRY_BYTES, "it is not larger");

static struct entry *const entries = TABLE(struct entry, contexts_waiting);
TABLE_HAS_ROOM(contexts_waiting, ENTRIES * sizeof *entries);

static struct entry *entry_of(uintptr_t stack, size_t i)
{
    size_t first = stack * UINT64_C(0x9e3779b97f4a7c15) >> (64 - ENTRY_BITS);
    return &entries[(first + i) % ENTRIES];
}

static bool take(struct entry *entry, uintptr_t stack)
{
    return atomic_load_explicit(&entry->stack, memory_order_relaxed) == stack
           && atomic_compare_exchange_strong(&entry->stack, &stack, BUSY);
}

/* The entry of this stack, which is busy from now on; or null. */
static struct entry *take_own(uintptr_t stack)
{
    for (size_t i = 0; i < TRIED; i++)
        if (take(entry_of(stack, i), stack))
            return entry_of(stack, i);
    return NULL;
}

static bool is_gone(uintptr_t stack)
{
    return is_in_arena(stack) && heap_start_around(stack) == 0;
}

/* One that is free, or else of a stack that is gone, or else that of any other. */
static struct entry *take_any(uintptr_t stack)
{
    for (size_t i = 0; i < TRIED; i++)
        if (take(entry_of(stack, i), 0))
            return entry_of(stack, i);
    for (size_t i = 0; i <= TRIED; i++) {
        struct entry *entry = entry_of(stack, i % TRIED);
        uintptr_t other = atomic_load(&entry->stack);
        if (other != BUSY && (i == TRIED || is_gone(other)) && take(entry, other))
            return entry;
    }
    return NULL;
}

void waiting_keep(struct span stack, uintptr_t frame)
{
    struct entry *entry = take_own(stack.low);
    if (entry == NULL && (entry = take_any(stack.low)) == NULL)
        return;
    const unsigned char *shades = (const unsigned char *)shadow_of(frame);
    size_t size = (stack.top - frame) / GRANULE;
    entry->frame = frame;
    entry->count = 0;
    for (size_t at = 0; at < size && entry->count < WORDS; at += sizeof(uint64_t)) {
        uint64_t word = 0;
        memcpy(&word, shades + at, size - at < sizeof word ? size - at : sizeof word);
        if (word == 0)
            continue;
        entry->places[entry->count] = (uint32_t)at;
        entry->words[entry->count++] = word;
    }
    atomic_store(&entry->stack, entry->count != 0 ? stack.low : 0);
}

static void put_back_word(uintptr_t start, uint64_t word, uintptr_t target)
{
    unsigned char bytes[sizeof word];
    memcpy(bytes, &word, sizeof word);
    for (size_t i = 0; i < sizeof word; i++) {
        volatile unsigned char *shade = shadow_of(start + i * GRANULE);
        if (bytes[i] != 0 && start + i * GRANULE >= target && *shade == 0)
            *shade = bytes[i];
    }
}

void waiting_put_back(struct span stack, uintptr_t target)
{
    struct entry *entry = take_own(stack.low);
    if (entry == NULL)
        return;
    for (uint32_t i = 0; i < entry->count; i++)
        put_back_word(entry->frame + (uintptr_t)entry->places[i] * GRANULE, entry->words[i], target);
    atomic_store(&entry->stack, 0);
}

void waiting_forget(struct span stack)
{
    struct entry *entry = take_own(stack.low);
    if (entry != NULL)
        atomic_store(&entry->stack, 0);
}

/* The entries lie beside the stream, and `known` is a hash table of their numbers, for the newest list. A thread takes
   a number, fills its entry, and then puts the number into `known`, where others find it. */
#define _GNU_SOURCE
#include "stream/fault_list.h"

#include <string.h>
#include <sys/mman.h>

#include "base/system.h"
#include "base/tables.h"
#include "shadow/shadow.h"
#include "stream/state.h"
#include "stream/thread_list.h"

/* Those that are known: the upper bits of a hash, and the number in the lower ones. */
#define KNOWN ((uint64_t)1 << 17)
_Static_assert(FAULT_NUMBER == KNOWN - 1, "a number is a place in the table");
_Static_assert(SIDE_FAULTS < KNOWN, "there is always a free place, and a number has room");
static _Atomic uint64_t *const known = TABLE(_Atomic uint64_t, known_faults);
TABLE_HAS_ROOM(known_faults, KNOWN * sizeof *known);

void fault_list_forget(void)
{
    /* Memory that the process has locked can't be given back to the system. */
    if (system_madvise((void *)known, KNOWN * sizeof *known, MADV_DONTNEED) != 0)
        for (uint64_t i = 0; i < KNOWN; i++) /* others may look there */
            atomic_store_explicit(&known[i], 0, memory_order_relaxed);
}

uint64_t fault_list_mix(uint64_t hash, const char *text, size_t room)
{
    for (size_t i = 0; i < room && text[i] != 0; i += sizeof(uint64_t)) {
        uint64_t word;
        memcpy(&word, text + i, sizeof word);
        hash = list_mix(hash, word);
    }
    return hash;
}

void fault_list_put_call(char *call, const char *name)
{
    static const char *const prefixes[] = {"__isoc99_", "__isoc23_"};
    size_t length = name != NULL ? strlen(name) : 0, suffix = strlen("_chk");
    for (size_t i = 0; i < sizeof prefixes / sizeof *prefixes; i++) {
        if (length > strlen(prefixes[i]) && strncmp(name, prefixes[i], strlen(prefixes[i])) == 0) {
            name += strlen(prefixes[i]);
            length -= strlen(prefixes[i]);
        }
    }
    if (length > suffix + 2 && strncmp(name, "__", 2) == 0 && strcmp(name + length - suffix, "_chk") == 0) {
        name += 2;
        length -= suffix + 2;
    }
    if (length != 0)
        memcpy(call, name, length < SIDE_CALL - 1 ? length : SIDE_CALL - 1);
}

struct side_fault *fault_list_at(const struct list *list, uint32_t number)
{
    return (struct side_fault *)(list_bytes(list) + SIDE_FAULTS_AT) + (number - 1);
}

/* The shadow of the allocator's memory says of all that is no block's, and of freed blocks, that it is poison: here it
   says which it is. */
static void name_shades(struct side_fault *fault)
{
    for (uint64_t i = 0; fault->shadow_start != 0 && i < SIDE_SHADOW; i++) {
        uint64_t granule = fault->shadow_start + i * GRANULE;
        if (fault->shadow[i] == SHADE_USER && is_in_arena(granule))
            fault->shadow[i] = above.shade_of(granule, fault->shadow[i]);
    }
}

/* Adds an entry to the list, and fills it. Its threads get their numbers there. Answers its number, or 0. */
static uint32_t add_fault(struct list *list, const struct side_fault *fault)
{
    _Atomic uint32_t *count = (_Atomic uint32_t *)&((struct side *)list_bytes(list))->fault_count;
    uint32_t number = atomic_fetch_add(&list->taken, 1) + 1;
    if (number > SIDE_FAULTS) {
        atomic_fetch_sub(&list->taken, 1);
        return 0;
    }
    if (!list_back(list, SIDE_FAULTS_AT + (number - 1) * sizeof *fault, sizeof *fault, false))
        return 0;
    struct side_fault *entry = fault_list_at(list, number);
    *entry = *fault;
    name_shades(entry);
    entry->thread = list_put_thread(list, fault->thread);
    entry->allocated_thread = list_put_thread(list, fault->allocated_thread);
    entry->freed_thread = list_put_thread(list, fault->freed_thread);
    list_raise(count, number);
    return number;
}

uint32_t fault_list_add(struct list *list, uint64_t hash, const struct side_fault *fault)
{
    uint32_t number = 0;
    uint64_t tag = hash & ~FAULT_NUMBER;
    for (uint64_t at = hash;; at++) {
        _Atomic uint64_t *place = &known[at & FAULT_NUMBER];
        uint64_t seen = atomic_load_explicit(place, memory_order_acquire);
        if (seen == 0) {
            if (number == 0 && (number = add_fault(list, fault)) == 0)
                return 0;
            if (atomic_compare_exchange_strong(place, &seen, tag | number))
                return number;
        }
        if ((seen & ~FAULT_NUMBER) == tag)
            return (uint32_t)(seen & FAULT_NUMBER);
    }
}

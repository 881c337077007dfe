/* From an access to the number of its fault: by a hash of the access, then of its nearest block or variable, and then
   by the list (fault_list.h). `recent` spares a loop all but the first. */
#define _GNU_SOURCE
#include "stream/faults.h"

#include <stdatomic.h>
#include <string.h>

#include "base/memory.h"
#include "base/platform.h"
#include "shadow/globals.h"
#include "shadow/shadow.h"
#include "stacks/frames.h"
#include "stacks/thread_notes.h"
#include "stream/fault_list.h"
#include "stream/near.h"
#include "stream/side.h"
#include "stream/state.h"
#include "stream/test_name.h"
#include "stream/thread_list.h"

/* The faults at variables that were found last, by all that decides which they are, in the same form: a loop need not
   read a description each time. */
enum { RECENT = 1 << 10 };
static AS_TABLE _Atomic uint64_t recent[RECENT];

void faults_begin(unsigned char *bytes, unsigned window)
{
    if (atomic_load(&list_newest()->taken) != 0) {
        fault_list_forget();
        for (unsigned i = 0; i < RECENT; i++) /* others may look there */
            atomic_store_explicit(&recent[i], 0, memory_order_relaxed);
    }
    list_begin(bytes, window);
}

/* Of the allocator's memory, whose shadow is there as a whole. */
static void copy_shadow(uint64_t start, unsigned char to[SIDE_SHADOW])
{
    volatile const uint64_t *from = (volatile const uint64_t *)shadow_of(start);
    for (size_t i = 0; i < SIDE_SHADOW / sizeof *from; i++) {
        uint64_t shades = from[i];
        __builtin_memcpy(to + i * sizeof shades, &shades, sizeof shades);
    }
}

/* What the shadow has round a byte, as rows that begin at multiples of their length. */
static void keep_shadow(uint64_t bad, struct side_fault *fault)
{
    uint64_t row = bad / (GRANULE * SIDE_ROW) * (GRANULE * SIDE_ROW), before = GRANULE * SIDE_ROW * SIDE_ROWS_BESIDE;
    fault->shadow_start = row > before ? row - before : 0;
    if (is_in_arena(fault->shadow_start) && is_in_arena(fault->shadow_start + sizeof fault->shadow * GRANULE))
        copy_shadow(fault->shadow_start, fault->shadow);
    else if (!memory_read((uintptr_t)shadow_of(fault->shadow_start), fault->shadow, sizeof fault->shadow))
        fault->shadow_start = 0;
}

/* The first bad byte decides the nearest block or variable. */
static uint64_t first_bad(unsigned width, uint64_t address)
{
    uint64_t bad = width == 0 ? address : shadow_first_bad(address, width);
    return bad < address + width ? bad : address;
}

/* The list. */

/* Of what the access has of it: the call site with its stack, the kind, the size, the call, the thread, and the test.
   Threads and tests count up to half of the list: those of a pool may meet in many ways. */
static uint64_t hash_of_access(const struct list *list, enum code code, const struct side_fault *fault, uint64_t test)
{
    uint64_t first = 1 + list_window(list), has_threads = atomic_load(&list->taken) < SIDE_FAULTS / 2;
    uint64_t hash = list_mix(list_mix(list_mix(list_mix(first, fault->call_site), fault->stack), code), fault->size);
    return list_mix(fault_list_mix(hash, fault->call, SIDE_CALL), has_threads ? fault->thread ^ test : 0);
}

/* Of what makes one fault in a list: also where the block was allocated and freed, with the stacks, and the name. */
static uint64_t hash_of(const struct list *list, uint64_t hash, const struct side_fault *fault)
{
    hash = list_mix(list_mix(hash, fault->allocated), fault->freed);
    hash = list_mix(hash, (uint64_t)fault->freed_stack << 32 | fault->allocated_stack);
    if (atomic_load(&list->taken) < SIDE_FAULTS / 2)
        hash = list_mix(hash, (uint64_t)fault->allocated_thread << 32 | fault->freed_thread);
    return list_mix(fault_list_mix(hash, fault->name, SIDE_NAME), fault->variable);
}

static uint32_t block_fault(struct list *list, uint64_t hash, uint64_t bad, struct side_fault *fault)
{
    near_block(list, bad, fault);
    return fault_list_add(list, hash_of(list, hash, fault), fault);
}

/* The fault of an access outside blocks, by the nearest variable. The description of a frame is read if it is not
   `recent`. */
static uint32_t variable_fault(struct list *list, uint64_t hash, uint64_t bad, struct side_fault *fault)
{
    struct frame frame = {0, 0, 0};
    bool is_array = near_array(bad, fault), has_frame = false;
    if (!is_array && !globals_may_have(bad))
        has_frame = frame_around(bad, &frame);
    uint64_t key = list_mix(list_mix(hash, bad), globals_generation());
    if (has_frame)
        key = list_mix(list_mix(key, frame.start), frame.description);
    _Atomic uint64_t *place = &recent[key % RECENT];
    uint64_t seen = atomic_load(place);
    if (seen != 0 && (seen & ~FAULT_NUMBER) == (key & ~FAULT_NUMBER))
        return (uint32_t)(seen & FAULT_NUMBER);
    if (has_frame)
        near_variable(list, &frame, bad, fault);
    else if (!is_array)
        near_global(bad, fault);
    uint32_t number = fault_list_add(list, hash_of(list, hash, fault), fault);
    if (number != 0)
        atomic_store(place, (key & ~FAULT_NUMBER) | number);
    return number;
}

static _Atomic uint64_t *noted_in(unsigned window)
{
    return (_Atomic uint64_t *)&((struct side_progress *)(list_bytes(list_of(window)) + SIDE_PROGRESS))->noted;
}

void fault_begin(unsigned window)
{
    atomic_fetch_add(noted_in(window), 1);
}

void fault_end(unsigned window)
{
    _Atomic uint64_t *noted = noted_in(window);
    uint64_t before = atomic_load(noted);
    /* Another segment may lie there by now. */
    while (before != 0 && !atomic_compare_exchange_weak(noted, &before, before - 1))
        ;
}

/* The fault of an access whose first bad piece this is, this many bytes from an address on. */
static uint32_t find_fault(struct list *list, const struct access *access, unsigned width, uint64_t address)
{
    uint64_t bad = first_bad(width, address);
    struct side_fault fault = {.call_site = access->caller, .start = access->start, .size = access->size};
    fault.stack = list_put_stack(list, call_site_of(access->caller));
    fault.thread = thread_number();
    fault_list_put_call(fault.call, access->call);
    keep_shadow(bad, &fault);
    struct test_name test = test_name_put(list);
    fault.test = test.number & SIDE_TEST_MASK;
    uint64_t hash = hash_of_access(list, access->code, &fault, test.hash);
    bool is_of_block = is_in_arena(bad) && !is_frame_in_block(address, width);
    return is_of_block ? block_fault(list, hash, bad, &fault) : variable_fault(list, hash, bad, &fault);
}

uint32_t fault_of(unsigned window, struct access *access, unsigned width, uint64_t address)
{
    struct list *list = list_of(window);
    uint64_t next = atomic_load(&STREAM->cursor) << 1 >> 33;
    uint32_t number = atomic_load(&list->number);
    /* The event will be one of the next. */
    if (next >= EVENT_LIMIT || !list_back(list, SIDE_INDEX + next * SIDE_INDEX_ENTRY, SIDE_INDEX_ENTRY, false))
        return 0;
    if (access->list != number) {
        access->fault = find_fault(list, access, width, address);
        access->list = number;
    }
    return access->fault == 0 ? 0 : access->fault | (access->is_noted ? SIDE_IS_PIECE : 0);
}

static void note_first(struct list *list, uint32_t number, uint64_t event)
{
    _Atomic uint64_t *first = (_Atomic uint64_t *)&fault_list_at(list, number)->event;
    uint64_t seen = atomic_load(first);
    while ((seen == 0 || event < seen) && !atomic_compare_exchange_weak(first, &seen, event))
        ;
}

void fault_note(unsigned window, uint32_t entry, uint64_t event)
{
    struct list *list = list_of(window);
    uint64_t offset = SIDE_INDEX + (event - 1) * SIDE_INDEX_ENTRY;
    if (!list_back(list, offset, SIDE_INDEX_ENTRY, true))
        return;
    note_first(list, entry & ~SIDE_IS_PIECE, event);
    atomic_store_explicit((_Atomic uint32_t *)(list_bytes(list) + offset), entry, memory_order_release);
}

uint64_t fault_key(uint64_t event)
{
    const struct list *list = list_newest();
    uint64_t offset = SIDE_INDEX + (event - 1) * SIDE_INDEX_ENTRY;
    if (!side_is_there() || event > EVENT_LIMIT || !list_is_backed(list, offset, SIDE_INDEX_ENTRY))
        return 0;
    uint32_t entry = atomic_load((const _Atomic uint32_t *)(list_bytes(list) + offset)) & ~SIDE_IS_PIECE;
    return entry != 0 ? (uint64_t)atomic_load(&list->number) << 32 | entry : 0;
}

void fault_note_last(call_site last, uint64_t address, uint32_t how)
{
    if (!side_is_there())
        return;
    side_note_last(&(struct side_last){
        .call_site = call_site_address(last),
        .address = address,
        .stack = list_put_stack(list_newest(), last),
        .thread = list_put_thread(list_newest(), call_site_thread(last)),
        .test = test_name_put(list_newest()).number,
        .how = how,
    });
}

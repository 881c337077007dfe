/* A finding becomes an entry as a fault does, in the newest window, and is counted beside it; if the stream has gone on
   in its next segment meanwhile, in that too. */
#define _GNU_SOURCE
#include "stream/findings.h"

#include <errno.h>
#include <string.h>

#include "environment/asan_options.h"
#include "environment/dormant.h"
#include "shadow/shadow.h"
#include "stream/fault_list.h"
#include "stream/faults.h"
#include "stream/near.h"
#include "stream/places.h"
#include "stream/sending.h"
#include "stream/state.h"
#include "stream/test_name.h"

static void put_text(char *to, const char *text, size_t room)
{
    size_t length = text != NULL ? strlen(text) : 0;
    memcpy(to, text, length < room ? length : room - 1);
}

static bool is_leak(const struct finding *finding)
{
    return finding->kind == FINDING_LEAK || finding->kind == FINDING_INDIRECT_LEAK;
}

/* How many events there were in this segment. */
static uint64_t events_now(void)
{
    return atomic_load(&STREAM->cursor) << 1 >> 33;
}

/* The entry that a finding has in a list. */
static struct side_fault entry_for(struct list *list, const struct finding *finding)
{
    struct side_fault entry = {.kind = finding->kind, .block = finding->block, .block_size = finding->block_size,
                               .start = finding->start, .size = finding->size};
    entry.call_site = call_site_address(finding->call_site);
    entry.stack = list_put_stack(list, finding->call_site);
    entry.thread = call_site_thread(finding->call_site);
    entry.allocated = call_site_address(finding->allocated);
    entry.allocated_stack = list_put_stack(list, finding->allocated);
    entry.allocated_thread = call_site_thread(finding->allocated);
    entry.variables = finding->other_name != NULL ? list_put_text(list, finding->other_name) : 0;
    entry.found.other = finding->other;
    entry.found.after = events_now();
    fault_list_put_call(entry.call, finding->call);
    put_text(entry.name, finding->name, sizeof entry.name);
    return entry;
}

/* Of what makes one finding in a list. Sizes and addresses are those of the first one. */
static uint64_t hash_of(const struct list *list, const struct side_fault *entry)
{
    uint64_t hash = list_mix(list_mix(1 + list_window(list), entry->kind), entry->call_site);
    hash = list_mix(list_mix(hash, entry->stack), entry->allocated);
    hash = list_mix(hash, entry->allocated_stack);
    return fault_list_mix(fault_list_mix(hash, entry->call, SIDE_CALL), entry->name, SIDE_NAME);
}

/* A leak replaces its earlier finding; others come up once more. Answers whether it is the first. */
static bool count(struct side_fault *entry, const struct finding *finding)
{
    _Atomic uint64_t *times = (_Atomic uint64_t *)&entry->found.count;
    if (!is_leak(finding))
        return atomic_fetch_add(times, 1) == 0;
    atomic_store((_Atomic uint64_t *)&entry->size, finding->size);
    return atomic_exchange(times, finding->count) == 0;
}

/* Adds a finding to a list, or counts it there once more. Answers its number, if it is the first one; or 0. */
static uint32_t note_in(struct list *list, const struct finding *finding)
{
    struct side_progress *progress = (struct side_progress *)(list_bytes(list) + SIDE_PROGRESS);
    struct side_fault entry = entry_for(list, finding);
    struct test_name test = test_name_put(list);
    entry.test = test.number & SIDE_TEST_MASK;
    uint64_t hash = hash_of(list, &entry);
    if (!is_leak(finding)) /* each search finds all leaks, also those of earlier tests */
        hash = list_mix(hash, test.hash);
    if (entry.block == 0 && is_in_arena(finding->start))
        near_block(list, finding->start, &entry);
    uint32_t number = fault_list_add(list, hash, &entry);
    if (number == 0)
        atomic_fetch_add((_Atomic uint64_t *)&progress->findings_lost, 1);
    if (number == 0 || !count(fault_list_at(list, number), finding))
        return 0;
    atomic_fetch_add((_Atomic uint64_t *)&progress->leaks, is_leak(finding));
    atomic_fetch_add((_Atomic uint64_t *)&progress->findings, 1);
    return number;
}

/* Whether there is a stream, or was one up to its limit: what stands beside it is there. */
static bool wakes_side(void)
{
    bool is_there = is_on() || stream_state() == STATE_AT_LIMIT || stream_wake();
    return is_there && atomic_load_explicit(&STREAM->has_side, memory_order_relaxed);
}

void finding_note(const struct finding *finding)
{
    int before = errno;
    unsigned segment;
    uint32_t number = 0;
    do {
        segment = atomic_load(&STREAM->segment);
        if (!wakes_side())
            break;
        struct list *list = list_newest();
        fault_begin(list_window(list));
        number = note_in(list, finding);
        fault_end(list_window(list));
        /* The stream may have gone on in its next segment: who has read this one may have missed it. */
    } while (atomic_load(&STREAM->segment) != segment);
    if (dormant_is_there())
        stream_look_at_clock(true); /* the memory beside the stream is not the hub's yet */
    if ((is_telling() || (is_showing() && number != 0)) && !is_leak(finding) && wakes_side())
        above.tell(&(struct told){.finding = finding->kind,
                                  .caller = call_site_address(finding->call_site),
                                  .address = finding->start,
                                  .size = finding->size,
                                  .call = finding->call,
                                  .entry = number});
    errno = before;
}

void finding_note_call(const struct wrong_call *wrong)
{
    if (wrong->call != NULL && !asan_options_check_call(wrong->call))
        return;
    finding_note(&(struct finding){.kind = wrong->kind, .call_site = call_site_of(wrong->caller), .call = wrong->call,
                                   .start = wrong->start, .size = wrong->size, .other = wrong->other});
}

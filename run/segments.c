/* A hash table of processes by their own number and start, by which a segment finds its process; there segments stand
   in their order. */
#define _GNU_SOURCE
#include "segments.h"

#include <inttypes.h>
#include <stdlib.h>
#include <string.h>

#include "say.h"
#include "verdict.h"

/* No process has this many segments: a greater number is invalid. */
#define MAX_SEGMENTS ((uint64_t)1 << 32)

/* Processes by what their side memory says of them: at least as many buckets as processes. */
static struct process **known;
static size_t known_count, bucket_count;
static size_t joined_count; /* how many have joined another */

static struct process **bucket_of(int own_number, uint64_t started)
{
    uint64_t mixed = (started ^ (uint64_t)(unsigned)own_number << 40) * UINT64_C(0x9e3779b97f4a7c15);
    return &known[(mixed >> 32) % bucket_count];
}

static void put_known(struct process *process)
{
    struct process **bucket = bucket_of(process->own_number, process->started);
    process->known_next = *bucket;
    *bucket = process;
}

static void grow(void)
{
    struct process **before = known;
    size_t count = bucket_count;
    bucket_count = count == 0 ? 1024 : 2 * count;
    known = must(calloc(bucket_count, sizeof(struct process *)));
    for (size_t i = 0; i < count; i++) {
        for (struct process *at = before[i], *next; at != NULL; at = next) {
            next = at->known_next;
            put_known(at);
        }
    }
    free(before);
}

static void add_known(struct process *process)
{
    if (known_count++ == bucket_count)
        grow();
    put_known(process);
}

/* What lies in a file has its number as the process sees it, and not as the hub does. */
static bool is_of(const struct segment *segment, const struct process *process)
{
    const struct process *own = segment->process;
    bool is_same_peer = process->peer == own->peer || process->first->trace != NULL || segment->trace != NULL;
    return process->own_number == own->own_number && process->started == own->started && is_same_peer;
}

/* Puts it in its place among those of the process. False: there is one of this number already. */
static bool put(struct process *process, struct segment *segment)
{
    struct segment **at = &process->first;
    while (*at != NULL && (*at)->number < segment->number)
        at = &(*at)->next;
    if (*at != NULL && (*at)->number == segment->number)
        return false;
    segment->process->first = NULL;
    segment->process = process;
    segment->next = *at;
    *at = segment;
    process->is_summed_up = false;
    joined_count++;
    return true;
}

static void take_numbers(struct segment *segment)
{
    uint64_t number = side_progress(segment->side).segment;
    segment->number = number < MAX_SEGMENTS ? number : 0;
    segment->process->started = segment->side->started;
}

void segments_join_file(struct process *process, struct segment *segment)
{
    process->source = SOURCE_FILES;
    if (segment->process == process)
        return;
    segment->process->source = SOURCE_FILES;
    put(process, segment);
}

void segments_join(struct segment *segment)
{
    struct process *own = segment->process, *other = NULL;
    bool is_known = segment->side != NULL && segment->side->started != 0 && own->source != SOURCE_FILES;
    if (is_known) {
        take_numbers(segment);
        other = known_count > 0 ? *bucket_of(own->own_number, own->started) : NULL;
    }
    for (; other != NULL; other = other->known_next)
        if (is_of(segment, other) && put(other, segment))
            return;
    process_number(own);
    if (is_known)
        add_known(own);
}

struct segment *segments_last(const struct process *process)
{
    struct segment *last = process->first;
    while (last->next != NULL)
        last = last->next;
    return last;
}

/* Whether the last segment of a process says that another one follows. The process may just have written it. */
static bool goes_on(const struct process *process)
{
    const struct segment *last = segments_last(process);
    return last->outcome.ending == ENDING_SEGMENT || (last->side != NULL && last->side->ending == ENDING_SEGMENT);
}

static void leave_out(struct process *process)
{
    process->first = NULL;
    joined_count++;
}

void segments_leave_out(struct segment *segment)
{
    segment->process->is_quiet = true;
    leave_out(segment->process);
}

bool segments_take_empty(struct segment *segment)
{
    struct process *own = segment->process, *last = NULL, *other = own->peer != 0 ? process_of_peer(own->peer) : NULL;
    for (; other != NULL; other = process_next_of_peer(other))
        if (other != own && other->first != NULL && goes_on(other))
            last = other;
    if (last == NULL)
        return false;
    leave_out(own);
    return true;
}

size_t segments_process_count(void)
{
    return process_count() - joined_count;
}

bool segments_are_several(const struct process *process)
{
    const struct segment *front = process->first;
    return front->next != NULL || front->number > 0 || front->outcome.ending == ENDING_SEGMENT;
}

/* Whether the one that should come after it is there; or it is the last. */
static bool has_next(const struct segment *segment)
{
    if (segment->next == NULL)
        return segment->outcome.ending != ENDING_SEGMENT;
    return segment->next->number == segment->number + 1;
}

bool segments_are_complete(const struct process *process)
{
    const struct segment *at = process->first;
    if (at->number > 0)
        return false;
    for (; at->next != NULL; at = at->next)
        if (at->stage != STAGE_DONE || !has_next(at))
            return false;
    return at->stage == STAGE_DONE && has_next(at) && at->outcome.is_settled;
}

const char *segments_kept(const struct process *process)
{
    const struct segment *at = process->first;
    while (at->kept == NULL && at->next != NULL)
        at = at->next;
    return at->kept;
}

static bool is_good(const struct segment *segment)
{
    return outcome_is_complete(&segment->outcome) || segment->outcome.answer == UNCHECKED;
}

/* Whether all that a segment recorded was seen. Each but the last has to end with a close. */
static bool is_seen(const struct segment *segment)
{
    const struct outcome *outcome = &segment->outcome;
    bool has_end = segment->next == NULL || outcome->is_closed_off || strcmp(outcome->fate, "closed") == 0;
    return is_good(segment) && has_end;
}

#define BLAME(...) outcome_set(joined, INCOMPLETE, __VA_ARGS__)

/* Blames the whole process for a flaw of one of its segments. */
static void blame(struct outcome *joined, const struct segment *segment)
{
    const struct outcome *outcome = &segment->outcome;
    joined->fate = outcome->fate;
    if (segment->stage != STAGE_DONE)
        BLAME("its end was not seen");
    else if (outcome->is_cut_at_limit)
        verdict_blame_limit(joined);
    else if (segment->next == NULL)
        BLAME("%s", outcome->why);
    else if (is_good(segment))
        BLAME("segment %" PRIu64 ": its trace ended as %s", segment->number + 1, outcome->fate);
    else
        BLAME("segment %" PRIu64 ": %.120s", segment->number + 1, outcome->why);
}

/* Names a missing or unseen part of it; or returns false. */
static bool is_flawed(struct outcome *joined, const struct segment *front)
{
    if (front->number > 0) {
        BLAME("segment %" PRIu64 " is the first that was seen", front->number + 1);
        return true;
    }
    for (const struct segment *at = front; at != NULL; at = at->next) {
        if (!is_seen(at)) {
            blame(joined, at);
            return true;
        }
        if (!has_next(at)) {
            BLAME("%s%s",
                  at->outcome.is_closed_off ? "it has closed all its descriptors, and did not connect again"
                                            : "its next segment did not come",
                  at->next != NULL ? ", and later ones did" : "");
            return true;
        }
    }
    return false;
}

/* How many events it had: of these, lean recording sends those near a fault alone. */
static uint64_t events_of(const struct outcome *outcome)
{
    return outcome->events - outcome->stated + outcome->left_good;
}

/* Adds what one segment has come to, to the outcome of all. */
static void add(struct outcome *joined, const struct outcome *outcome)
{
    joined->events += events_of(outcome);
    joined->reports += outcome->reports;
    joined->findings += outcome->findings;
    joined->leaks += outcome->leaks;
    joined->left_out += outcome->left_out;
    if (joined->used_again == 0)
        joined->used_again = outcome->used_again;
    if (!outcome->is_lean) { /* it has gone over to that */
        joined->is_lean = false;
        joined->quarantine = outcome->quarantine;
    }
    joined->has_checks |= outcome->has_checks;
    joined->segments++;
}

/* The sum of all, with the settings of the first, and the end of the last. */
static struct outcome add_up(const struct segment *front)
{
    const struct outcome *first = &front->outcome;
    struct outcome joined = {.fate = "",
                             .why = "",
                             .quarantine = first->quarantine,
                             .is_one = first->is_one,
                             .halts = first->halts,
                             .is_lean = first->is_lean,
                             .ending = first->ending};
    for (const struct segment *at = front; at != NULL; at = at->next) {
        add(&joined, &at->outcome);
        joined.fate = at->outcome.fate;
        joined.signal = at->outcome.signal;
        joined.has_halted = at->outcome.has_halted;
        joined.is_unsaid = at->outcome.is_unsaid;
        joined.is_crash = at->outcome.is_crash;
        joined.is_ignored = at->outcome.is_ignored;
    }
    return joined;
}

struct outcome segments_joined(const struct process *process)
{
    struct outcome joined = process->first->outcome;
    joined.segments = 1;
    joined.events = events_of(&joined);
    if (!segments_are_several(process))
        return joined;
    joined = add_up(process->first);
    const struct outcome *last = &segments_last(process)->outcome;
    if (is_flawed(&joined, process->first))
        return joined;
    if (!joined.has_checks)
        outcome_set(&joined, UNCHECKED, "%s", last->why);
    else if (last->answer == UNCHECKED) /* the checks came before */
        outcome_set(&joined, COMPLETE, "%s", "");
    else
        outcome_set(&joined, last->answer, "%s", last->why);
    return joined;
}

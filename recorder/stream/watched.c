/* The shadow, the nearest block and whether the recording is lean are read once. Then comes the entry beside the
   stream, and then the records. If the segment is another one by then, the entry is in the wrong list, and all begins
   anew; or if the recording is lean no more. */
#define _GNU_SOURCE
#include "stream/watched.h"

#include "shadow/shadow.h"
#include "stream/faults.h"
#include "stream/findings.h"
#include "stream/group.h"
#include "stream/sending.h"
#include "stream/side.h"
#include "stream/state.h"
#include "stream/switching.h"

/* The shadow of the block that a bad access or free has met was overwritten, which may be why it is bad, or why others
   are not seen. */
static void note_difference(const struct difference *difference, const struct access *access)
{
    uint64_t bytes = difference->shade | (uint64_t)difference->left << 8;
    if (difference->granule != 0)
        finding_note_call(&(struct wrong_call){.kind = FINDING_SHADOW,
                                               .caller = access->caller,
                                               .call = access->call,
                                               .start = difference->granule,
                                               .size = GRANULE,
                                               .other = bytes});
}

/* Before something bad is looked at: the unsent part of a segment is lost with its connection. */
static void stay_connected(bool is_of_heap)
{
    if (sending_is_cut(is_of_heap))
        switching_go_on(0);
}

static bool has_side(void)
{
    return atomic_load_explicit(&STREAM->has_side, memory_order_relaxed);
}

/* What an access finds. False: it is good. */
static bool find(uint64_t address, unsigned width, struct found *found)
{
    uint64_t granule = address / GRANULE * GRANULE, next = granule + GRANULE;
    *found = (struct found){.granule = granule, .shade = *shadow_of(granule), .is_of_heap = is_in_arena(address)};
    if (!shade_is_bad(found->shade, address, width))
        return false;
    if (addressable_of(found->shade) != 0 && !is_beyond(next, 1) && !is_in_shadow(next))
        found->next = *shadow_of(next);
    if (found->is_of_heap)
        above.find_state(found);
    return true;
}

/* A block is stated by what all have recorded, if these are all. */
static bool is_stated_already(const struct group *group, const struct found *found)
{
    unsigned char shade = addressable_of(found->shade) != 0 ? found->next : found->shade;
    return found->is_of_heap && !group->is_lean && !is_of_frame(shade);
}

/* With its statements, or without any (null). */
static bool record_found(struct group *group, uint32_t entry, struct moment moment, unsigned code_and_width,
                         uint64_t address, const struct found *found, bool is_of_heap, struct place *place)
{
    group_make(group, code_and_width, address, found);
    return group_record(group, entry, moment, is_of_heap, place) != TAKING_AGAIN;
}

/* Of an access that has interrupted the allocator it is not asked: notes and shadow may be of two states. */
static void look_for_difference(uint64_t address, bool is_free, struct difference *difference)
{
    if (is_lean() && is_in_arena(address) && (is_free || !above.is_in_heap()))
        *difference = above.find_difference(address);
}

static void record_good(unsigned code_and_width, uint64_t address)
{
    if (is_lean())
        return;
    group_record_good(code_and_width, address);
    stream_look_at_clock(false);
}

uint64_t record_watched_access(unsigned code_and_width, uint64_t address, uintptr_t caller, struct access *whole)
{
    unsigned width = code_and_width >> 8;
    struct access itself = access_of(code_and_width & 0xff, address, width, caller, NULL);
    struct difference difference = {0};
    struct place place = {0};
    struct found found;
    bool is_noted, is_done;
    whole = whole != NULL ? whole : &itself;
    if (shadow_is_bad(address, width))
        stay_connected(false);
    do {
        struct moment now = moment_now();
        struct group group = {.is_lean = is_lean()};
        if (!find(address, width, &found)) {
            record_good(code_and_width, address);
            return 0;
        }
        const struct found *stated = is_stated_already(&group, &found) ? NULL : &found;
        is_noted = has_side();
        /* What comes next may be refused by a filter of system calls, and end the process. */
        if (is_noted) {
            fault_begin(now.window);
            look_for_difference(address, false, &difference);
        }
        uint32_t entry = is_noted ? fault_of(now.window, whole, width, address) : 0;
        is_done = record_found(&group, entry, now, code_and_width, address, stated, false, &place);
        if (is_noted)
            fault_end(now.window);
    } while (!is_done);
    note_difference(&difference, whole);
    if (place.at == NULL)
        return 0;
    whole->is_noted |= is_noted;
    stream_look_at_clock(is_noted);
    return is_noted && is_showing() ? place.event : 0;
}

void record_bad_free(uint64_t address, uintptr_t caller, const char *call)
{
    struct access access = access_of(CODE_FREE, address, 0, caller, call);
    if (address >= MEMORY_END || is_in_hole(address))
        return;
    if (!is_on() && !stream_wake()) {
        record_too_late(true);
        return;
    }
    struct difference difference = {0};
    struct place place = {0};
    struct found found;
    bool is_noted, is_done;
    stay_connected(true);
    do {
        struct moment now = moment_now();
        struct group group = {.is_lean = is_lean()};
        found = (struct found){.is_of_heap = is_in_arena(address)};
        if (group.is_lean && !above.find_freed(address, &found))
            return; /* it is one no more */
        is_noted = has_side();
        if (is_noted) {
            fault_begin(now.window);
            look_for_difference(address, true, &difference);
        }
        uint32_t entry = is_noted ? fault_of(now.window, &access, 0, address) : 0;
        is_done = record_found(&group, entry, now, CODE_FREE, address, group.is_lean ? &found : NULL, true, &place);
        if (is_noted)
            fault_end(now.window);
    } while (!is_done);
    note_difference(&difference, &access);
    if (place.at != NULL)
        stream_look_at_clock(true);
    if (is_telling() || is_showing())
        above.tell(&(struct told){.code = CODE_FREE,
                                  .caller = caller,
                                  .address = address,
                                  .call = call,
                                  .event = place.at != NULL ? place.event : 0});
}

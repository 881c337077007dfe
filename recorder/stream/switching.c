/* For files the next segment opens before this one ends; for connections this one ends first. In both the window
   changes last, by which other threads notice it. Static functions run with the allocator's lock and the stream's. */
#define _GNU_SOURCE
#include "stream/switching.h"

#include <errno.h>
#include <string.h>

#include "base/disturbance.h"
#include "base/errors.h"
#include "base/platform.h"
#include "base/say.h"
#include "base/self.h"
#include "stream/ending.h"
#include "stream/growing.h"
#include "stream/held.h"
#include "stream/holes.h"
#include "stream/locked.h"
#include "stream/keeping.h"
#include "stream/opening.h"
#include "stream/segments.h"
#include "stream/side.h"
#include "stream/state.h"
#include "stream/windows.h"

static _Thread_local bool is_switching;

bool switching_takes_snapshot(void)
{
    return is_switching;
}

uint64_t stream_snapshot_room(void)
{
    return plan.settings->limit / 2;
}

/* The place of a record of a snapshot. No other thread has one in this stream yet. */
unsigned char *switching_reserve(unsigned length)
{
    bool is_full = locked.checked_events >= stream_snapshot_room();
    locked.is_overfull |= is_full;
    if (is_full || stream_state() != STATE_SWITCHING || !growing_to(locked.checked + length))
        return NULL;
    unsigned char *at = STREAM->bytes + locked.checked;
    locked.checked += length;
    locked.checked_events++;
    return at;
}

/* What a segment lies in. */
struct outputs {
    struct output trace, side;
    bool has_side;
};

/* The files of the next segment are there before the one before is closed: so who finds that closed finds the next. */
static const char *open_next(struct outputs *next, unsigned window)
{
    static AS_TABLE char name[PATH_MAX];
    next->has_side = false;
    if (!segments_name(locked.segment + 1, name))
        return error_text(ENAMETOOLONG);
    const char *why = output_open_file(&next->trace, name, NAME_NUMBERED, windows_of_stream(window), FILE_STEP);
    if (why != NULL)
        return why;
    if (!next->trace.is_mapped) {
        output_close(&next->trace);
        return "it can't be mapped";
    }
    next->has_side = plan.settings->with_side && opening_side(&next->side, &next->trace, window);
    return NULL;
}

static bool finish_segment(uint64_t cursor)
{
    return ending_at((uint32_t)cursor, plan.settings->limit, ending_of(cursor, FINISH_CLOSED), ENDING_SEGMENT, 0);
}

/* Ends the segment whose cursor this was, and opens the next. False: the recording has ended. */
static bool leave_file(uint64_t cursor, unsigned window)
{
    static AS_TABLE struct outputs next; /* the lock is held */
    const char *why = open_next(&next, window);
    if (why != NULL) {
        keeping_give_up_at(cursor, why);
        return false;
    }
    if (!finish_segment(cursor)) {
        output_discard(&next.trace);
        if (next.has_side)
            output_discard(&next.side);
        return false;
    }
    locked.trace = next.trace;
    locked.side = next.side;
    locked.has_side = next.has_side;
    locked.window = window;
    locked.segment++;
    return true;
}

/* Of a connection that is closed: there can be no close, and the unsent part is missing. If nothing was sent, and there
   was nothing to say, nobody knows of this segment. */
static bool leave_closed(uint64_t cursor, bool *is_unknown)
{
    growing_to((uint32_t)cursor);
    holes_check((uint32_t)cursor, plan.settings->limit, LONG);
    *is_unknown = held_is_quiet();
    side_note_closed_off();
    side_note_ending(ENDING_SEGMENT, 0, locked.checked_events);
    tail_trim(locked.checked, ENDING_SEGMENT);
    return true;
}

/* The same. A hub may limit the number of connections, so this one ends first. What it has at its end
   says that there has to be a next one, unless the hub has nothing of this one. */
static bool leave_connection(uint64_t cursor, unsigned window)
{
    bool is_unknown = false, was_closed = output_is_closed(&locked.trace),
         has_ended = was_closed ? leave_closed(cursor, &is_unknown) : finish_segment(cursor);
    tail_leave();
    locked.has_side = false;
    locked.window = window;
    locked.segment += !is_unknown;
    const char *why = has_ended ? opening_hub(plan.settings) : NULL;
    if (has_ended && why == NULL)
        return true;
    opening_take_back();
    atomic_store_explicit(&STREAM->has_side, false, memory_order_relaxed);
    state_go(STATE_OFF);
    if (why != NULL && !was_closed) /* else the hub says so */
        recorder_say("recording ends: ", plan.settings->hub, why);
    return false;
}

/* Threads that have looked at something in the segment before see that there is another one once its window is known,
   and look again. By then nothing is left of what they have looked at. */
static void begin_next(void)
{
    opening_segment();
    if (is_file())
        segments_keep(locked.segment, &locked.trace, plan.settings->segments);
    /* Events are numbered anew. */
    atomic_store(&shared.stop, 0);
    state_set_events_end(0);
    atomic_fetch_add(&STREAM->segment, 1);
    atomic_store(&STREAM->window, locked.window);
}

static void take_snapshot(void)
{
    is_switching = locked.takes_snapshot = true;
    above.snapshot(UINT64_MAX, stream_snapshot_room());
    is_switching = locked.takes_snapshot = false;
}

/* After the snapshot of a segment. */
static void turn_on(void)
{
    if (locked.is_overfull) {
        state_go(STATE_AT_LIMIT);
        ending_at(locked.checked, locked.checked_events, FINISH_AT_LIMIT, ENDING_NONE, 0);
        return;
    }
    if (atomic_load(&shared.is_closing)) {
        ending_close_again();
        return;
    }
    state_record(STATE_SWITCHING);
}

/* From the segment whose cursor this was. The allocator's lock is held too. */
static void switch_segment(uint64_t cursor)
{
    unsigned next = (locked.window + 1) % WINDOWS;
    if (is_hub() ? !leave_connection(cursor, next) : !leave_file(cursor, next))
        return;
    begin_next();
    take_snapshot();
    side_note_snapshot(locked.checked_events);
    turn_on();
}

/* Whether a full recording may begin in the segment that had this cursor. */
static bool can_be_full(uint64_t cursor)
{
    return cursor < (CURSOR_ON | CURSOR_EVENT) && plan.settings->quarantine >= QUARANTINE_BOUND;
}

/* It is lean no more while the stream is off: who has found something before looks again. */
bool switching_go_full(void)
{
    stream_lock();
    uint64_t cursor = state_leave(STATE_SWITCHING);
    bool is_left = (cursor & CURSOR_ON) != 0;
    if (is_left) {
        atomic_store(&lean_is_on, false);
        if (!can_be_full(cursor)) {
            switch_segment(cursor);
        } else {
            atomic_fetch_add(&STREAM->segment, 1); /* all is looked at again, as in a next one */
            take_snapshot();
            turn_on();
        }
    }
    stream_unlock();
    return is_left;
}

bool switching_go_on(uint64_t events)
{
    struct disturbance before;
    bool is_in_heap = above.is_in_heap();
    undisturbed_begin(&before);
    if (!is_in_heap)
        above.lock_heap();
    stream_lock();
    uint64_t cursor = atomic_load(&STREAM->cursor);
    bool is_past = (cursor & CURSOR_ON)
                   && (((cursor - CURSOR_ON) >> 32) + events > plan.settings->limit
                       || (is_hub() && output_is_closed(&locked.trace)));
    cursor = is_past ? state_leave(STATE_SWITCHING) : 0;
    if (cursor & CURSOR_ON)
        switch_segment(cursor);
    stream_unlock();
    if (!is_in_heap)
        above.unlock_heap();
    undisturbed_end(&before);
    return !is_past || (cursor & CURSOR_ON);
}

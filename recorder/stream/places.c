/* A place that was taken is past `ready`, past the limit, or in a stream that is off: each is an answer of `enum room`,
   and the thread tries again, or leaves the event out. */
#define _GNU_SOURCE
#include "stream/places.h"

#include "base/say.h"
#include "base/self.h"
#include "stream/ending.h"
#include "stream/growing.h"
#include "stream/holes.h"
#include "stream/keeping.h"
#include "stream/locked.h"
#include "stream/side.h"
#include "stream/state.h"
#include "stream/switching.h"
#include "stream/windows.h"
#include "stream/writing.h"

/* A child that no fork has announced has its parent's state, and a page of zeros. A child of vfork shares the page.
   It is asked only in a state in which there is a plan. */
static bool is_unannounced_child(void)
{
    return STREAM->bytes == NULL;
}

/* Whether a stream that was off is on again. Who switches to the next segment is waited for, and another one may
   follow. If it stays off, it has this state. */
static bool comes_on(enum state *state)
{
    for (;;) {
        unsigned window = atomic_load(&STREAM->window);
        *state = stream_state();
        if (*state == STATE_SWITCHING) {
            if (is_unannounced_child())
                return false; /* who switches is not here, and has the lock */
            stream_lock();
            stream_unlock();
        }
        if (is_on())
            return true;
        bool is_same = window == atomic_load(&STREAM->window) && *state == stream_state();
        /* It may have been on and off again meanwhile, in the same window. */
        if (is_same && *state != STATE_SWITCHING && !is_on())
            return false;
    }
}

/* Another thread tries an exec just now. Events noted before the exec has failed are missing at the end. */
static bool is_missed(void)
{
    atomic_store(&shared.has_missed, true);
    return stream_state() == STATE_SUSPENDED;
}

/* Whether a stream that is off, and had this state, may be on now. */
static bool may_be_on(enum state state)
{
    switch (state) {
    case STATE_UNSTARTED:
        return above.start();
    case STATE_RECORDING:
    case STATE_SWITCHING:
    case STATE_SUSPENDED:
        if (!is_unannounced_child())
            return state != STATE_SUSPENDED || !is_missed(); /* it was on meanwhile */
        above.say_child();
        return false;
    case STATE_AT_LIMIT:
        keeping_leave_out();
        return false;
    default:
        return false;
    }
}

bool stream_wake(void)
{
    enum state state;
    do {
        if (comes_on(&state))
            return true;
    } while (may_be_on(state));
    return false;
}

void record_too_late(bool is_bad)
{
    if (!is_bad || stream_state() != STATE_CLOSED || !recorder_is_own_process()
        || atomic_exchange(&shared.is_late, true))
        return;
    side_note_needed(atomic_load_explicit(&shared.seen_events, memory_order_relaxed) + 1);
    if (!is_hub())
        recorder_say("incomplete: ", locked.trace.path, "a bad access came after the close");
}

/* Whether the place that was taken can be written; or whether there may be room for the record in another place. */
enum room { NO_ROOM, ROOM_HERE, ROOM_IN_ANOTHER };

/* Stops for a debugger, once, before the event with this number of predecessors is written. */
static void stop_at(uint64_t count)
{
    uint64_t stop = atomic_load(&shared.stop);
    if (stop == 0 || count + 1 < stop || !atomic_compare_exchange_strong(&shared.stop, &stop, 0))
        return;
    state_set_events_end(0);
    processor_stop(); /* also if SIGTRAP is blocked */
}

/* A handler may have interrupted the allocator, so that there can be no snapshot of the heap just now. What a child of
   vfork connects to is no connection of its parent's. */
static bool may_switch(bool is_of_heap)
{
    return (is_of_heap || !above.is_in_heap()) && (!is_hub() || recorder_is_own_process());
}

/* The cursor is past the limit. */
static enum room pass_limit(uint64_t cursor, bool is_of_heap)
{
    if (has_segments()) {
        if (may_switch(is_of_heap)) {
            if (!switching_go_on(0))
                stream_rest(0);
            return ROOM_IN_ANOTHER;
        }
    } else if ((cursor - CURSOR_ON) >> 32 == plan.settings->limit) {
        ending_at_limit((uint32_t)cursor);
    }
    keeping_leave_out();
    return NO_ROOM;
}

static bool is_in_stream(uint64_t cursor)
{
    return window_of((uint32_t)cursor) == atomic_load(&STREAM->window);
}

/* Who has the lock may be waiting for this record, and makes room for it. */
static void wait_for_room(uint64_t cursor, uint64_t end)
{
    for (int looks = 0; !has_room(end) && is_in_stream(cursor); looks++) {
        if (!is_on() && stream_state() != STATE_SWITCHING)
            return;
        if (!stream_lock_at_once()) {
            stream_rest(looks);
            continue;
        }
        if (is_on() && is_in_stream(cursor))
            growing_to(end);
        stream_unlock();
    }
}

/* Removes the obstacle to a place that is unusual, if it can. */
static enum room make_room(uint64_t cursor, const struct shape *shape, bool is_of_heap)
{
    /* It was turned off just now, or went on in its next segment. */
    if (!(cursor & CURSOR_ON) || !is_in_stream(cursor))
        return ROOM_IN_ANOTHER;
    bool has_close = atomic_load(&shared.has_close);
    uint64_t end = (uint32_t)cursor + shape->length + (has_close ? CLOSE_LENGTH : 0);
    uint64_t count = (cursor - CURSOR_ON) >> 32;
    if (count >= plan.settings->limit)
        return pass_limit(cursor, is_of_heap);
    stop_at(count + shape->count - 1);
    wait_for_room(cursor, end);
    if (!is_in_stream(cursor))
        return ROOM_IN_ANOTHER;
    if (!has_room(end))
        return NO_ROOM;
    if (atomic_load(&shared.is_closed_off) && may_switch(is_of_heap)) {
        holes_fill(STREAM->bytes + (uint32_t)cursor, shape);
        switching_go_on(0);
        return ROOM_IN_ANOTHER;
    }
    if (has_close)
        tail_follow(end - CLOSE_LENGTH);
    return ROOM_HERE;
}

/* The place of a record that has taken it by this cursor. If the stream goes on in its next segment, it is another
   cursor. */
static unsigned char *open_place(uint64_t *cursor, unsigned length, bool is_of_heap)
{
    struct shape shape = shape_of_one(length);
    while (stream_is_unusual(*cursor, length) || !is_in_stream(*cursor)) {
        enum room room = make_room(*cursor, &shape, is_of_heap);
        if (room == ROOM_IN_ANOTHER && stream_wake())
            *cursor = stream_take(&STREAM->cursor, CURSOR_EVENT + length);
        else if (room != ROOM_HERE)
            return NULL;
        else
            break;
    }
    return STREAM->bytes + (uint32_t)*cursor;
}

enum taking stream_open_group(uint64_t cursor, const struct shape *shape, bool is_of_heap)
{
    enum room room = make_room(cursor, shape, is_of_heap);
    return room == ROOM_HERE ? TAKING_DONE : room == NO_ROOM ? TAKING_LEFT_OUT : TAKING_AGAIN;
}

/* Not all of a group fits into this segment, and there is no next one: what comes instead says nothing. */
static enum taking fill_last(bool is_of_heap)
{
    unsigned char *at = stream_reserve(ACCESS_LENGTH, is_of_heap);
    struct shape shape = shape_of_one(ACCESS_LENGTH);
    if (at == NULL)
        return TAKING_LEFT_OUT;
    holes_fill(at, &shape);
    return TAKING_AGAIN;
}

enum taking stream_make_way_for(unsigned events, bool is_of_heap)
{
    if (!has_segments())
        return fill_last(is_of_heap);
    if (events > plan.settings->limit || !may_switch(is_of_heap)) {
        keeping_leave_out();
        return TAKING_LEFT_OUT;
    }
    if (!switching_go_on(events))
        stream_rest(0);
    return TAKING_AGAIN;
}

unsigned char *stream_reserve(unsigned length, bool is_of_heap)
{
    if (!is_on()) {
        if (switching_takes_snapshot())
            return switching_reserve(length);
        if (!stream_wake())
            return NULL;
    }
    uint64_t cursor = stream_take(&STREAM->cursor, CURSOR_EVENT + length);
    unsigned char *at = LIKELY(!stream_is_unusual(cursor, length)) ? STREAM->bytes + (uint32_t)cursor
                                                                   : open_place(&cursor, length, is_of_heap);
    STAYS_KNOWN(cursor); /* to own_place.c */
    return at;
}

void record_access_slowly(uint64_t cursor, unsigned code_and_width, uint64_t address)
{
    unsigned char *at = open_place(&cursor, ACCESS_LENGTH, false);
    if (at != NULL)
        put_access(at, code_and_width, address);
}

/* From `checked` on stand records that may not be written yet, and after the last one the tail: a close, an event more
   than the limit, or nothing. */
#include "stream/keeping.h"

#include "base/digits.h"
#include "base/say.h"
#include "stream/held.h"
#include "stream/holes.h"
#include "stream/locked.h"
#include "stream/side.h"
#include "stream/state.h"
#include "stream/windows.h"
#include "stream/writing.h"

/* What stands after the last record. */

unsigned tail_length(enum finish finish)
{
    return finish == FINISH_CLOSED ? CLOSE_LENGTH : finish == FINISH_AT_LIMIT ? FREE_LENGTH : 0;
}

/* One event more than the limit is a free of null, which says nothing, and by which a reader knows that events are
   missing. */
void tail_put(uint64_t offset, enum finish finish)
{
    unsigned char *at = STREAM->bytes + offset;
    if (finish == FINISH_CLOSED)
        put_code(at, CODE_CLOSE);
    if (finish == FINISH_AT_LIMIT) {
        put_number(at + 1, 0);
        put_code(at, CODE_FREE);
    }
}

void tail_take_close_away(void)
{
    if (atomic_exchange(&shared.has_close, false))
        put_code(STREAM->bytes + locked.checked, CODE_NONE);
}

void tail_follow(uint64_t end)
{
    unsigned char none = CODE_NONE;
    atomic_compare_exchange_strong((_Atomic unsigned char *)(STREAM->bytes + end), &none, CODE_CLOSE);
}

void tail_leave(void)
{
    output_leave(&locked.trace);
    output_leave(&locked.side);
}

void tail_trim(uint64_t end, enum ending ending)
{
    if (locked.has_side)
        side_end_modules(locked.generation);
    /* No thread that is late may store past the end of a file. What stands beside it keeps its length: threads that
       have no place yet are in the middle of stacks and faults there, and go on with them. */
    if (ending == ENDING_SEGMENT && is_file())
        tail_leave();
    output_trim(&locked.trace, length_to(end));
}

/* A recording that ends early. */

/* The stream that had this cursor is off, and gets its end. */
static void end_early(uint64_t cursor, const char *why)
{
    uint64_t end = (uint32_t)cursor, ready = atomic_load(&STREAM->ready);
    if (cursor & CURSOR_ON)
        holes_check(end < ready ? end : ready, plan.settings->limit, SHORT);
    tail_take_close_away();
    side_note_ending(ENDING_LOST, 0, locked.checked_events);
    if ((cursor & CURSOR_ON) || locked.takes_snapshot)
        tail_trim(locked.checked, ENDING_LOST);
    if (locked.is_held)
        held_send();
    if (!is_hub() || why != output_closed)
        recorder_say("recording ends: ", locked.trace.path, why);
}

void keeping_give_up(const char *why)
{
    end_early(state_lose(), why);
}

void keeping_give_up_at(uint64_t cursor, const char *why)
{
    state_lose();
    end_early(cursor, why);
}

void stream_stop(const char *why)
{
    if (stream_state() != STATE_RECORDING)
        return;
    stream_lock();
    keeping_give_up(why);
    stream_unlock();
}

bool stream_has_lost(const void *address)
{
    /* Else a thread that is late has stored into a file that is to be that of the next segment. */
    if (!output_lose(&locked.trace, address) && !output_lose(&locked.side, address))
        return windows_mend(address);
    state_lose();
    side_note_ending(ENDING_LOST, 0, atomic_load_explicit(&shared.seen_events, memory_order_relaxed));
    recorder_say("recording ends: ", locked.trace.path, "the file was cut");
    return true;
}

/* Events without a place. */

void keeping_leave_out(void)
{
    atomic_fetch_add_explicit(&shared.left_out, 1, memory_order_relaxed);
    atomic_store(&shared.is_cut, true);
    side_note_left_out();
}

void stream_say_left_out(void)
{
    uint64_t left_out = atomic_exchange(&shared.left_out, 0);
    char digits[DIGITS_ROOM];
    /* A hub says it by itself. */
    if (left_out == 0 || (is_hub() && atomic_load_explicit(&STREAM->has_side, memory_order_relaxed)))
        return;
    recorder_say("events beyond the limit are missing in ", locked.trace.path,
                 put_digits(digits + sizeof digits, left_out, 1));
}

/* Each way goes by the same steps: the state is left, the records are gone over up to the end (holes.c), the tail is
   put (keeping.h), and what stands beside it says how it ended: ending_at. Static functions run with the stream's lock,
   except lock_for_end, leave_undisturbed and turn_off. */
#include "stream/ending.h"

#include "base/disturbance.h"
#include "base/say.h"
#include "base/self.h"
#include "environment/other_threads.h"
#include "stream/growing.h"
#include "stream/held.h"
#include "stream/holes.h"
#include "stream/keeping.h"
#include "stream/locked.h"
#include "stream/side.h"
#include "stream/state.h"

/* An incomplete process must not read as clean: a process without a check, of which nothing was seen but its
   blocks, or one of which events are missing. */
static enum finish as_seen(enum finish finish)
{
    const char *why = NULL;
    if (finish != FINISH_CLOSED)
        return finish;
    if (!recorder_has_checks())
        why = "no access was recorded, since no part of the program was compiled by asancol-cc";
    else if (atomic_load(&shared.has_missed))
        why = "other threads went on while an exec was tried";
    if (why == NULL)
        return finish;
    if (!locked.said_unseen && !is_hub()) /* which says so itself */
        recorder_say("the trace has no close: ", locked.trace.path, why);
    locked.said_unseen = true;
    return FINISH_OPEN;
}

enum finish ending_of(uint64_t cursor, enum finish finish)
{
    if (!has_segments())
        return (cursor - CURSOR_ON) >> 32 > plan.settings->limit ? FINISH_AT_LIMIT : finish;
    return atomic_load(&shared.is_cut) ? FINISH_OPEN : finish;
}

/* Goes over the records up to the end. Answers how the stream can end: with a close only if all of them are there; and
   whether it is a good end, at which nothing is missing. */
static enum finish finish_of_records(uint64_t end, uint64_t limit, enum finish finish, enum ending ending,
                                     bool *is_good)
{
    unsigned holes = holes_check(end, limit, ending == ENDING_SEGMENT ? LONG : SHORT);
    bool is_whole = locked.checked == end || locked.checked_events == limit;
    /* The thread is not gone: it was interrupted by what has brought this end, or it sleeps. */
    if (ending == ENDING_SEGMENT && holes != 0) {
        keeping_leave_out();
        is_whole = false;
    }
    if (!is_whole || atomic_load(&shared.has_missed))
        side_note_needed(locked.checked_events + 1); /* which does not come */
    bool is_end = ending == ENDING_EXIT || ending == ENDING_EXEC || ending == ENDING_SIGNAL;
    *is_good = is_end && is_whole && !atomic_load(&shared.has_missed) && recorder_has_checks();
    finish = is_whole ? as_seen(finish) : FINISH_OPEN;
    return locked.goes_on && !is_file() ? FINISH_OPEN : finish;
}

/* Sends the last bytes. False: they are lost. A hub knows the missing part if the process has closed the descriptor. */
static bool send_end(uint64_t end)
{
    const char *why = locked.is_held ? held_send() : NULL;
    if (why == NULL && !is_file())
        why = output_send(&locked.trace, length_to(end), true, plan.settings->patience_ms);
    if (why == output_closed && is_hub()) {
        side_note_closed_off();
        return true;
    }
    if (why != NULL) {
        side_note_ending(ENDING_LOST, 0, locked.checked_events);
        recorder_say("the end of the recording is lost: ", locked.trace.path, why);
    }
    return why == NULL;
}

bool ending_at(uint64_t end, uint64_t limit, enum finish finish, enum ending ending, int number)
{
    if (!growing_to(end))
        return false;
    bool is_good = false;
    finish = finish_of_records(end, limit, finish, ending, &is_good);
    end = locked.checked;
    unsigned more = tail_length(finish);
    if (finish != FINISH_CLOSED)
        tail_take_close_away();
    if (more != 0 && growing_to(end + more)) {
        tail_put(end, finish);
        end += more;
        atomic_store(&shared.has_close, finish == FINISH_CLOSED && is_file());
    }
    side_note_ending(ending, number, locked.checked_events);
    tail_trim(end, ending);
    return (is_good && held_is_quiet()) || send_end(end);
}

void ending_at_limit(uint64_t end)
{
    stream_lock();
    if (is_on() && growing_to(end) && (state_leave(STATE_AT_LIMIT) & CURSOR_ON))
        ending_at(end, plan.settings->limit, FINISH_AT_LIMIT, ENDING_NONE, 0);
    stream_unlock();
}

/* Takes the lock: for certain, or if it comes free soon. */
static bool lock_for_end(bool certain)
{
    if (certain)
        stream_lock();
    return certain || stream_lock_within(LONG);
}

/* A handler that came between the state and the cursor would find neither on nor off. */
static uint64_t leave_undisturbed(void)
{
    struct disturbance before;
    undisturbed_begin(&before);
    uint64_t cursor = state_leave(STATE_OFF);
    undisturbed_end(&before);
    return cursor;
}

/* Turns the stream off. Answers its cursor; without CURSOR_ON: it was off. A switch to the next segment is waited for,
   in a handler not for ever. */
static uint64_t turn_off(bool in_handler)
{
    for (;;) {
        uint64_t cursor = leave_undisturbed();
        enum state state = stream_state();
        if ((cursor & CURSOR_ON) || (state != STATE_SWITCHING && state != STATE_RECORDING))
            return cursor;
        /* It is on by now, or who switches has the lock. */
        if (!lock_for_end(!in_handler))
            return 0;
        stream_unlock();
    }
}

void stream_end(enum finish finish, enum ending ending, int number)
{
    uint64_t cursor = turn_off(ending == ENDING_SIGNAL);
    bool was_on = (cursor & CURSOR_ON) != 0;
    /* At the limit another thread may be ending it. */
    if (!was_on && stream_state() != STATE_AT_LIMIT) {
        if (ending == ENDING_SIGNAL)
            side_note_late_signal(number);
        return;
    }
    if (!lock_for_end(ending != ENDING_SIGNAL))
        return;
    if (was_on)
        ending_at((uint32_t)cursor, plan.settings->limit, ending_of(cursor, finish), ending, number);
    else
        side_note_ending(ending, number, locked.checked_events);
    stream_unlock();
}

bool stream_has_one_end(void)
{
    return stream_state() == STATE_RECORDING && !is_file() && !has_other_threads();
}

/* From now on the process may end after any record. */
static void go_on_closing(enum state from)
{
    atomic_store(&shared.is_closing, true);
    /* Each record is unusual: the close is put after it. */
    atomic_store_explicit(&STREAM->events_end, 0, memory_order_relaxed);
    if (is_file())
        atomic_store(&STREAM->ready, locked.checked + (atomic_load(&shared.has_close) ? CLOSE_LENGTH : 0));
    state_record(from);
}

void ending_go_on_closing(void)
{
    go_on_closing(STATE_SUSPENDED);
}

/* Ends the stream with a close, and lets it go on after that if it can. */
static void close_at(uint64_t cursor, bool is_last)
{
    bool is_over = is_last && !has_other_threads();
    enum finish finish = ending_of(cursor, FINISH_CLOSED);
    locked.goes_on = finish != FINISH_AT_LIMIT && (is_file() || (is_hub() && !is_over));
    bool has_ended = ending_at((uint32_t)cursor, plan.settings->limit, finish, ENDING_EXIT, 0);
    if (has_ended && locked.goes_on)
        go_on_closing(STATE_SWITCHING);
    else
        state_go(has_ended ? STATE_CLOSED : STATE_OFF);
    locked.goes_on = false;
}

void ending_close_again(void)
{
    close_at(CURSOR_ON | locked.checked_events << 32 | locked.checked, false);
}

void stream_close(bool is_last, uint64_t generation)
{
    stream_lock();
    locked.generation = generation;
    if (stream_state() == STATE_AT_LIMIT)
        side_note_ending(ENDING_EXIT, 0, locked.checked_events);
    bool has_more_to_come = !is_last && !is_file() && !is_hub();
    uint64_t cursor = is_on() && !has_more_to_come ? state_leave(STATE_SWITCHING) : 0;
    if (cursor & CURSOR_ON)
        close_at(cursor, is_last);
    locked.generation = 0;
    stream_unlock();
}

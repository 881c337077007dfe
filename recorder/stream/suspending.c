/* One flag beside the state: whether it was this that has left RECORDING. */
#include "stream/suspending.h"

#include "stream/ending.h"
#include "stream/locked.h"
#include "stream/keeping.h"
#include "stream/side.h"
#include "stream/state.h"

/* The lock of the stream is held. If the stream was lost meanwhile, its state is another one. */
static bool is_suspended;

bool stream_suspend(uint64_t generation)
{
    stream_lock();
    locked.generation = generation;
    uint64_t cursor = state_leave(STATE_SUSPENDED);
    is_suspended = (cursor & CURSOR_ON) != 0;
    if (is_suspended) {
        enum finish finish = ending_of(cursor, is_file() ? FINISH_CLOSED : FINISH_OPEN);
        ending_at((uint32_t)cursor, plan.settings->limit, finish, ENDING_EXEC, 0);
    }
    locked.generation = 0;
    stream_unlock();
    return is_suspended;
}

/* Takes back what stands at the end of the stream, and turns it on again. */
static void go_on(void)
{
    if (atomic_load(&shared.is_closing)) {
        side_note_ending(ENDING_EXIT, 0, locked.checked_events);
        ending_go_on_closing();
        return;
    }
    const char *why = is_file() ? output_extend(&locked.trace, length_to(atomic_load(&STREAM->ready))) : NULL;
    if (why != NULL) {
        keeping_give_up(why);
        return;
    }
    tail_take_close_away();
    state_record(STATE_SUSPENDED);
}

bool stream_resume(void)
{
    stream_lock();
    bool was_suspended = is_suspended;
    side_note_ending(ENDING_NONE, 0, was_suspended ? 0 : locked.checked_events);
    if (was_suspended && stream_state() == STATE_SUSPENDED)
        go_on();
    is_suspended = false;
    stream_unlock();
    return was_suspended;
}

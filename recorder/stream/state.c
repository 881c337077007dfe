/* The states of a stream, and what holds in each.

     UNSTARTED --> STARTING --> RECORDING <--> SUSPENDED
                       |         ^     |
                       |         |     +-----------> AT_LIMIT
                       |         v     |                ^
                       |     SWITCHING-|----------------+
                       |         |     |
                       |         +-----|-----------> CLOSED
                       v         v     v
                      OFF <------+-----+      (and from any state, if the file was cut)

   UNSTARTED  Nothing was read or opened. A bad access starts the recorder, if the C library is ready.
   STARTING   One thread reads the settings and opens the output. It has the allocator's lock.
   RECORDING  The only state with the cursor on: any thread takes places. Up to `checked` all records are whole. After
              that each is whole, is being written, or is a hole. While is_closing, the close stands after the last one
              of a file, and each record that is added has it again.
   SWITCHING  One thread, which has the lock, ends a segment and begins the next, or writes what stands at an exit.
              Others wait for the lock, and look again.
   SUSPENDED  An exec is tried. The stream is complete, with its end. Who tries it has the allocator's lock, so nobody
              switches. Events of other threads are missed (has_missed), and then there is no close later.
   AT_LIMIT   The stream is complete, with one event more than the limit. Further events are counted (left_out).
   OFF        Nothing is recorded: not wanted, ended, or lost. The stream ends after its last whole record.
   CLOSED     A socket's close was sent. Later bad accesses are reported by a line (is_late).

   Who goes from state to state: opening.c (to RECORDING), switching.c with windows.c and segments.c (SWITCHING),
   suspending.c (SUSPENDED), ending.c (AT_LIMIT, CLOSED) and keeping.c (OFF, and what stands at the end).
   While RECORDING: record.c, regions.c, watched.c and group.c record; places.c gives them places, and
   growing.c room; holes.c fills empty ones, and sending.c and output.c write them. Beside the stream stand faults.c,
   fault_list.c, findings.c, near.c, lists.c, thread_list.c, maps.c and modules.c, in side.c's memory.

   What follows from a change is here too: a stream that has ended while the process goes on holds no freed blocks for
   the checker any more.

   Who leaves RECORDING changes the state first, and takes the cursor then: so one thread alone ends a segment, ends the
   stream or suspends it, and has the number of its events. Between the two others may still take places, past which the
   stream does not go, or see that the limit is passed: they look again. The other way the cursor is on before the state
   says so. So the cursor is off while the state is RECORDING only in a child that no fork has announced, where the page
   of the cursor is zeros. Anybody else who reads that has read the two at different moments, and looks again. In such a
   child no other thread is left: a switch or an exec of the parent's never ends there, and the lock of a switch stays
   taken. So nobody waits for them.

   A signal handler that finds the file cut (SIGBUS) waits for nobody and sets OFF over any state. Whoever was switching
   then finds that its own change fails. */
#define _GNU_SOURCE
#include "stream/state.h"

#include "base/disturbance.h"
#include "base/lock.h"
#include "base/system.h"
#include "stream/locked.h"

union stream_page stream_page __attribute__((aligned(MOST_PAGE)));

struct plan plan;
struct shared shared;
struct locked locked = {.trace = {.descriptor = -1}, .side = {.descriptor = -1}};

_Atomic bool halt_is_on, lean_is_on, telling_is_on, showing_is_on;

static _Atomic enum state state;

enum state stream_state(void)
{
    return atomic_load(&state);
}

bool state_start(void)
{
    enum state from = STATE_UNSTARTED;
    return atomic_compare_exchange_strong(&state, &from, STATE_STARTING);
}

/* The stream has ended and the process goes on: the checker holds no freed blocks any more, so neither does this. */
static void hold_none(void)
{
    above.hold(0);
}

bool state_record(enum state from)
{
    atomic_store(&STREAM->cursor, CURSOR_ON | locked.checked_events << 32 | locked.checked);
    if (atomic_compare_exchange_strong(&state, &from, STATE_RECORDING))
        return true;
    atomic_store(&STREAM->cursor, 0);
    return false;
}

uint64_t state_leave(enum state to)
{
    enum state from = STATE_RECORDING;
    if (!atomic_compare_exchange_strong(&state, &from, to))
        return 0;
    if (to == STATE_AT_LIMIT)
        hold_none();
    return atomic_exchange(&STREAM->cursor, 0);
}

void state_go(enum state to)
{
    enum state from = atomic_load(&state);
    while (from != STATE_OFF && !atomic_compare_exchange_weak(&state, &from, to))
        ;
    if (to == STATE_AT_LIMIT || to == STATE_OFF)
        hold_none();
}

uint64_t state_lose(void)
{
    atomic_store(&state, STATE_OFF);
    hold_none();
    return atomic_exchange(&STREAM->cursor, 0);
}

void state_forget(void)
{
    atomic_store(&STREAM->cursor, 0);
    atomic_store(&state, STATE_OFF);
}

void state_set_events_end(uint64_t stop)
{
    uint64_t limit = plan.settings->limit, end = stop != 0 && stop <= limit ? stop - 1 : limit;
    atomic_store_explicit(&STREAM->events_end, end << 32, memory_order_relaxed);
}

/* The lock. */

static struct lock lock;
static struct disturbance before; /* of who has it */

/* How often to look again at a record that another thread has not written yet, or at a lock; and then, if there is
   time, how often again after a sleep of this many nanoseconds. */
#ifndef IS_PATIENT /* in tests in which no thread is to be given up */
#define IS_PATIENT 0
#endif
enum { LOOKS = 1000, NAPS = IS_PATIENT ? 100000 : 1000, NAP = 100000 };

void stream_lock(void)
{
    struct disturbance now;
    undisturbed_begin(&now);
    lock_take(&lock);
    before = now;
}

void stream_unlock(void)
{
    struct disturbance then = before;
    lock_give(&lock);
    undisturbed_end(&then);
}

bool stream_lock_at_once(void)
{
    struct disturbance now;
    undisturbed_begin(&now);
    if (lock_try(&lock)) {
        before = now;
        return true;
    }
    undisturbed_end(&now);
    return false;
}

void stream_rest(int looks)
{
    struct timespec nap = {0, NAP};
    if (looks < LOOKS)
        system_sched_yield();
    else
        system_nanosleep(&nap);
}

bool stream_waits_again(int looks, enum patience patience)
{
    bool is_enough = patience == NONE || looks >= LOOKS + (patience == LONG || IS_PATIENT ? NAPS : 0);
    if (!is_enough)
        stream_rest(looks);
    return !is_enough;
}

bool stream_lock_within(enum patience patience)
{
    for (int looks = 0; stream_waits_again(looks, patience); looks++)
        if (stream_lock_at_once())
            return true;
    return false;
}

/* Two numbers in `shared`: when something was sent last, and how often at once since then. */
#define _GNU_SOURCE
#include "stream/sending.h"

#include <sys/mman.h>
#include <sys/socket.h>
#include <sys/stat.h>
#include <time.h>

#include "base/descriptors.h"
#include "base/self.h"
#include "base/system.h"
#include "libc/library.h"
#include "stream/held.h"
#include "stream/holes.h"
#include "stream/locked.h"
#include "stream/keeping.h"
#include "stream/side.h"
#include "stream/state.h"

/* After this many nanoseconds a socket gets everything at hand; and at once, as after a fault, so often in this
   time. */
enum { SEND_AFTER = 4000000, MAX_AT_ONCE = 64 };

/* In nanoseconds, as often as the system looks at it. */
static uint64_t coarse_clock(void)
{
    struct timespec now;
    library.clock_gettime(CLOCK_MONOTONIC_COARSE, &now);
    return (uint64_t)now.tv_sec * 1000000000 + (uint64_t)now.tv_nsec;
}

void sending_begin(void)
{
    atomic_store(&shared.sent_at, coarse_clock());
    atomic_store(&shared.sent_at_once, 0);
}

/* The next record is unusual, and begins a segment, with a connection of its own. The unsent part stays here. */
static const char *stay_for_next(const char *why)
{
    if (why != output_closed)
        return why;
    side_note_closed_off();
    if (!is_hub() || !has_segments())
        return why;
    atomic_store(&shared.is_closed_off, true);
    atomic_store_explicit(&STREAM->events_end, 0, memory_order_relaxed);
    return NULL;
}

const char *sending_push(bool all)
{
    uint64_t reserved = (uint32_t)atomic_load(&STREAM->cursor), ready = atomic_load(&STREAM->ready);
    holes_check(reserved < ready ? reserved : ready, EVENT_LIMIT, NONE);
    if (held_is_quiet())
        return NULL;
    const char *why = locked.is_held ? held_send() : NULL;
    if (why != NULL)
        return stay_for_next(why);
    return stay_for_next(output_send(&locked.trace, length_to(locked.checked), all, plan.settings->patience_ms));
}

bool sending_is_cut(bool is_of_heap)
{
    if (!is_hub() || !has_segments() || (above.is_in_heap() && !is_of_heap))
        return false;
    _Atomic uint64_t *calls = side_begin_calls(false);
    bool is_free = recorder_is_own_process() && stream_lock_at_once();
    bool is_cut = is_free && is_on() && output_is_closed(&locked.trace);
    if (is_free)
        stream_unlock();
    side_end_calls(calls);
    return is_cut;
}

/* Gives the hub everything at hand. Answers whether that has this many events; a failure ends the stream. */
static bool give(uint64_t events)
{
    const char *why = is_on() ? sending_push(false) : NULL;
    if (why != NULL)
        keeping_give_up(why);
    return is_on() && !locked.is_held && locked.checked_events >= events
           && locked.trace.sent == length_to(locked.checked);
}

bool stream_send_events(uint64_t events, int *patience_ms)
{
    while (is_on() && recorder_is_own_process()) {
        bool is_free = stream_lock_at_once(), is_sent = is_free && give(events);
        if (is_free)
            stream_unlock();
        if (is_sent || --*patience_ms <= 0)
            return is_sent;
        system_poll(NULL, 0, 1); /* another thread has not written its record yet, or the hub has much to read */
    }
    return false;
}

/* They do nothing, and take no time: a process that is ended from elsewhere is hardly ever in one of them. */
void sending_try(void)
{
    struct stat seen;
    _Atomic uint64_t *calls = side_begin_calls(false);
    system_getpid();
    system_fstat(-1, &seen);
    system_send(-1, NULL, 0, MSG_NOSIGNAL | MSG_DONTWAIT);
    system_madvise(NULL, 0, MADV_DONTNEED);
    side_end_calls(calls);
}

void stream_make_way(int descriptor)
{
    if (descriptor_shown(descriptor) == descriptor || !stream_lock_at_once())
        return;
    output_make_way(&locked.trace, descriptor);
    output_make_way(&locked.side, descriptor);
    stream_unlock();
}

void stream_hang_up(void)
{
    if (is_hub() && stream_state() != STATE_RECORDING && !output_is_closed(&locked.trace))
        system_call3(SYS_shutdown, locked.trace.descriptor, SHUT_WR, 0);
}

/* Sends the whole records, if the lock is free; at an exit it is waited for. */
static void send_now(bool is_closing)
{
    /* A child of vfork may have closed the descriptor for itself. */
    if (!recorder_is_own_process() || !(is_closing ? stream_lock_within(LONG) : stream_lock_at_once()))
        return;
    const char *why = is_on() ? sending_push(is_closing) : NULL;
    if (why != NULL)
        keeping_give_up(why);
    stream_unlock();
}

void stream_look_at_clock(bool at_once)
{
    if (plan.way != WAY_SOCKET && plan.way != WAY_HUB)
        return;
    uint64_t now = coarse_clock();
    bool is_closing = atomic_load_explicit(&shared.is_closing, memory_order_relaxed);
    if (is_closing || now - atomic_load_explicit(&shared.sent_at, memory_order_relaxed) >= SEND_AFTER) {
        atomic_store_explicit(&shared.sent_at, now, memory_order_relaxed);
        atomic_store_explicit(&shared.sent_at_once, 0, memory_order_relaxed);
    } else if (!at_once || atomic_fetch_add(&shared.sent_at_once, 1) >= MAX_AT_ONCE) {
        return;
    }
    sending_try();
    send_now(is_closing);
}

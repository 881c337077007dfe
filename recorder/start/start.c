/* The recorder's start, and the ends of the process that it asks the C library for. */
#define _GNU_SOURCE
#include "start/start.h"

#include <stddef.h>

#include "base/disturbance.h"
#include "base/self.h"
#include "base/system.h"
#include "libc/library.h"
#include "heap/arena.h"
#include "heap/finding.h"
#include "heap/differing.h"
#include "heap/heap.h"
#include "interface/interface.h"
#include "interface/reports.h"
#include "leaks/leaks.h"
#include "process/preload_choice.h"
#include "environment/other_threads.h"
#include "environment/startup.h"
#include "process/halt.h"
#include "process/own_run.h"
#include "process/process.h"
#include "process/root.h"
#include "process/signals.h"
#include "process/threads.h"
#include "process/unchecked.h"
#include "process/world.h"
#include "shadow/mapping.h"
#include "stacks/own_stack.h"
#include "stacks/thread_notes.h"
#include "start/undefined.h"
#include "stream/ending.h"
#include "stream/side.h"
#include "stream/state.h"

/* The end. The first registered handler is called last: before any constructor of a library runs, and before the C
   library registers the one that calls all destructors. A static program registers that before, so there the last of
   its own destructors is later. What comes first of the two is no end for certain. */

static struct {
    bool is_registered, handlers_are_over, destructors_are_over;
    bool has_status;
    int status;
} ends;

/* What comes after a call. At the end that is known for certain there is nothing but what the C library does with
   streams: where other destructors follow, other threads are not stopped for good. */
enum coming { OTHER_HANDLERS, OTHER_DESTRUCTORS, NOTHING };

/* Whether other threads are to be stopped for good. A stopped thread may have a lock that the C library needs for its
   streams, which it flushes after all handlers: that is done now, while all run, and may call the program
   (fopencookie). After that only the system is called. */
static bool ends_with_others(enum coming coming)
{
    if (coming != NOTHING || !ends.has_status || heap_is_entered() || (!leaks_are_wanted() && !root_is_to_ask()))
        return false;
    _Atomic uint64_t *calls = side_begin_calls(false);
    bool has_others = has_other_threads();
    side_end_calls(calls);
    if (has_others)
        library.fcloseall();
    return has_others;
}

/* One thread looks for leaks before streams are flushed, as LeakSanitizer does. */
static void end_at_exit(enum coming coming)
{
    if (recorder_is_absent())
        return;
    bool is_own = recorder_is_own_process(), is_last = coming != OTHER_HANDLERS;
    if (is_own)
        halt_is_waited_for();
    if (is_own)
        heap_ends_here();
    bool has_others = is_own && ends_with_others(coming);
    if (is_last)
        leaks_look_at_end(has_others);
    if (is_last && is_own && stream_has_one_end())
        library._IO_flush_all();
    recorder_exit(is_last);
    int of_run = is_last && is_own ? root_end_at_exit((ends.status & 0xff) << 8, has_others) : STATUS_STAYS;
    if (has_others && world_is_stopped())
        system_exit(of_run != STATUS_STAYS ? of_run : ends.status);
    if (of_run != STATUS_STAYS)
        library.exit(of_run); /* which goes on with the handlers that remain */
}

static void note_status(int status, void *unused)
{
    (void)unused;
    ends.has_status = true;
    ends.status = status;
}

static void after_handlers(void *unused)
{
    (void)unused;
    ends.handlers_are_over = true;
    end_at_exit(ends.destructors_are_over ? NOTHING : OTHER_HANDLERS);
}

static void after_destructors(void)
{
#ifdef IS_STATIC
    enum coming coming = NOTHING;
#else
    enum coming coming = OTHER_DESTRUCTORS;
#endif
    ends.destructors_are_over = true;
    if (!preload_choice_is_own())
        return;
    if (!ends.is_registered || ends.handlers_are_over)
        end_at_exit(coming);
}

static void after_quick_handlers(void *unused)
{
    (void)unused;
    if (recorder_is_absent())
        return;
    halt_is_waited_for();
    recorder_exit(true);
    int status = root_quick_status(); /* the C library tells none here */
    int of_run = root_end_at_exit(status > 0 ? status << 8 : 0, status >= 0);
    if (of_run != STATUS_STAYS || world_is_stopped())
        system_exit(of_run != STATUS_STAYS ? of_run : status);
}

/* The object for which they are registered is none that is ever closed. */
static void register_ends(void)
{
    ends.is_registered = library.__cxa_atexit(after_handlers, NULL, &ends) == 0;
    library.__cxa_at_quick_exit(after_quick_handlers, &ends);
    library.on_exit(note_status, NULL);
}

__attribute__((section(".fini_array.00000"), used)) static void (*last_destructor)(void) = after_destructors;

/* They say who gets word. They are what the system has put on the stack. */
static void find_argv(void)
{
#ifdef IS_STATIC
    startup_note(startup.argv, *library.environment); /* the library has begun, and its stack ends elsewhere */
#else
    if (library.__libc_stack_end == NULL)
        return;
    char **argv = (char **)*library.__libc_stack_end + 1;
    size_t count = ((const size_t *)*library.__libc_stack_end)[0];
    if (argv[count] == NULL)
        startup_note(argv, argv + count + 1);
#endif
}

void asancol_start(void)
{
    static bool has_begun;
    struct disturbance before;
    if (has_begun)
        return;
    has_begun = true;
    library_begin();
    other_threads_know(library.__libc_single_threaded);
    find_argv();
    own_run_begin();
    shadow_map();
    register_ends();
    interface_start();
    stack_start();
    threads_find_jumps();
    thread_is_first();
    unchecked_start();
    undisturbed_begin(&before);
    recorder_start();
    recorder_watch_forks();
    if (stream_state() != STATE_OFF)
        signals_handle();
    undisturbed_end(&before);
    if (!recorder_is_absent())
        undefined_watch();
}

/* The C library may not be ready; and in the allocator the start would record a block that its malloc then records
   again. */
static bool start_if_ready(void)
{
    library_begin();
    if ((startup.variables == NULL && !library_is_alone()) || heap_is_entered())
        return false;
    asancol_start();
    return true;
}

const struct above above = {
    .lock_heap = heap_lock,
    .unlock_heap = heap_unlock,
    .is_in_heap = heap_is_entered,
    .snapshot = heap_snapshot,
    .hold = heap_set_bound,
    .poisons_in_heap = heap_is_poisoned,
    .find_state = heap_find_state,
    .find_freed = heap_find_freed,
    .find_difference = heap_find_difference,
    .find_nearest = arena_find_nearest,
    .shade_of = heap_shade_of,
    .start = start_if_ready,
    .say_child = recorder_say_child,
    .list_unchecked = unchecked_list,
    .unchecked_state = unchecked_state,
    .has_frame = stack_has_frame,
    .is_own_frame = stack_is_own_frame,
    .halt_at = halt_at,
    .tell = reports_tell,
    .tell_waiting = reports_tell_waiting,
};

/* `process` has the settings, and the state before a fork. Whatever starts, halts, forks or ends a recording comes
   here, and continues to the stream, the allocator and the hub. `begin`, `begin_full` and `be_idle` are called with the
   allocator's lock, and without the stream's. */
#define _GNU_SOURCE
#include "process/process.h"

#include <errno.h>
#include <limits.h>
#include <unistd.h>

#include "base/disturbance.h"
#include "base/filters.h"
#include "base/platform.h"
#include "base/say.h"
#include "base/self.h"
#include "base/system.h"
#include "libc/library.h"
#include "heap/heap.h"
#include "process/preload_choice.h"
#include "environment/dormant.h"
#include "environment/orphan.h"
#include "process/init_order.h"
#include "process/own_run.h"
#include "process/run_connection.h"
#include "process/showing.h"
#include "process/threads.h"
#include "environment/hub_word.h"
#include "shadow/mapping.h"
#include "stacks/fake_stack.h"
#include "stacks/thread_notes.h"
#include "stacks/walks.h"
#include "stream/ending.h"
#include "stream/held.h"
#include "stream/keeping.h"
#include "stream/opening.h"
#include "stream/regions.h"
#include "stream/sending.h"
#include "stream/side.h"
#include "stream/state.h"
#include "stream/suspending.h"
#include "stream/switching.h"

/* Who we are, and what the environment says. Written at the start and in a child after a fork. */
static struct {
    bool begins_late; /* by its settings */
    bool forked_inside; /* by a handler that had interrupted the allocator */
    bool forked_alone;  /* there was one thread */
    int error_before_fork;
    struct settings settings;
    const char *pattern; /* of the trace's name, or null */
} process;
static AS_TABLE char trace_name[PATH_MAX]; /* that the pattern gives this process */

/* A preloaded recorder waits for the first module of asancol-cc, or the first bad access or free (halt.c). Whoever ends
   that sets it to false. Until then blocks have redzones and call sites, and nothing else of the recorder is there. */
static _Atomic bool is_waiting;

static bool waits(void)
{
    return atomic_load(&is_waiting);
}

bool recorder_waits_for_checks(void)
{
    return waits() && process.settings.halt != HALT_AND_RECORD;
}

const struct settings *recorder_settings(void)
{
    return &process.settings;
}

bool recorder_halts(void)
{
    return process.settings.halt != HALT_NEVER;
}

void recorder_say_who(void)
{
    hub_word_note(process.settings.passed_over, "ASANCOL_TRACE is set for it, so its trace is there");
    if (recorder_hub() == NULL)
        orphan_say(NULL);
}

/* The recorder stands after the program's own objects, so this constructor comes after theirs, in the first thread. */
__attribute__((constructor)) static void note_main(void)
{
    self_note_main();
    side_note_main();
}

/* At the end or an exec of a child of vfork, which is not its parent's end. The frames that it leaves lie on its
   parent's stack. */
static void leave_vfork(void)
{
    stack_left_by_child((uintptr_t)__builtin_frame_address(0));
}

/* What the recorder's lines name: where the stream goes. */
static const char *output_name(void)
{
    const struct settings *settings = &process.settings;
    return settings->hub != NULL ? settings->hub : settings->trace != NULL ? settings->trace : settings->socket;
}

const char *recorder_hub(void)
{
    return process.settings.hub != NULL ? process.settings.hub : process.settings.passed_over;
}

/* Opens the stream, to a trace whose name is made of the pattern. False: there is none, and a line said why. */
static bool open_stream(void)
{
    if (process.pattern != NULL) {
        process.settings.trace = trace_name;
        if (!name_of_pattern(process.pattern, trace_name, sizeof trace_name)) {
            recorder_say("nothing is recorded: ", process.pattern, "the name is too long");
            hub_word_note(process.settings.hub, "the name of its trace is too long");
            return false;
        }
    }
    return stream_begin(&process.settings);
}

/* A child has the newest of the blocks that its parent holds, and no more of them. */
enum { HELD_BY_CHILD = 4096 };

/* Something records each access, and not the bad ones alone: so mallocs and frees are recorded too. */
static _Atomic bool is_to_be_full;

/* Whether this segment has any. */
static bool has_events(void)
{
    return atomic_load(&STREAM->cursor) >= (CURSOR_ON | CURSOR_EVENT);
}

static void switch_checks(const struct settings *said)
{
    shadow_switch(&(struct switches){
        .has_whole_strings = said->whole_strings,
        .has_no_containers = !said->containers,
        .has_no_poison = !said->user_poison,
        .has_no_counts = !said->counts,
        .has_no_formats = !said->formats,
        .has_short_memcmp = !said->whole_memcmp,
    });
}

/* Begins a recording: the stream, with a snapshot of the blocks and this many of those that are held. The heap is
   locked. False: there is none. */
static bool begin(uint64_t most_held)
{
    process.settings.is_full |= atomic_load(&is_to_be_full);
    if (process.settings.with_side)
        heap_keep_call_sites();
    heap_check_families(process.settings.mismatches, process.settings.other_sizes);
    heap_check_requests(!process.settings.may_return_null);
    heap_keep_empty(process.settings.keeps_empty);
    switch_checks(&process.settings);
    if (!open_stream())
        return false;
    show_begin(&process.settings);
    heap_set_bound(process.settings.quarantine);
    heap_release_down_to_bound();
    heap_snapshot(most_held, stream_snapshot_room());
    /* What comes next may be an exec, after all descriptors were closed. A hub has the header already. */
    if (process.settings.hub == NULL || has_events())
        stream_look_at_clock(true);
    return true;
}

/* Nothing is recorded from now on. If the process is not to end at a fault either, the shadow need not show one. */
static void be_idle(void)
{
    if (!recorder_halts() && !waits()) {
        heap_set_bound(0);
        heap_paint(false);
        library_leave_unchecked();
        fake_stack_stop();
        atomic_store(&stream_page.stream.is_idle, true);
    } else {
        heap_set_bound(process.settings.quarantine);
    }
}

void recorder_start(void)
{
    if (!state_start())
        return;
    self_note_process();
    uint64_t generation = library_generation();
    if (settings_hub() == NULL)
        orphan_ask();
    settings_read(&process.settings);
    init_order_begin(process.settings.init_order);
    process.pattern = process.settings.trace;
    bool wanted = output_name() != NULL;
    own_run_say();
    if (!IS_PRELOADED)
        recorder_say_who();
    enum halt halt = process.settings.halt;
    heap_lock();
    process.begins_late = wanted && (halt == HALT_AND_RECORD || IS_PRELOADED);
    atomic_store(&is_waiting, wanted && IS_PRELOADED);
    atomic_store(&halt_is_on, halt != HALT_NEVER || waits());
    if (waits() && process.settings.with_side)
        heap_keep_call_sites();
    if (!wanted || process.begins_late || !begin(UINT64_MAX)) {
        state_forget();
        be_idle();
    }
    side_know_generation(generation);
    heap_unlock();
    if (!atomic_load(&stream_page.stream.is_idle))
        fake_stack_start(process.settings.use_after_return ? FRAMES_GIVEN
                         : process.settings.says_returns   ? FRAMES_REFUSED
                                                           : FRAMES_NEVER);
    if (process.settings.root == (uint64_t)self_process() && recorder_hub() != NULL)
        run_connection_begin(recorder_hub());
    hub_word_expect_no_more(recorder_hub());
}

bool recorder_begins_late(void)
{
    return process.begins_late;
}

bool recorder_begin_late(void)
{
    if (heap_is_entered()) {
        recorder_say("nothing is recorded: ", "a signal handler", "it interrupted the allocator");
        hub_word_note(process.settings.hub, "its first fault interrupted the allocator");
        return false;
    }
    struct disturbance before;
    undisturbed_begin(&before);
    heap_lock();
    bool has_begun = begin(UINT64_MAX);
    process.begins_late &= !has_begun;
    heap_unlock();
    undisturbed_end(&before);
    return has_begun;
}

bool recorder_begin_for_words(void)
{
    if (output_name() != NULL || heap_is_entered() || !own_run_begin_at_halt())
        return false;
    settings_read_outputs(&process.settings);
    if (recorder_hub() == NULL)
        return false;
    return recorder_begin_late();
}

/* The flag of faults comes first: who finds the stream on does not find that, and records once. */
bool recorder_end_waiting(void)
{
    struct disturbance before;
    undisturbed_begin(&before);
    heap_lock();
    bool has_waited = waits(), has_begun = false;
    if (has_waited) {
        atomic_store(&halt_is_on, recorder_halts());
        has_begun = recorder_is_own_process() && begin(UINT64_MAX);
        process.begins_late = false;
        atomic_store(&is_waiting, false);
        if (!has_begun)
            be_idle();
    }
    heap_unlock();
    undisturbed_end(&before);
    if (has_waited && !recorder_is_own_process())
        recorder_say_child();
    return has_begun;
}

bool recorder_go_full(void)
{
    struct disturbance before;
    atomic_store(&is_to_be_full, true);
    if (!is_lean() || stream_state() == STATE_OFF)
        return true;
    if (!is_on() || heap_is_entered())
        return false;
    undisturbed_begin(&before);
    heap_lock();
    bool is_full = !is_lean() || ((!is_hub() || recorder_is_own_process()) && switching_go_full());
    heap_unlock();
    undisturbed_end(&before);
    return is_full;
}

bool recorder_is_absent(void)
{
    return atomic_load_explicit(&stream_page.stream.is_idle, memory_order_relaxed) && recorder_hub() == NULL
           && !recorder_halts() && !waits();
}

bool recorder_checks_libraries(void)
{
    return process.settings.checks_libraries;
}

void recorder_say_child(void)
{
    static const char why[] = "it was not made by fork, but by a call of the system";
    state_forget();
    if (process.settings.hub == NULL)
        recorder_say("a child is not recorded: ", output_name(), why);
    hub_word_note(process.settings.hub, why);
}

void recorder_finish(enum finish finish)
{
    if (!recorder_is_own_process()) {
        leave_vfork();
        return;
    }
    heap_ends_here();
    stream_end(finish, ENDING_EXIT, 0);
    stream_say_left_out();
}

/* Of the modules, or 0. The loader's lock is taken by who has none of ours: a handler may have interrupted this thread
   in the allocator, and another one that has the loader's lock waits for the allocator's. */
static uint64_t generation_now(void)
{
    return heap_is_entered() ? 0 : library_generation();
}

void recorder_exit(bool is_last)
{
    if (!recorder_is_own_process()) {
        leave_vfork();
        return;
    }
    heap_ends_here();
    stream_close(is_last, generation_now());
    if (is_last)
        stream_say_left_out();
}

void recorder_finish_in_handler(int number)
{
    if (!recorder_is_own_process())
        return;
    stream_end(FINISH_OPEN, ENDING_SIGNAL, number);
    stream_say_left_out();
}

/* Before an exec. True: the heap stays locked for the exec, unless the stream has ended at its limit. */
static bool leave_for_exec(void)
{
    if (!recorder_is_own_process()) {
        leave_vfork();
        return false;
    }
    if (stream_state() == STATE_OFF)
        return false;
    uint64_t generation = generation_now();
    /* Nobody switches to another segment from here on. */
    heap_lock();
    enum state state = stream_state();
    if (state == STATE_RECORDING && stream_suspend(generation))
        return true;
    heap_unlock();
    if (state != STATE_AT_LIMIT)
        return false;
    stream_end(FINISH_CLOSED, ENDING_EXEC, 0);
    stream_say_left_out();
    return true;
}

bool recorder_before_exec(void)
{
    _Atomic uint64_t *calls = side_begin_calls(true);
    bool is_left = leave_for_exec();
    side_end_calls(calls);
    return is_left;
}

const struct filter *recorder_before_filter(bool is_strict, const void *program)
{
    if (recorder_is_own_process())
        held_end();
    return filters_copy(is_strict, program);
}

void recorder_exec_failed(void)
{
    if (stream_resume())
        heap_unlock();
}

/* Forks. The lock of the heap and that of the stream are held across. */

/* Whether a child forked now is to be recorded. */
static bool forks_recorded(void)
{
    enum state state = stream_state();
    return state == STATE_RECORDING || state == STATE_AT_LIMIT;
}

/* The handlers of a fork are not given its result: but if it fails it sets errno, and nothing comes between. */
void recorder_fork_begins(void)
{
    uint64_t generation = generation_now();
    bool is_inside = heap_is_entered();
    heap_lock();
    stream_lock(); /* of two threads that fork at once, each says it of its own child */
    process.forked_inside = is_inside;
    process.forked_alone = library_is_alone();
    if (forks_recorded() && !is_inside)
        side_look_at_generation(generation);
    process.error_before_fork = errno;
    dormant_note_fork();
    errno = 0;
}

void recorder_fork_ends(void)
{
    if (errno == 0) {
        if (forks_recorded())
            side_note_fork();
        errno = process.error_before_fork;
    } else {
        dormant_note_forked();
    }
    stream_unlock();
    heap_unlock();
}

/* Why a child is not recorded, or null. */
static const char *why_unrecorded(void)
{
    if (process.settings.socket != NULL)
        return "each connection is one process that was counted before";
    return process.forked_inside ? "it interrupted the allocator" : NULL;
}

/* A hub learns of the child by a stream that is lost. */
static void say_unrecorded(const char *why)
{
    if (process.settings.hub != NULL && open_stream())
        stream_stop(why);
    else
        recorder_say("a forked child is not recorded: ", output_name(), why);
}

/* One thread is there, with the locks that recorder_fork_begins took: the child begins a recording of its own, or
   none. */
void recorder_child_begins(void)
{
    bool recorded = forks_recorded();
    struct disturbance before;
    errno = process.error_before_fork;
    self_note_process();
    if (!process.forked_alone)
        library_go_without_lock();
    heap_is_alone();
    thread_is_alone(self_process());
    walks_are_alone();
    say_again();
    stream_forget();
    stream_unlock();
    undisturbed_begin(&before);
    if (recorded && why_unrecorded() != NULL) {
        say_unrecorded(why_unrecorded());
        recorded = false;
    }
    if (!recorded || !begin(HELD_BY_CHILD)) {
        be_idle();
    }
    run_connection_forget();
    dormant_note_forked();
    undisturbed_end(&before);
    heap_unlock();
}

void recorder_watch_forks(void)
{
    library.__register_atfork(recorder_fork_begins, recorder_fork_ends, recorder_child_begins, NULL);
}

/* What the explorer explores: threads that record into segments of a few events, and the rest of the recorder as far as
   the stream asks for it. Files are bytes in memory. At the end of a run each event that a thread has recorded stands
   in one segment, in the thread's order, with all that makes it bad before it; or it is said that something is missing.
   A fork is one of the system, and its child is looked at in the same way.

   usage: explore [--runs N] [--preemptions N] [--seed N] [--list] [NAME..] */
#define _GNU_SOURCE
#include <stdio.h>
#include <stdlib.h>
#include <string.h>
#include <sys/mman.h>
#include <sys/wait.h>
#include <unistd.h>

#include "explorer.h"
#include "heap/blocks.h"
#include "heap/heap.h"
#include "heap/quarantine.h"
#include "base/descriptors.h"
#include "base/disturbance.h"
#include "base/errors.h"
#include "base/lock.h"
#include "base/say.h"
#include "base/self.h"
#include "environment/asan_options.h"
#include "environment/stale_trace.h"
#include "environment/other_threads.h"
#include "environment/hub_word.h"
#include "stream/ending.h"
#include "stream/faults.h"
#include "stream/findings.h"
#include "stream/locked.h"
#include "stream/opening.h"
#include "stream/own_place.h"
#include "stream/record.h"
#include "stream/saying.h"
#include "stream/side.h"
#include "stream/suspending.h"
#include "environment/dormant.h"
#include "environment/hub_folder.h"
#include "stream/switching.h"
#include "stream/windows.h"

/* Where the threads store: each has a granule that is bad, one that is not, and a block. */
#define BAD_AT UINT64_C(0x100000)
#define GOOD_AT UINT64_C(0x100800)
#define BLOCK_AT ((uint64_t)ARENA_NUMBER << ARENA_SHIFT)
enum { APART = 64, POISON_AT = 8, POISON_SIZE = 16, MAX_STEPS = 17, BLOCK_SIZE = 32, MAX_HELD = 16, MAX_SEGMENTS = 40,
       FILE_ROOM = 1024, CHILD_EVENTS = 6 };
/* The events of a thread, or of the handlers in it, have an order. */
enum { LINES = 2 * MAX_THREADS };

/* What a thread does. */
enum step {
    NOTHING,
    BAD,
    GOOD,
    FREE,
    POISON,
    STORE,
    UNPOISON,
    MALLOC,
    FULL,
    EXEC,
    FORK,
    RAW_FORK,
    CLOSE,
    END,
    KILLED,
    RETURN
};

struct scenario {
    const char *name;
    unsigned limit;
    bool times_out;
    unsigned handlers; /* of signals; each makes a bad access, */
    bool jumps;        /* and leaves by a jump */
    unsigned preemptions, runs; /* as much as a usual test has time for */
    unsigned held;              /* blocks in the quarantine */
    enum step steps[MAX_THREADS][MAX_STEPS];
};

static const struct scenario scenarios[] = {
    {"bad accesses", 4, false, 0, false, 2, 20000, 0, {{BAD, BAD, BAD}, {BAD, BAD, BAD}}},
    {"bad accesses of three", 4, false, 0, false, 2, 20000, 0, {{BAD, BAD}, {BAD, BAD}, {BAD, BAD}}},
    {"good and bad accesses", 3, false, 0, false, 2, 20000, 0, {{GOOD, BAD, GOOD, BAD}, {GOOD, GOOD, BAD}}},
    {"poison in a block", 8, false, 0, false, 2, 20000, 0,
     {{POISON, STORE, UNPOISON, POISON, STORE}, {POISON, STORE, UNPOISON}}},
    {"bad frees", 3, false, 0, false, 2, 20000, 0, {{FREE, FREE, FREE}, {FREE, BAD}}},
    {"time", 4, true, 0, false, 2, 20000, 0, {{BAD, BAD, BAD}, {BAD, BAD}}},
    {"handlers", 4, false, 2, false, 2, 20000, 0, {{BAD, BAD, BAD}, {BAD}}},
    {"handlers that jump", 4, true, 2, true, 2, 20000, 0, {{BAD, BAD, BAD}, {BAD, BAD}}},
    {"an exec that fails", 4, false, 0, false, 2, 20000, 0, {{BAD, EXEC, BAD}, {BAD, BAD, BAD}}},
    {"an exit", 4, false, 0, false, 2, 20000, 0, {{BAD, CLOSE, BAD}, {BAD, BAD, BAD}}},
    {"an end", 4, false, 0, false, 3, 20000, 0, {{BAD, END}, {BAD, BAD, BAD}}},
    {"an end by a signal", 4, true, 0, false, 2, 20000, 0, {{BAD, KILLED}, {BAD, BAD, BAD}}},
    {"two events a segment", 2, false, 0, false, 2, 20000, 0, {{GOOD, GOOD, GOOD, GOOD, GOOD, GOOD}, {GOOD, GOOD}}},
    {"poison during a snapshot", 32, false, 0, false, 2, 20000, MAX_HELD,
     {{POISON, UNPOISON, POISON},
      {BAD, BAD, BAD, BAD, BAD, BAD, BAD, BAD, BAD, BAD, BAD, BAD, BAD, BAD, BAD, POISON}}},
    {"at the limit", 1000, false, 0, false, 2, 20000, 0, {{BAD, BAD}, {BAD, BAD}}},
    {"a fork", 32, false, 0, false, 2, 3000, 0, {{BAD, FORK, GOOD, BAD}, {POISON, STORE, BAD, UNPOISON, BAD}}},
    {"a fork at a switch", 4, false, 0, false, 2, 3000, 0, {{BAD, BAD, FORK, BAD}, {BAD, GOOD, BAD, BAD}}},
    {"a fork that no handler sees", 4, false, 0, false, 2, 3000, 0, {{BAD, RAW_FORK, BAD}, {BAD, BAD, BAD, BAD}}},
    {"a fork in the middle of an exec", 4, false, 0, false, 2, 3000, 0, {{RAW_FORK, BAD}, {EXEC, BAD, EXEC}}},
};

/* The same in lean recording: each bad access begins a history, and good ones are left out. */
static const struct scenario lean_scenarios[] = {
    {"lean accesses", 4, false, 0, false, 2, 20000, 0, {{BAD, BAD, BAD}, {BAD, BAD, BAD}}},
    {"lean accesses of three", 7, false, 0, false, 2, 20000, 0, {{BAD, BAD}, {BAD, BAD}, {BAD, BAD}}},
    {"lean accesses and frees", 6, false, 0, false, 2, 20000, 0, {{BAD, FREE, FREE, BAD}, {FREE, BAD}}},
    {"lean handlers that jump", 8, true, 2, true, 2, 20000, 0, {{BAD, BAD, BAD}, {BAD, BAD}}},
    {"lean, at an exit", 5, false, 0, false, 2, 20000, 0, {{BAD, CLOSE, BAD}, {BAD, BAD, BAD}}},
    {"lean, of a thread that sleeps", 8, true, 0, false, 2, 20000, 0, {{BAD, BAD, FREE}, {BAD, BAD}}},
    {"lean, and then full", 64, false, 0, false, 2, 20000, 0, {{POISON, STORE, STORE, STORE}, {FULL}}},
    {"lean, at a fork", 5, false, 0, false, 2, 3000, 0, {{BAD, BAD, FORK, BAD}, {BAD, BAD, BAD}}},
};

static const struct scenario *scenario;
static bool scenario_is_lean;

/* What there is at the end. The explorer puts all of this back before each run. */

enum { MAX_EVENTS = 32 };

static struct world {
    uint64_t recorded[LINES][MAX_EVENTS]; /* addresses of events that have to be there, in their order */
    bool is_optional[LINES][MAX_EVENTS];
    unsigned counts[LINES];
    bool has_ended; /* what comes later need not be there */
    bool has_jumped;
    /* Of a child: whether a handler of fork has seen it, and whose files come first. */
    enum child { NO_CHILD, CHILD, RAW_CHILD } child;
    unsigned first_file;
    unsigned said, said_child;
    struct file {
        unsigned window;
        size_t length;
        unsigned char bytes[FILE_ROOM];
    } files[MAX_SEGMENTS];
    unsigned file_count;
    unsigned noted[WINDOWS], faults;
    bool has_left_out;
    enum ending ending;
} world;

static unsigned char *memory_of_windows;

/* The rest of the recorder. */

static const char is_never_alone = 0;
static int no_clock(int clock, struct timespec *now)
{
    (void)clock;
    *now = (struct timespec){0, 0};
    return 0;
}
struct library library = {.clock_gettime = no_clock, .__libc_single_threaded = &is_never_alone};
bool recorder_has_checks(void) { return true; }
bool recorder_has_begun(void) { return true; }
bool recorder_is_own_process(void) { return world.child != RAW_CHILD; }
bool has_other_threads(void) { return true; }
bool is_of_earlier_run(const char *path) { return path == NULL; }
void signal_take_away(int number) { (void)number; }
void undisturbed_begin(struct disturbance *before)
{
    before->mask = 0;
    explore_disturb(1);
}
void undisturbed_end(const struct disturbance *before)
{
    (void)before;
    explore_disturb(-1);
}
bool own_place_is_at(const unsigned char *address, uint64_t cursor) { return address == NULL && cursor == 0; }
void hub_word_note(const char *hub, const char *why) { (void)hub, (void)why; }
void hub_folder_keep(const char *hub) { (void)hub; }
bool dormant_is_there(void) { return false; }
void dormant_note_lost(void) {}
void dormant_wake(void) {}
void dormant_await(void) {}
int self_process(void) { return 1; }
bool asan_options_check_call(const char *name) { return name != NULL; }
void recorder_say(const char *what, const char *of, const char *why)
{
    (void)what, (void)of, (void)why;
    world.said++;
}
const char *error_text(int error) { return error == 0 ? "" : "an error"; }

/* The side memory. */

unsigned side_open_files(int files[SIDE_FILES]) { return files == NULL; }
void side_begin(unsigned char *bytes, uint64_t segment, const struct settings *settings)
{
    (void)bytes, (void)segment, (void)settings;
}
void faults_begin(unsigned char *bytes, unsigned window)
{
    (void)bytes;
    world.noted[window] = 0;
}
void side_forget(void) {}
bool side_has_news(void) { return true; }
void side_note_snapshot(uint64_t events) { (void)events; }
void side_note_left_good(void) {}
void side_note_finding_lost(void) {}
void finding_note_call(const struct wrong_call *wrong) { (void)wrong; }
void side_note_skipped(uint64_t what) { (void)what; }
void side_note_stated(uint64_t events)
{
    (void)events;
}
void side_note_ending(enum ending ending, int number, uint64_t events)
{
    (void)number, (void)events;
    world.ending = ending;
}
void side_note_late_signal(int number) { (void)number; }
void side_note_left_out(void) { world.has_left_out = true; }
void side_note_needed(uint64_t event) { (void)event; }
void side_note_closed_off(void) {}
void side_end_modules(uint64_t generation)
{
    (void)generation;
}
_Atomic uint64_t *side_begin_calls(bool for_start) { return for_start ? NULL : NULL; }
void side_end_calls(_Atomic uint64_t *calls) { (void)calls; }
void fault_begin(unsigned window)
{
    EXPLORE_POINT("fault_begin");
    world.noted[window]++;
    explore_changed();
}
void fault_end(unsigned window)
{
    EXPLORE_POINT("fault_end");
    if (world.noted[window] != 0)
        world.noted[window]--;
    explore_changed();
}
uint32_t fault_of(unsigned window, struct access *access, unsigned width, uint64_t address)
{
    (void)window, (void)access, (void)width, (void)address;
    EXPLORE_POINT("fault_of");
    return ++world.faults;
}
void fault_note(unsigned window, uint32_t entry, uint64_t event) { (void)window, (void)entry, (void)event; }

/* The heap: a block of each thread, and poison in it. */

static struct lock heap_mutex;
static unsigned heap_owner = MAX_THREADS;
static unsigned current_thread(void);

bool heap_is_entered(void) { return heap_owner == current_thread(); }
void heap_lock(void)
{
    explore_lock_take(&heap_mutex);
    heap_owner = current_thread();
}
void heap_unlock(void)
{
    heap_owner = MAX_THREADS;
    explore_lock_give(&heap_mutex);
}
static void hold(uint64_t bytes) { (void)bytes; }
static void say_child(void)
{
    state_forget();
    world.said_child++;
}
static void do_nothing(void) {}
static void find_state(struct found *found)
{
    found->has_block = false;
}
static bool find_freed(uint64_t address, struct found *found)
{
    found->has_block = false;
    return address != 0;
}
static struct difference find_difference(uint64_t address)
{
    return (struct difference){.granule = address & 0};
}
static bool has_block(unsigned thread)
{
    for (unsigned i = 0; i < MAX_STEPS; i++)
        if (scenario->steps[thread][i] == POISON)
            return true;
    return false;
}
/* In the second unit: a block for each line, and then those that are held. */
static struct unit units[2];
static struct block blocks[LINES + MAX_HELD];
/* They are in the slots of unit 1, from the second on: the notes on all first slots lie elsewhere. */
struct arena arena = {.bytes = (unsigned char *)(BLOCK_AT - APART - UNIT),
                      .units = units,
                      .blocks = blocks - (UNITS + SLOTS + 1),
                      .top = 2};
struct heap heap;
static void heap_begin(void)
{
    units[1] = (struct unit){.kind = UNIT_SLAB, .slot_size = APART, .used = 1 + LINES + MAX_HELD};
    for (unsigned i = 0; i < LINES + MAX_HELD; i++) {
        bool is_held = i >= LINES && i < LINES + scenario->held, is_live = i < MAX_THREADS - 1 && has_block(i);
        blocks[i] = (struct block){.size = BLOCK_SIZE,
                                   .state = is_held ? BLOCK_HELD : is_live ? BLOCK_LIVE : BLOCK_FREE};
        blocks[i].next = is_held && i + 1 < LINES + scenario->held ? &blocks[i + 1] : NULL;
    }
    heap.oldest = scenario->held != 0 ? &blocks[LINES] : NULL;
    heap.held_count = scenario->held;
}
void heap_for_each(void (*visit)(const struct block *block, void *with), void *with)
{
    for (unsigned i = 0; i < LINES + MAX_HELD; i++)
        visit(&blocks[i], with);
}
/* In order from the first on. */
void heap_order(void) {}
void quarantine_release_oldest(void)
{
    heap.oldest->state = BLOCK_FREE;
    heap.oldest = heap.oldest->next;
    heap.held_count--;
}
const struct above above = {
    .lock_heap = heap_lock,
    .unlock_heap = heap_unlock,
    .is_in_heap = heap_is_entered,
    .snapshot = heap_snapshot,
    .hold = hold,
    .poisons_in_heap = do_nothing,
    .find_state = find_state,
    .find_freed = find_freed,
    .find_difference = find_difference,
    .say_child = say_child,
};
void shadow_poison(uint64_t address, uint64_t size, unsigned char code)
{
    for (uint64_t at = address; at < address + size; at += GRANULE) {
        EXPLORE_POINT("shadow: poison");
        *shadow_of(at) = code;
        explore_changed();
    }
}
void shadow_unpoison(uint64_t address, uint64_t size) { shadow_poison(address, size, 0); }
void shadow_note_poison(uint64_t address, uint64_t size) { (void)address, (void)size; }
uint64_t shadow_first_bad(uint64_t address, uint64_t size)
{
    uint64_t at = address;
    while (at < address + size && *shadow_of(at) == 0)
        at += GRANULE;
    return at;
}

/* Files: bytes in memory. */

unsigned char *windows_start(void) { return memory_of_windows; }
struct window windows_of_stream(unsigned number)
{
    return (struct window){memory_of_windows + ((size_t)number << WINDOW_SHIFT), STREAM_ROOM, false};
}
bool windows_mend(const void *address) { return address == NULL; }
struct window windows_of_side(unsigned number)
{
    return (struct window){NULL, number, false};
}
bool output_number(char *name, const char *path, unsigned number)
{
    (void)path, (void)number;
    name[0] = 0;
    return true;
}
bool output_name_segment(char *name, const char *path, uint64_t number)
{
    return output_number(name, path, (unsigned)number);
}
/* Its file lies there no more. The windows are shared by processes as files are, so a child puts its own memory
   there. */
static void clear_window(unsigned char *window)
{
    int flags = MAP_PRIVATE | MAP_ANONYMOUS | MAP_FIXED;
    if (world.child == NO_CHILD)
        memset(window, 0, FILE_ROOM);
    else if (mmap(window, PAGE, PROT_READ | PROT_WRITE, flags, -1, 0) != window)
        explore_fail("no memory for a window");
}
const char *output_open_file(struct output *output, const char *path, enum naming naming, struct window window,
                             uint64_t backed)
{
    (void)path;
    *output = (struct output){.is_mapped = true, .descriptor = -1, .backed = backed, .bytes = window.bytes};
    if (naming == NAME_TAKEN_OVER)
        return NULL; /* what stands beside it */
    EXPLORE_POINT("a file is mapped");
    output->number = world.file_count++;
    if (world.file_count > MAX_SEGMENTS)
        explore_fail("too many segments");
    world.files[output->number].window = (unsigned)((window.bytes - memory_of_windows) >> WINDOW_SHIFT);
    clear_window(window.bytes);
    explore_changed();
    return NULL;
}
const char *output_open_plain(struct output *output, struct window window)
{
    output->bytes = window.bytes;
    return NULL;
}
void output_keep_memory(struct output *memory) { (void)memory; }
const char *output_connect(struct output *output, const char *path, bool has_abstract, struct window window,
                           int patience_ms)
{
    (void)output, (void)path, (void)has_abstract, (void)window, (void)patience_ms;
    return "none listens";
}
const char *output_open_memory(struct output *output, struct window window, const struct output *hub, int patience_ms)
{
    (void)output, (void)window, (void)hub, (void)patience_ms;
    return "there is none";
}
const char *output_send_first(struct output *output, uint64_t length, struct output *memory, const int *files,
                              unsigned count, int patience_ms)
{
    (void)output, (void)length, (void)memory, (void)files, (void)count, (void)patience_ms;
    return NULL;
}
int descriptor_shown(int descriptor)
{
    return descriptor;
}

void output_make_way(struct output *output, int number)
{
    (void)output, (void)number;
}

const char output_closed[] = "";
bool output_is_closed(const struct output *output)
{
    (void)output;
    return false;
}
const char *output_send(struct output *output, uint64_t length, bool all, int patience_ms)
{
    (void)output, (void)length, (void)all, (void)patience_ms;
    return NULL;
}
const char *output_extend(struct output *output, uint64_t length)
{
    output->backed = length > output->backed ? length : output->backed;
    return NULL;
}
const char *output_back(struct output *output, uint64_t offset, uint64_t length)
{
    (void)output, (void)offset, (void)length;
    return NULL;
}
/* Whatever is stored there from now on is not in the file. */
void output_leave(struct output *output)
{
    if (output->bytes == NULL)
        return;
    EXPLORE_POINT("a file is left");
    memcpy(world.files[output->number].bytes, output->bytes, FILE_ROOM);
    clear_window(output->bytes);
    explore_changed();
    world.files[output->number].window = WINDOWS;
    output->bytes = NULL;
}
void output_trim(struct output *output, uint64_t length)
{
    if (output->room != 0 || output->backed == SIDE_INDEX)
        return;
    if (output->number < world.first_file)
        explore_fail("a child cuts its parent's file");
    world.files[output->number].length = length;
}
void output_close(struct output *output) { output_leave(output); }
void output_discard(struct output *output) { output_leave(output); }
bool output_lose(struct output *output, const void *address)
{
    (void)output, (void)address;
    return false;
}

int explore_madvise(const volatile void *address, size_t size, int advice)
{
    (void)address, (void)size, (void)advice;
    return 0;
}

/* The threads. */

static unsigned current_thread(void) { return explore_thread(); }

/* An event that has begun is expected, unless the recording has ended before it or ends meanwhile. */
static unsigned expect(unsigned thread, uint64_t address)
{
    unsigned number = world.counts[thread]++;
    world.recorded[thread][number] = address;
    world.is_optional[thread][number] = true;
    return number;
}

static void record(unsigned thread, enum step step, unsigned number)
{
    uint64_t bad = BAD_AT + thread * APART + number % GRANULE, good = GOOD_AT + thread * APART + number;
    uint64_t block = BLOCK_AT + thread * APART;
    uint64_t address = step == BAD ? bad : step == GOOD ? good : block + POISON_AT + number % POISON_SIZE;
    address = step == FREE ? block + 1 + number % 7 : address;
    bool was_ended = world.has_ended;
    unsigned expected = expect(thread, address);
    if (step == FREE)
        record_bad_free(address, 1, "free");
    else
        record_access(CODE_STORE, 1, address, 1);
    world.is_optional[thread][expected] = was_ended || world.has_ended;
}

/* As recorder_go_full in process.c. */
static void go_full(void)
{
    struct disturbance before;
    undisturbed_begin(&before);
    heap_lock();
    switching_go_full();
    heap_unlock();
    undisturbed_end(&before);
}

/* Forks. Files and their windows are shared with a child, and all else is its own. */

static struct settings settings;

static bool begin_stream(void)
{
    bool has_begun = stream_begin(&settings);
    atomic_store(&lean_is_on, scenario_is_lean);
    return has_begun;
}

/* As after_fork_in_child in process.c. */
static void begin_child(enum state before)
{
    bool is_recorded = before == STATE_RECORDING || before == STATE_AT_LIMIT;
    struct disturbance disturbance;
    stream_forget();
    stream_unlock();
    undisturbed_begin(&disturbance);
    if (is_recorded && !begin_stream())
        explore_fail("the beginning of a child");
    if (is_recorded)
        heap_snapshot(1, stream_snapshot_room());
    undisturbed_end(&disturbance);
    heap_unlock();
}

/* A child begins with a stream page of zeros. What it records is in its own files alone. */
static void be_child(unsigned thread, enum child child)
{
    explore_stay_alone();
    enum state before = stream_state();
    memset(&stream_page, 0, sizeof stream_page);
    world.child = child;
    world.first_file = world.file_count;
    world.has_ended = before != STATE_RECORDING && before != STATE_AT_LIMIT;
    world.said = 0;
    memset(world.counts, 0, sizeof world.counts);
    if (child == CHILD)
        begin_child(before);
    for (unsigned number = 0; number < CHILD_EVENTS; number++)
        record(thread, number % 2 == 0 || scenario_is_lean ? BAD : GOOD, number);
}

/* The bytes of the files that are open. */
static void copy_windows(unsigned char copies[WINDOWS][FILE_ROOM])
{
    for (unsigned window = 0; window < WINDOWS; window++)
        memcpy(copies[window], memory_of_windows + ((size_t)window << WINDOW_SHIFT), FILE_ROOM);
}

static void do_fork(unsigned thread, enum child kind)
{
    static unsigned char before[WINDOWS][FILE_ROOM], after[WINDOWS][FILE_ROOM];
    int ended = 1;
    copy_windows(before);
    fflush(stdout);
    pid_t child = fork();
    if (child == 0) {
        be_child(thread, kind);
        return;
    }
    if (child < 0 || waitpid(child, &ended, 0) != child || ended != 0)
        explore_fail("a child was wrong");
    copy_windows(after);
    if (memcmp(before, after, sizeof before) != 0)
        explore_fail("a child has written into its parent's file");
}

/* As before_fork and after_fork_in_parent. */
static void fork_in_locks(unsigned thread)
{
    heap_lock();
    stream_lock();
    do_fork(thread, CHILD);
    if (world.child != NO_CHILD)
        return;
    stream_unlock();
    heap_unlock();
}

static void do_step(unsigned thread, enum step step, unsigned number)
{
    uint64_t block = BLOCK_AT + thread * APART;
    switch (step) {
    case BAD:
    case GOOD:
    case FREE:
    case STORE:
        record(thread, step, number);
        break;
    case POISON:
    case UNPOISON:
        record_regions(step == POISON ? CODE_POISON : CODE_UNPOISON, block + POISON_AT, POISON_SIZE);
        break;
    case MALLOC:
        heap_lock();
        record_region(CODE_MALLOC, GOOD_AT + PAGE + thread * APART, GRANULE);
        heap_unlock();
        break;
    case FULL:
        go_full();
        break;
    case EXEC:
        heap_lock(); /* nobody goes on in another segment */
        if (stream_suspend(0))
            stream_resume();
        heap_unlock();
        break;
    case FORK:
        fork_in_locks(thread);
        break;
    case RAW_FORK:
        EXPLORE_POINT("fork");
        do_fork(thread, RAW_CHILD);
        break;
    case CLOSE:
        stream_close(true, 0);
        break;
    case END:
    case KILLED:
        world.has_ended = true;
        stream_end(step == END ? FINISH_CLOSED : FINISH_OPEN, step == END ? ENDING_EXIT : ENDING_SIGNAL, 0);
        if (step == END && is_on())
            explore_fail("it is on after its end");
        break;
    default:
        break;
    }
}

void world_run(unsigned thread)
{
    volatile unsigned number = 0;
    if (setjmp(*explore_landing()) != 0)
        number++;
    for (; world.child == NO_CHILD && number < MAX_STEPS && scenario->steps[thread][number] != NOTHING; number++)
        do_step(thread, scenario->steps[thread][number], number);
}

void world_handle(unsigned thread)
{
    record(MAX_THREADS + thread, BAD, world.counts[MAX_THREADS + thread]);
    if (scenario->jumps) {
        world.has_jumped = true;
        explore_land();
    }
}

void world_begin(void)
{
    settings = (struct settings){.trace = "t.trace",
                                 .limit = scenario->limit,
                                 .segments = ALL_SEGMENTS,
                                 .with_side = true,
                                 .patience_ms = 1,
                                 .is_full = true,
                                 .quarantine = QUARANTINE_BOUND};
    memset((void *)shadow_of(BAD_AT), 0, PAGE / GRANULE);
    memset((void *)shadow_of(BLOCK_AT), 0, PAGE / GRANULE);
    for (unsigned line = 0; line < LINES; line++)
        *shadow_of(BAD_AT + line * APART) = SHADE_RIGHT;
    heap_begin();
    if (!begin_stream())
        explore_fail("the beginning");
    heap_snapshot(UINT64_MAX, stream_snapshot_room());
}

/* The observations at the end. */

static unsigned places[LINES];
static bool is_whole;

static bool is_bad_event(uint64_t address)
{
    return (address >= BAD_AT && address < GOOD_AT) || is_in_arena(address);
}

/* Finds an event among those that are expected of its line. One that is optional may be missing, and any if a
   close is. */
static bool find_event(uint64_t address)
{
    uint64_t base = is_in_arena(address) ? BLOCK_AT : address >= GOOD_AT ? GOOD_AT : BAD_AT;
    uint64_t line = (address - base) / APART;
    if (line >= LINES)
        return false;
    for (unsigned at = places[line]; at < world.counts[line]; at++) {
        if (world.recorded[line][at] == address) {
            places[line] = at + 1;
            return true;
        }
        if (is_whole && !world.is_optional[line][at])
            break;
    }
    return false;
}

/* The bytes that are bad by a segment. */
struct view {
    bool is_bad[2][PAGE];
};

static void change(struct view *view, uint64_t address, uint64_t size, bool is_bad)
{
    bool is_block = is_in_arena(address);
    uint64_t base = is_block ? BLOCK_AT : BAD_AT;
    for (uint64_t at = address - base; at < address - base + size && at < PAGE; at++)
        view->is_bad[is_block][at] = is_bad;
}

static uint64_t number_at(const unsigned char *at)
{
    uint64_t number;
    memcpy(&number, at, sizeof number);
    return number;
}

static void look_at_record(struct view *view, const unsigned char *at, unsigned segment)
{
    if (*at == CODE_ANEW) {
        memset(view, 0, sizeof *view);
        return;
    }
    bool is_access = *at == CODE_LOAD || *at == CODE_STORE;
    uint64_t address = number_at(at + (is_access || *at == CODE_POISON ? 2 : 1));
    if (address == 0)
        return; /* it says nothing */
    if (*at == CODE_POISON || *at == CODE_UNPOISON)
        change(view, address, number_at(at + (*at == CODE_POISON ? 10 : 9)), *at == CODE_POISON);
    bool is_of_snapshot = *at == CODE_FREE && address >= BLOCK_AT + LINES * APART;
    if ((!is_access && *at != CODE_FREE) || is_of_snapshot)
        return;
    bool is_expected = find_event(address);
    if (*at == CODE_LOAD && is_expected)
        explore_fail("segment %u has a load of %llx, which no thread makes", segment, (unsigned long long)address);
    if (!is_expected && is_whole)
        explore_fail("segment %u has %llx, which is not in order, or twice", segment, (unsigned long long)address);
    bool is_block = is_in_arena(address);
    if (is_whole && is_access && is_bad_event(address)
        && !view->is_bad[is_block][address - (is_block ? BLOCK_AT : BAD_AT)])
        explore_fail("segment %u has %llx, but not what makes it bad", segment, (unsigned long long)address);
}

/* Where its records end. */
static size_t end_of(const struct file *file)
{
    size_t at = HEADER_LENGTH;
    while (at < file->length && record_length(file->bytes[at]) != 0)
        at += record_length(file->bytes[at]);
    return at;
}

static bool is_closed(const struct file *file)
{
    size_t end = end_of(file);
    return end + CLOSE_LENGTH == file->length && file->bytes[end] == CODE_CLOSE;
}

static void look_at_segment(unsigned segment)
{
    static struct view view;
    const struct file *file = &world.files[segment];
    unsigned events = 0;
    memset(&view, 0, sizeof view);
    if (file->length > FILE_ROOM || memcmp(file->bytes, HEADER, HEADER_LENGTH) != 0)
        explore_fail("segment %u has no header, or no end", segment);
    size_t end = explore_has_failed() ? 0 : end_of(file);
    for (size_t at = HEADER_LENGTH; at < end; at += record_length(file->bytes[at]), events++)
        look_at_record(&view, file->bytes + at, segment);
    if (is_whole && end < file->length && !is_closed(file))
        explore_fail("segment %u has records up to %zu of %zu", segment, end, file->length);
    if (events > scenario->limit)
        explore_fail("segment %u has %u events", segment, events);
}

static void list_record(const unsigned char *at)
{
    static const char *const names[] = {"none", "load", "store", "malloc", "free", "poison", "unpoison"};
    if (*at == CODE_ANEW) {
        printf(" anew");
        return;
    }
    unsigned offset = record_length(*at) == ACCESS_LENGTH || *at == CODE_POISON ? 2 : 1;
    printf(" %s %llx", names[*at], (unsigned long long)number_at(at + offset));
}

static void list_segment(unsigned segment)
{
    const struct file *file = &world.files[segment];
    size_t end = file->length <= FILE_ROOM ? end_of(file) : 0;
    printf("  segment %u%s:", segment, is_closed(file) ? "" : " without a close");
    for (size_t at = HEADER_LENGTH; at < end; at += record_length(file->bytes[at]))
        list_record(file->bytes + at);
    printf("\n");
}

/* A child that no handler of fork has seen records nothing, and it is said once. */
static void end_raw_child(void)
{
    if (is_on() || world.file_count != world.first_file)
        explore_fail("a child is recorded that no handler has seen");
    if (world.said_child != 1)
        explore_fail("it is said %u times that a child is not recorded", world.said_child);
}

void world_end(void)
{
    if (world.child == RAW_CHILD) {
        end_raw_child();
        return;
    }
    for (unsigned i = 0; i < world.first_file; i++)
        if (world.files[i].window != WINDOWS)
            explore_fail("a child has its parent's file open");
    stream_close(true, 0);
    if (locked.trace.bytes != NULL)
        memcpy(world.files[locked.trace.number].bytes, locked.trace.bytes, FILE_ROOM);
    is_whole = true;
    if (stream_state() == STATE_AT_LIMIT && scenario->limit < 1000)
        explore_fail("the recording has ended at the limit");
    for (unsigned i = world.first_file; i < world.file_count; i++) {
        is_whole &= is_closed(&world.files[i]);
        if (explore_lists())
            list_segment(i);
    }
    for (unsigned i = world.first_file; i < world.file_count && !explore_has_failed(); i++)
        look_at_segment(i);
    for (unsigned line = 0; line < LINES && is_whole; line++)
        for (unsigned at = places[line]; at < world.counts[line]; at++)
            if (!world.is_optional[line][at])
                explore_fail("all is closed, but %llx is missing", (unsigned long long)world.recorded[line][at]);
}

/* The command. */

static void map_at(const volatile void *address)
{
    void *page = (void *)((uintptr_t)address / PAGE * PAGE);
    if (mmap(page, PAGE, PROT_READ | PROT_WRITE, MAP_PRIVATE | MAP_ANONYMOUS | MAP_FIXED_NOREPLACE, -1, 0) != page) {
        perror("no room for the shadow");
        exit(2);
    }
}

static unsigned count_threads(void)
{
    unsigned count = 0;
    while (count < MAX_THREADS - 1 && scenario->steps[count][0] != NOTHING)
        count++;
    return count;
}

static bool explore_scenario(struct search search, uint64_t runs)
{
    search.times_out = scenario->times_out;
    search.handlers = scenario->handlers;
    if (search.preemptions == 0)
        search.preemptions = scenario->preemptions;
    uint64_t done = explore(count_threads(), &search, runs != 0 ? runs : scenario->runs);
    printf("%s: %llu runs\n", done != 0 ? "as it should be" : "WRONG", (unsigned long long)done);
    return done != 0;
}

static bool is_asked_for(const char *name, int count, char **argv)
{
    bool has_names = false;
    for (int i = 1; i < count; i++) {
        if (argv[i][0] == '-') {
            i++;
            continue;
        }
        has_names = true;
        if (strcmp(argv[i], name) == 0)
            return true;
    }
    return !has_names;
}

static uint64_t option(const char *name, int count, char **argv)
{
    for (int i = 1; i + 1 < count; i++)
        if (strcmp(argv[i], name) == 0)
            return strtoull(argv[i + 1], NULL, 10);
    return 0;
}

/* Each in a process of its own. */
static int explore_all(const struct scenario *all, size_t number, struct search search, int count, char **argv)
{
    int status = 0;
    for (size_t i = 0; i < number; i++) {
        scenario = &all[i];
        if (!is_asked_for(scenario->name, count, argv))
            continue;
        printf("%s: ", scenario->name);
        fflush(stdout);
        int ended = 0;
        pid_t child = fork();
        if (child == 0)
            exit(explore_scenario(search, option("--runs", count, argv)) ? 0 : 1);
        if (child < 0 || waitpid(child, &ended, 0) != child || ended != 0)
            status = 1;
    }
    return status;
}

int main(int count, char **argv)
{
    struct search search = {.preemptions = (unsigned)option("--preemptions", count, argv),
                            .rareness = (unsigned)option("--rareness", count, argv),
                            .seed = option("--seed", count, argv)};
    search.is_random = search.seed != 0;
    if (search.is_random && search.rareness == 0)
        search.rareness = 8;
    map_at(shadow_of(BAD_AT));
    map_at(shadow_of(BLOCK_AT));
    memory_of_windows = mmap(NULL, (size_t)WINDOWS << WINDOW_SHIFT, PROT_READ | PROT_WRITE,
                             MAP_SHARED | MAP_ANONYMOUS | MAP_NORESERVE, -1, 0);
    explore_begin();
    int status = explore_all(scenarios, sizeof scenarios / sizeof *scenarios, search, count, argv);
    scenario_is_lean = true;
    return explore_all(lean_scenarios, sizeof lean_scenarios / sizeof *lean_scenarios, search, count, argv) | status;
}

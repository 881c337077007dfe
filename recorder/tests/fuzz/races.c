/* Threads record bad accesses, bad frees, poison and findings into segments of few events, with what stands beside
   them: faults, stacks, and threads that get names meanwhile. One of them forks, and tries an exec; signal handlers
   come in, and make bad accesses too. At the end each segment is whole and closed, and a child has its own. */
#define _GNU_SOURCE
#include <errno.h>
#include <glob.h>
#include <pthread.h>
#include <signal.h>
#include <stdio.h>
#include <stdlib.h>
#include <string.h>
#include <sys/mman.h>
#include <sys/wait.h>
#include <unistd.h>

#include "base/disturbance.h"
#include "base/say.h"
#include "base/self.h"
#include "base/system.h"
#include "libc/library.h"
#include "heap/arena.h"
#include "environment/asan_options.h"
#include "environment/asking.h"
#include "environment/startup.h"
#include "environment/stale_trace.h"
#include "environment/other_threads.h"
#include "environment/hub_word.h"
#include "shadow/globals.h"
#include "shadow/mapping.h"
#include "stacks/own_stack.h"
#include "stacks/thread_notes.h"
#include "stream/ending.h"
#include "stream/faults.h"
#include "stream/findings.h"
#include "stream/keeping.h"
#include "stream/locked.h"
#include "stream/near.h"
#include "stream/opening.h"
#include "stream/own_place.h"
#include "stream/record.h"
#include "stream/saying.h"
#include "stream/sending.h"
#include "stream/side.h"
#include "stream/suspending.h"
#include "stream/thread_list.h"

enum { THREADS = 4, STEPS = 3000, LIMIT = 1500, FORKS_EACH = 1000, EXECS_EACH = 400, CHILD_STEPS = 50, PLACES = 200 };
enum { REUSE_AT = 100 };
#define BAD_AT UINT64_C(0x100000)
#define BLOCK_AT ((uint64_t)ARENA_NUMBER << ARENA_SHIFT)

static void expect(bool holds, const char *what)
{
    if (holds)
        return;
    fprintf(stderr, "not as it should be: %s\n", what);
    _exit(1);
}

/* What the other parts of the recorder would do. */

_Thread_local struct own_stack own_stack;
static _Thread_local unsigned undisturbed, in_heap;
static _Thread_local uint64_t draws;
static pthread_mutex_t heap = PTHREAD_MUTEX_INITIALIZER;

static uint64_t draw(uint64_t below)
{
    draws ^= draws << 13;
    draws ^= draws >> 7;
    return (draws ^= draws << 17) % below;
}

void undisturbed_begin(struct disturbance *before)
{
    (void)before;
    undisturbed++;
}
void undisturbed_end(const struct disturbance *before)
{
    (void)before;
    undisturbed--;
}

static void lock_heap(void)
{
    undisturbed++;
    if (in_heap++ == 0)
        pthread_mutex_lock(&heap);
}
static void unlock_heap(void)
{
    if (--in_heap == 0)
        pthread_mutex_unlock(&heap);
    undisturbed--;
}
static bool is_in_heap(void) { return in_heap > 0; }
static bool is_not(void) { return false; }
static void do_nothing(void) {}
static void snapshot(uint64_t most_held, uint64_t room) { (void)most_held, (void)room; }
static void hold(uint64_t bytes) { (void)bytes; }
static void find_state(struct found *found)
{
    found->has_block = false;
}
static bool find_freed(uint64_t address, struct found *found)
{
    *found = (struct found){.has_block = address % 2 == 0, .start = address / GRANULE * GRANULE, .is_held = true};
    return true;
}
static struct difference find_difference(uint64_t address)
{
    (void)address;
    return (struct difference){0};
}
static void list_unchecked(char *list, const char *maps) { list[0] = maps[0] == 0 ? 0 : list[0]; }
static uint64_t unchecked_state(void)
{
    return 0;
}
const struct above above = {
    .lock_heap = lock_heap,
    .unlock_heap = unlock_heap,
    .is_in_heap = is_in_heap,
    .snapshot = snapshot,
    .hold = hold,
    .poisons_in_heap = do_nothing,
    .find_state = find_state,
    .find_freed = find_freed,
    .find_difference = find_difference,
    .start = is_not,
    .say_child = do_nothing,
    .list_unchecked = list_unchecked,
    .unchecked_state = unchecked_state,
};
static int read_clock(int clock, struct timespec *now) { return clock_gettime(clock, now); }
static const char is_alone = 0;
struct library library = {.clock_gettime = read_clock, .__libc_single_threaded = &is_alone};
bool has_other_threads(void) { return true; }
bool asan_options_check_call(const char *name) { return name != NULL; }
struct code_range own_code;
struct startup startup;
int self_process(void)
{
    return getpid();
}
bool recorder_has_checks(void) { return true; }
bool recorder_has_begun(void) { return true; }
bool recorder_is_own_process(void) { return true; }
bool is_of_earlier_run(const char *path) { return path == NULL; }
const char *startup_name(void) { return "races"; }
void signal_take_away(int number) { (void)number; }
void hub_word_note(const char *hub, const char *why) { (void)hub, (void)why; }
bool own_place_is_at(const unsigned char *address, uint64_t cursor) { return address == NULL && cursor == 0; }
bool stack_note_rights(uintptr_t start, size_t size, bool can_be_read) { return start == size && can_be_read; }
void recorder_say(const char *what, const char *of, const char *why)
{
    if (strstr(what, "left out") == NULL && strstr(what, "goes to") == NULL && strstr(what, "no close") == NULL)
        fprintf(stderr, "%s%s: %s\n", what, of, why);
}

/* Handlers come between the steps, and in the middle of a fault, before it has its place. ThreadSanitizer would let
   many in between a place and its code: if such a handler waits for a thread that ends the segment, that thread waits
   for the record, gives it up at last, and writes there. recorder/tests/exploring.py has these orders. */
static _Thread_local volatile bool is_in_step, has_signal;

static void let_handler_in(void)
{
    if (!has_signal || undisturbed != 0)
        return;
    has_signal = false;
    record_access(CODE_STORE, 1, BAD_AT + THREADS * PAGE, BAD_AT + draw(PLACES));
}

/* The neighbourhood is drawn: that it is found is tested elsewhere. */
void near_block(struct list *list, uint64_t address, struct side_fault *fault)
{
    let_handler_in();
    fault->allocated_stack = list_put_stack(list, call_site_of(BAD_AT + draw(PLACES)));
    fault->allocated_thread = (uint32_t)(address / GRANULE % THREADS);
}
void near_global(uint64_t address, struct side_fault *fault)
{
    struct global nearest;
    let_handler_in();
    fault->variable = globals_find(address, &nearest) ? (uint8_t)nearest.size : VARIABLE_NONE;
}
void near_variable(struct list *list, const struct frame *frame, uint64_t address, struct side_fault *fault)
{
    (void)list, (void)frame, (void)address, (void)fault;
}
bool near_array(uint64_t address, struct side_fault *fault)
{
    (void)fault;
    return address % 5 == 0;
}
bool frame_around(uint64_t address, struct frame *frame)
{
    (void)frame;
    return address == 0;
}
static void draw_stack(uint64_t first, struct stack *stack)
{
    *stack = (struct stack){.count = 1 + (unsigned)first % (MAX_FRAMES - 1)};
    for (unsigned i = 0; i < stack->count; i++) {
        stack->frames[i] = i < 3 ? first + i : i;
        stack->hash = stack_hash(stack->hash, stack->frames[i]);
    }
}
void unwind_from_call(uintptr_t own, uintptr_t frame, uintptr_t caller, struct stack *stack)
{
    (void)own, (void)frame;
    draw_stack(caller, stack);
}
void unwind_end(const struct stack *stack, uint64_t place) { (void)stack, (void)place; }
void unwind_from_registers(const struct registers *registers, struct stack *stack)
{
    draw_stack(registers->instruction, stack);
}
void shadow_map(void) {}

/* The steps. Each thread has its own granules, and tables of globals of a library that comes and goes. */

static struct settings settings = {.trace = "races.trace", .limit = LIMIT, .segments = ALL_SEGMENTS, .with_side = true,
                                   .patience_ms = 1000};

static void record_some(unsigned thread)
{
    uint64_t mine = BAD_AT + thread * PAGE + draw(PAGE / GRANULE / 2) * GRANULE, caller = BAD_AT + draw(PLACES);
    static struct global tables[THREADS + 1];
    struct finding finding = {.kind = FINDING_OVERLAP, .call_site = call_site_of(caller), .call = "memcpy"};
    switch (draw(9)) {
    case 0:
        record_regions(CODE_POISON, mine, 4 * GRANULE);
        break;
    case 1:
        record_regions(CODE_UNPOISON, mine, 2 * GRANULE);
        break;
    case 2:
        record_bad_free(BLOCK_AT + thread * PAGE + 1, caller, "free");
        break;
    case 3:
        finding_note(&finding);
        break;
    case 4:
        list_name_thread(draw(2) * (uintptr_t)pthread_self(), draw(2) ? "one" : "other");
        break;
    case 5:
        globals_note(&tables[thread], 1, false);
        tables[thread] = (struct global){.start = mine, .size = GRANULE, .size_with_redzone = 4 * GRANULE};
        globals_note(&tables[thread], 1, true);
        break;
    default:
        record_range(draw(2) ? CODE_LOAD : CODE_STORE, mine, 1 + draw(24), caller);
    }
}

static void handle(int number)
{
    int before = errno;
    (void)number;
    has_signal = true;
    if (!is_in_step)
        let_handler_in();
    errno = before;
}

static void be_child(void)
{
    stream_forget();
    stream_unlock();
    thread_is_alone(1);
    expect(stream_begin(&settings), "the beginning of a child");
    unlock_heap();
    for (int step = 0; step < CHILD_STEPS; step++)
        record_some(0);
    stream_end(FINISH_CLOSED, ENDING_EXIT, 0);
    _exit(0);
}

static void fork_one(void)
{
    int status = 1;
    lock_heap();
    stream_lock();
    side_note_fork();
    pid_t child = fork();
    if (child == 0)
        be_child();
    stream_unlock();
    unlock_heap();
    while (waitpid(child, &status, 0) < 0 && errno == EINTR)
        ;
    expect(status == 0, "a child");
}

static void exec_one(void)
{
    lock_heap();
    if (stream_suspend(0))
        expect(stream_resume(), "the end of an exec");
    unlock_heap();
}

static void *run(void *number)
{
    unsigned thread = (unsigned)(uintptr_t)number;
    draws = 12345 + thread;
    thread_begins(thread_create(BAD_AT + thread));
    for (unsigned step = 1; step <= STEPS; step++) {
        is_in_step = true;
        record_some(thread);
        is_in_step = false;
        if (step == REUSE_AT)
            side_note_reuse(thread + 1);
        if (thread == 0 && step % FORKS_EACH == 0)
            fork_one();
        if (thread == 0 && step % EXECS_EACH == 0)
            exec_one();
    }
    return NULL;
}

/* The result: each segment has its header, whole records and a close; or none, where others went on during an
   exec. */

static bool is_closed_file(const char *path)
{
    unsigned char *bytes = malloc(MAX_STREAM_SIZE);
    FILE *file = fopen(path, "rb");
    expect(file != NULL && bytes != NULL, "a file");
    size_t size = fread(bytes, 1, MAX_STREAM_SIZE, file), at = HEADER_LENGTH;
    fclose(file);
    expect(size > HEADER_LENGTH && memcmp(bytes, HEADER, HEADER_LENGTH) == 0, "a header");
    while (at < size && bytes[at] != CODE_CLOSE && record_length(bytes[at]) != 0)
        at += record_length(bytes[at]);
    bool is_closed = at + CLOSE_LENGTH == size;
    expect(is_closed || at == size || bytes[at] == 0, "whole records");
    free(bytes);
    return is_closed;
}

static size_t look_at_files(void)
{
    glob_t found;
    expect(glob("races*.trace", 0, NULL, &found) == 0, "the files");
    size_t count = 0;
    for (size_t i = 0; i < found.gl_pathc; i++)
        count += is_closed_file(found.gl_pathv[i]);
    globfree(&found);
    expect(system("rm -f races*.trace races*.where") == 0, "their removal");
    return count;
}

static void map_at(const volatile void *address)
{
    uintptr_t start = (uintptr_t)address / PAGE * PAGE;
    int flags = MAP_PRIVATE | MAP_ANONYMOUS | MAP_FIXED_NOREPLACE;
    expect(system_mmap((void *)start, PAGE, PROT_READ | PROT_WRITE, flags, -1, 0) == (long)start, "the shadow");
}

static void run_all(bool is_full)
{
    pthread_t threads[THREADS];
    settings.is_full = is_full;
    expect(stream_begin(&settings), "the beginning");
    for (uintptr_t i = 0; i < THREADS; i++)
        expect(pthread_create(&threads[i], NULL, run, (void *)i) == 0, "a thread");
    for (int i = 0; i < THREADS * 100; i++) {
        pthread_kill(threads[i % THREADS], SIGUSR1);
        usleep(1000);
    }
    for (int i = 0; i < THREADS; i++)
        pthread_join(threads[i], NULL);
    stream_end(FINISH_CLOSED, ENDING_EXIT, 0);
    stream_say_left_out();
    stream_forget();
    expect(look_at_files() > STEPS / FORKS_EACH, "the number of segments that are closed");
}

int main(void)
{
    signal(SIGUSR1, handle);
    draws = 1;
    thread_is_first();
    map_at(shadow_of(BAD_AT));
    map_at(shadow_of(BLOCK_AT));
    *(volatile unsigned char *)shadow_of(BAD_AT + THREADS * PAGE) = SHADE_RIGHT;
    run_all(true);
    run_all(false);
    return 0;
}

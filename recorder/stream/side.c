/* `current` is the memory of the newest window (struct side in common/format.h). The lock's holder writes most of it
   once; fields that any thread writes are one word each. */
#define _GNU_SOURCE
#include "stream/side.h"

#include <elf.h>
#include <fcntl.h>
#include <limits.h>
#include <stdatomic.h>
#include <string.h>
#include <time.h>

#include "base/descriptors.h"
#include "common/crash.h"
#include "base/memory.h"
#include "base/platform.h"
#include "base/say.h"
#include "base/self.h"
#include "base/system.h"
#include "libc/library.h"
#include "environment/dormant.h"
#include "environment/startup.h"
#include "shadow/mapping.h"
#include "stacks/thread_notes.h"
#include "stream/locked.h"
#include "stream/maps.h"
#include "stream/modules.h"
#include "stream/state.h"

static struct side *_Atomic current;

static struct side *side_now(void)
{
    return atomic_load_explicit(&current, memory_order_acquire);
}

/* Words that any thread may write, and another process may read meanwhile. Each says enough by itself, so the order is
   of no matter. */

static void put_word(uint32_t *word, uint32_t value)
{
    atomic_store_explicit((_Atomic uint32_t *)word, value, memory_order_relaxed);
}

static void put_long(uint64_t *word, uint64_t value)
{
    atomic_store_explicit((_Atomic uint64_t *)word, value, memory_order_relaxed);
}

static uint32_t word_at(const uint32_t *word)
{
    return atomic_load_explicit((const _Atomic uint32_t *)word, memory_order_relaxed);
}

/* Reads as much of a file as there is room for. */
static size_t read_file(const char *path, char *to, size_t room)
{
    size_t length = 0;
    ssize_t count;
    int file = descriptor_of_file(path, O_RDONLY | O_CLOEXEC);
    if (file < 0)
        return 0;
    while (length < room && (count = system_read(file, to + length, room - length)) > 0)
        length += (size_t)count;
    system_close(file);
    return length;
}

/* Those arguments that there is room for, if they lie one behind the other where the system has put them. 0: they do
   not, since the program has other ones by now. */
static size_t copy_words(char *to, size_t room)
{
    uintptr_t start = startup.are_all_words ? (uintptr_t)startup.words : 0, next = start;
    for (char **word = startup.argv; next != 0 && next < start + room && *word != NULL; word++) {
        if ((uintptr_t)*word != next || next >= startup.end)
            return 0;
        next += strlen(*word) + 1;
    }
    size_t length = next - start < room ? next - start : room;
    if (length != 0)
        memcpy(to, (const char *)start, length);
    return length;
}

/* The arguments of the command line. Each has its zero, also one that was cut, and there is one more. The text is kept,
   also in a child, and read again only if it does not stand any more where the system has put it: a process may
   write a title of its own there. */
static void read_argv(struct side *side)
{
    static AS_TABLE char seen[SIDE_ARGV]; /* the lock is held */
    static size_t length;
    uintptr_t words = (uintptr_t)startup.words;
    bool is_there = words != 0 && words < startup.end && length <= startup.end - words;
    if (length == 0)
        length = copy_words(seen, SIDE_ARGV - 2);
    if (length == 0 || !is_there || memcmp(startup.words, seen, length) != 0)
        length = read_file("/proc/self/cmdline", seen, SIDE_ARGV - 2);
    if (length != 0)
        memcpy(side->argv, seen, length);
    else
        strncpy(side->argv, startup_name(), SIDE_ARGV - 2);
}

static struct side_progress *progress_in(struct side *side)
{
    return (struct side_progress *)((unsigned char *)side + SIDE_PROGRESS);
}

static struct side_beside_threads *beside_threads_in(struct side *side)
{
    return (struct side_beside_threads *)((unsigned char *)side + SIDE_BESIDE_THREADS);
}

static _Atomic uint64_t *needed_in(struct side *side)
{
    return (_Atomic uint64_t *)&progress_in(side)->needed;
}

/* Who the process is: the same in all its segments. */
static void note_process(struct side *side, uint64_t segment)
{
    static uint32_t process, parent;
    static uint64_t started, of_parent, of_parent_started;
    struct timespec now = {0, 0};
    if (segment == 0) {
        of_parent = process; /* a forked child has these from its parent, with the same number in another namespace */
        of_parent_started = started;
        library.clock_gettime(CLOCK_REALTIME, &now);
        process = (uint32_t)self_process();
        parent = (uint32_t)system_getppid();
        started = (uint64_t)now.tv_sec * 1000000000 + (uint64_t)now.tv_nsec;
    }
    side->process = process;
    side->parent = parent;
    side->started = started;
    progress_in(side)->segment = segment;
    progress_in(side)->of_parent = of_parent;
    progress_in(side)->of_parent_started = of_parent_started;
}

bool side_is_there(void)
{
    return side_now() != NULL;
}

void side_forget(void)
{
    atomic_store(&current, NULL);
}

/* What this process has skipped so far. Whoever adds to it looks for the side memory then, and who begins one makes it
   known before it reads this. */
static _Atomic uint64_t skipped;

void side_note_skipped(uint64_t what)
{
    atomic_fetch_or(&skipped, what);
    struct side *side = side_now();
    if (side != NULL)
        atomic_fetch_or((_Atomic uint64_t *)&progress_in(side)->skipped, what);
}

/* The same for what this process has noted of memory that was used again: in a forked child that of its parent. */
static _Atomic uint64_t used_again;

static void put_used_again(void)
{
    struct side *side = side_now();
    uint64_t bytes = atomic_load(&used_again);
    if (side != NULL && bytes != 0)
        atomic_store((_Atomic uint64_t *)&progress_in(side)->used_again, bytes);
}

void side_note_reuse(uint64_t bytes)
{
    uint64_t none = 0;
    if (atomic_load_explicit(&used_again, memory_order_relaxed) == 0
        && atomic_compare_exchange_strong(&used_again, &none, bytes))
        put_used_again();
}

static void note_settings(struct side *side, const struct settings *settings)
{
    struct side_settings *noted = (struct side_settings *)((unsigned char *)side + SIDE_SETTINGS);
    bool is_little = settings->quarantine < QUARANTINE_BOUND; /* whatever is held, freed blocks are stated */
    side->quarantine = is_lean() && is_little ? QUARANTINE_BOUND : settings->quarantine;
    noted->limit = settings->limit;
    noted->is_one = settings->segments == 0;
    noted->halt = settings->halt;
    noted->is_lean = is_lean();
}

void side_begin(unsigned char *bytes, uint64_t segment, const struct settings *settings)
{
    struct side *side = (struct side *)bytes;
    note_process(side, segment);
    put_word(&side->has_checks, recorder_has_checks());
    put_long(&progress_in(side)->has_begun, recorder_has_begun());
    note_settings(side, settings);
    read_argv(side);
    atomic_store_explicit(needed_in(side), 1, memory_order_relaxed);
    memcpy(side->header, SIDE_HEADER, sizeof side->header);
    atomic_store(&current, side);
    side_note_skipped(atomic_load(&skipped) | settings->skipped);
    put_used_again();
    side_note_first_name();
    modules_show(side);
}

bool side_has_news(void)
{
    const struct side *side = side_now();
    if (side == NULL)
        return true;
    const struct side_progress *progress = progress_in((struct side *)(uintptr_t)side);
    const struct side_settings *settings = (const void *)((const unsigned char *)side + SIDE_SETTINGS);
    bool has_ended_badly = crash_is(word_at(&side->signal)) || side->last != 0 || progress->inside != 0
                           || word_at(&settings->has_halted) != 0;
    bool lacks_something = word_at(&side->is_at_limit) != 0 || side->left_out != 0 || progress->findings_lost != 0
                           || progress->leaks_missed != 0;
    return word_at(&side->fault_count) != 0 || has_ended_badly || lacks_something;
}

/* Modules. */

void side_write_modules(void)
{
    struct side *side = side_now();
    if (side != NULL)
        modules_look(side);
}

void side_look_at_generation(uint64_t generation)
{
    struct side *side = side_now();
    if (side != NULL)
        modules_look_at_generation(side, generation);
}

void side_know_generation(uint64_t generation)
{
    if (side_is_there())
        modules_are_of_generation(generation);
}

/* Where nothing has a call site or a stack, only what the loader has brought is of interest. */
void side_end_modules(uint64_t generation)
{
    struct side *side = side_now();
    bool has_addresses = side != NULL && (word_at(&side->fault_count) != 0 || word_at(&side->stack_words) != 0);
    if (generation == 0 || has_addresses)
        side_write_modules();
    else
        side_look_at_generation(generation);
}

void stream_write_modules(void)
{
    stream_lock();
    if (locked.has_side)
        side_write_modules();
    stream_unlock();
}

bool side_back(const struct side_part *part, bool has_place)
{
    if (!is_file()) {
        atomic_fetch_or(part->bits, part->bit);
        return true;
    }
    /* Who has the lock may be waiting for a record of this thread, whose place was taken. */
    if (atomic_load(&shared.is_side_full) || !stream_lock_within(has_place ? SHORT : LONG))
        return false;
    /* While this thread waited, others may have gone on: then the file is that of another segment. */
    bool is_of_segment = part->window == locked.window;
    const char *why = is_of_segment ? output_back(&locked.side, part->offset, part->length) : NULL;
    if (why != NULL && !atomic_exchange(&shared.is_side_full, true))
        recorder_say("no more data are kept beside the trace: ", locked.side.path, why);
    bool is_backed = is_of_segment && why == NULL;
    if (is_backed)
        atomic_fetch_or(part->bits, part->bit);
    stream_unlock();
    return is_backed;
}

/* Whether the file of a line lies where the system has its libraries, which nobody removes. */
static bool is_of_system(const struct map_line *line)
{
    const char *path = memchr(line->text, '/', (size_t)(line->next - line->text));
    return path != NULL
           && (strncmp(path, "/usr/lib", strlen("/usr/lib")) == 0 || strncmp(path, "/lib", strlen("/lib")) == 0);
}

/* The path of the file of a line. False: it has none, or it is too long. */
static bool take_path(char *path, size_t room, const struct map_line *line)
{
    const char *from = memchr(line->text, '/', (size_t)(line->next - line->text));
    size_t length = from != NULL ? (size_t)(line->next - 1 - from) : room;
    if (length >= room)
        return false;
    memcpy(path, from, length);
    path[length] = 0;
    return true;
}

/* Whether the line is of the program's file. */
static bool is_of_program(const struct map_line *line)
{
    return !IS_PRELOADED && line->start <= own_code.start && own_code.start < line->end;
}

static bool is_one_file(int descriptor, int other)
{
    struct stat seen, of_other;
    return system_fstat(descriptor, &seen) == 0 && system_fstat(other, &of_other) == 0
           && seen.st_dev == of_other.st_dev && seen.st_ino == of_other.st_ino;
}

unsigned side_open_files(int files[SIDE_FILES])
{
    static AS_TABLE char path[PATH_MAX]; /* the lock is held; and a stack may be small */
    const struct side *side = side_now();
    struct map_line line;
    unsigned count = 0;
    if (side == NULL)
        return 0;
    int program = system_open("/proc/self/exe", O_RDONLY | O_CLOEXEC, 0);
    if (program >= 0)
        files[count++] = program;
    for (const char *at = modules_map(); count < SIDE_FILES && maps_take_line(at, &line); at = line.next) {
        if (!maps_is_module(&line) || (program >= 0 && is_of_program(&line)) || is_of_system(&line)
            || !take_path(path, sizeof path, &line))
            continue;
        int file = system_open(path, O_RDONLY | O_CLOEXEC | O_NONBLOCK | O_NOCTTY, 0);
        if (file >= 0 && program >= 0 && is_one_file(file, program))
            system_close(file);
        else if (file >= 0)
            files[count++] = file;
    }
    return count;
}

/* Notes on the process. */

void side_note_checks(void)
{
    struct side *side = side_now();
    if (side != NULL)
        put_word(&side->has_checks, 1);
}

void side_note_main(void)
{
    struct side *side = side_now();
    if (side != NULL)
        put_long(&progress_in(side)->has_begun, 1);
}

void side_note_needed(uint64_t event)
{
    struct side *side = side_now();
    if (side == NULL)
        return;
    _Atomic uint64_t *needed = needed_in(side);
    uint64_t before = atomic_load_explicit(needed, memory_order_relaxed);
    while (before <= event && !atomic_compare_exchange_weak(needed, &before, event + 1))
        ;
}

void side_note_snapshot(uint64_t events)
{
    struct side *side = side_now();
    if (side != NULL)
        progress_in(side)->stated = events;
}

/* Adds one, for any thread. */
static void count_up(uint64_t *number)
{
#if HAS_ADDITION_ALONE
    /* As stream_take does it. An atomic addition would wait until all is stored that came before. */
    if (LIKELY(library_is_alone())) {
        processor_count_alone(number);
        return;
    }
#endif
    atomic_fetch_add_explicit((_Atomic uint64_t *)number, 1, memory_order_relaxed);
}

void side_note_left_good(void)
{
    struct side *side = side_now();
    if (side != NULL)
        count_up(&progress_in(side)->left_good);
}

void side_add_left_good(uint64_t count)
{
    struct side *side = side_now();
    if (side != NULL)
        atomic_fetch_add_explicit((_Atomic uint64_t *)&progress_in(side)->left_good, count, memory_order_relaxed);
}

void side_note_stated(uint64_t events)
{
    struct side *side = side_now();
    if (side != NULL && events != 0)
        atomic_fetch_add_explicit((_Atomic uint64_t *)&progress_in(side)->stated, events, memory_order_relaxed);
}

void side_note_fork(void)
{
    struct side *side = side_now();
    if (side != NULL && !dormant_is_there()) /* else a good child never connects */
        atomic_fetch_add((_Atomic uint64_t *)&progress_in(side)->forks, 1);
}

void side_note_child(int child)
{
    struct side *side = side_now();
    if (side == NULL || dormant_is_there())
        return;
    uint64_t place = atomic_fetch_add((_Atomic uint64_t *)&progress_in(side)->noted_children, 1);
    atomic_store((_Atomic uint32_t *)&progress_in(side)->children[place % SIDE_CHILDREN], (uint32_t)child);
}

bool side_note_becoming(bool becomes)
{
    struct side *side = side_now();
    if (side != NULL)
        progress_in(side)->becomes = becomes;
    return side != NULL;
}

void side_note_leaks_missed(bool were_missed)
{
    struct side *side = side_now();
    if (side != NULL)
        atomic_store((_Atomic uint64_t *)&progress_in(side)->leaks_missed, were_missed);
}

void side_note_closed_off(void)
{
    struct side *side = side_now();
    if (side != NULL)
        atomic_store((_Atomic uint64_t *)&progress_in(side)->closed_off, 1);
}

void side_note_sender(int sender)
{
    struct side *side = side_now();
    if (side != NULL && sender > 0)
        put_long(&progress_in(side)->sender, (uint64_t)sender);
}

void side_note_finding_lost(void)
{
    struct side *side = side_now();
    if (side != NULL)
        atomic_fetch_add((_Atomic uint64_t *)&progress_in(side)->findings_lost, 1);
}

_Atomic uint64_t *side_begin_calls(bool for_start)
{
    struct side *side = side_now();
    if (side == NULL)
        return NULL;
    struct side_progress *progress = progress_in(side);
    _Atomic uint64_t *calls = (_Atomic uint64_t *)(for_start ? &progress->starts : &progress->calls);
    atomic_fetch_add(calls, 1);
    return calls;
}

void side_end_calls(_Atomic uint64_t *calls)
{
    uint64_t before = calls != NULL ? atomic_load(calls) : 0;
    /* Another segment may lie there by now. */
    while (before != 0 && !atomic_compare_exchange_weak(calls, &before, before - 1))
        ;
}

void side_note_left_out(void)
{
    struct side *side = side_now();
    if (side == NULL)
        return;
    put_word(&side->is_at_limit, 1);
    atomic_fetch_add_explicit((_Atomic uint64_t *)&side->left_out, 1, memory_order_relaxed);
}

static void write_ending(struct side *side, enum ending ending, int number)
{
    put_word(&side->signal, (uint32_t)number);
    atomic_store_explicit((_Atomic uint32_t *)&side->ending, ending, memory_order_release);
}

void side_note_ending(enum ending ending, int number, uint64_t events)
{
    struct side *side = side_now();
    if (side == NULL || word_at(&side->ending) == ENDING_LOST)
        return;
    put_long(&side->events, events);
    write_ending(side, ending, number);
}

void side_note_last(const struct side_last *last)
{
    struct side *side = side_now();
    if (side == NULL)
        return;
    put_long(&side->last, last->call_site);
    put_word(&side->last_stack, last->stack);
    put_word(&beside_threads_in(side)->last, last->thread);
    put_word(&beside_threads_in(side)->test, last->test);
    put_word(&side->how, last->how);
    put_long(&side->wrong_address, last->address);
}

/* Whoever names the thread notes that first, and then looks for the memory: one of the two sees the other. */
void side_note_first_name(void)
{
    atomic_thread_fence(memory_order_seq_cst);
    struct side *side = side_now();
    if (side != NULL)
        thread_put_name(0, beside_threads_in(side)->first_name);
}

void side_note_halted(enum side_halted how)
{
    struct side *side = side_now();
    if (side != NULL)
        put_word(&((struct side_settings *)((unsigned char *)side + SIDE_SETTINGS))->has_halted, how);
}

bool side_is_at_exit(void)
{
    const struct side *side = side_now();
    return side != NULL && word_at(&side->ending) == ENDING_EXIT;
}

void side_note_inside(int number)
{
    struct side *side = side_now();
    if (side == NULL)
        return;
    put_long(&progress_in(side)->inside, (uint64_t)number);
    if (word_at(&side->ending) != ENDING_LOST)
        write_ending(side, ENDING_SIGNAL, number);
}

void side_note_late_signal(int number)
{
    struct side *side = side_now();
    if (side != NULL && word_at(&side->ending) == ENDING_EXIT)
        write_ending(side, ENDING_SIGNAL, number);
}

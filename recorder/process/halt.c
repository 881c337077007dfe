/* ASANCOL_HALT: the process ends at the first access or free that the shadow flags, as a fuzzer wants it. `halting`
   says which thread does it.

   With 1 the recording ends there, with a close if it has everything. With 2 it begins there: with what stands, and
   this one event. So only a process that fails leaves a trace, and asancol judges it without a second run.

   A waiting preloaded recorder begins there too, and the process goes on. */
#include "process/halt.h"

#include <errno.h>
#include <string.h>
#include <sys/stat.h>

#include "base/digits.h"
#include "base/self.h"
#include "base/system.h"
#include "common/hub_name.h"
#include "environment/asking.h"
#include "process/halt_report.h"
#include "process/halt_wait.h"
#include "process/process.h"
#include "process/signals.h"
#include "process/preload_wait.h"
#include "process/root.h"
#include "process/showing.h"
#include "stream/record.h"
#include "stream/sending.h"
#include "stream/side.h"
#include "stream/state.h"

static _Atomic bool is_crashing;
static void (*_Atomic death_callback)(void);

void halt_on_death(void (*callback)(void))
{
    atomic_store(&death_callback, callback);
}

void halt_call_back(void)
{
    void (*callback)(void) = atomic_load(&death_callback);
    if (callback != NULL)
        callback();
}

bool halt_is_first_crash(void)
{
    return !atomic_exchange(&is_crashing, true);
}

/* Records the event, which the end of the recording is to follow. */
static void record(enum code code, unsigned width, uint64_t address, uintptr_t caller, struct access *whole)
{
    if (code == CODE_FREE)
        record_bad_free(address, caller, whole->call);
    else
        record_piece_of(code, width, address, caller, whole);
}

/* Whether the run prints this report where this process would, if it can't be asked for the words. */
static bool is_left_to_run(void)
{
    char digits[DIGITS_ROOM];
    struct stat seen;
    const char *file = recorder_settings()->text;
    int target = halt_report_descriptor();
    if (file == NULL || !is_on() || !is_hub())
        return false;
    if (target < 0 || system_fstat(target, &seen) != 0)
        return target < 0 && strcmp(file, "log") == 0;
    const char *device = put_digits(digits + sizeof digits, seen.st_dev, 1);
    size_t length = strlen(device);
    if (strncmp(file, device, length) != 0 || file[length] != ':')
        return false;
    return strcmp(file + length + 1, put_digits(digits + sizeof digits, seen.st_ino, 1)) == 0;
}

/* Asks the run for the report in words, with functions and lines, while it is not yet there: so it stands before what
   the program says at its end, and before a debugger stops it. Files of `log_path` are the run's. Returns the
   connection, or an error below zero. */
static int ask_for_words(bool is_left, int *patience_ms)
{
    const struct settings *settings = recorder_settings();
    *patience_ms = settings->patience_ms;
    if (settings->text == NULL || !is_on() || !is_hub() || (is_left && halt_report_descriptor() < 0))
        return -ENOENT;
    return ask_begin(recorder_hub(), ASK_REPORT, true, patience_ms);
}

/* The thread that ends the process, after the number of that process; 0: none. */
static _Atomic uint64_t halting;

static uint64_t this_thread(void)
{
    return (uint64_t)self_process() << 32 | (uint32_t)system_gettid();
}

/* Not for ever: a handler may have jumped out of the wait. */
void halt_is_waited_for(void)
{
    enum { SPAN_MS = 10 };
    const struct timespec span = {.tv_nsec = SPAN_MS * 1000 * 1000};
    /* A filter of the program's may end it at a system call: most exits make none here. */
    if (!halt_has_waited())
        return;
    for (int left = recorder_settings()->patience_ms; left > 0 && halt_others_wait() > 0; left -= SPAN_MS) {
        if (atomic_load(&halting) == this_thread() || !recorder_is_own_process())
            break;
        system_nanosleep(&span);
    }
}

/* Prints the words of the run. The program may not exit meanwhile: its status is that of the halt. */
static bool print_words(int words, int patience_ms)
{
    halt_wait(true);
    bool came = halt_report_of_run(words, patience_ms);
    halt_wait(false);
    return came;
}

/* Another thread that is here already ends the process: this one waits for that, as it might end the process first, and
   well. But not for ever: a handler of the program may have taken that thread back from SIGABRT. If that thread goes
   on, this one is the next. */
static bool is_first_to_halt(void)
{
    enum { SPANS = 500 };
    const struct timespec span = {.tv_nsec = 10 * 1000 * 1000};
    uint64_t own = this_thread(), before = atomic_load(&halting);
    for (unsigned i = 0; before != own && i < SPANS; i++) {
        while (before >> 32 != own >> 32)
            if (atomic_compare_exchange_weak(&halting, &before, own))
                return true;
        if (before == own)
            break;
        halt_is_waited_for();
        system_nanosleep(&span);
        before = atomic_load(&halting);
    }
    if (before != own)
        atomic_store(&halt_is_on, false);
    return false;
}

/* By SIGABRT, or with the status that AddressSanitizer's options give. */
_Noreturn static void end_process(void)
{
    int status = recorder_settings()->halt_status;
    if (status < 0)
        signals_abort();
    int of_run = root_end_at_exit(status << 8, true);
    system_exit(of_run != STATUS_STAYS ? of_run : status);
}

void halt_at(enum code code, unsigned width, uint64_t address, uintptr_t caller, struct access *whole)
{
    if (!recorder_halts()) {
        if (recorder_is_own_process())
            recorder_wait_no_more();
        record(code, width, address, caller, whole);
        return;
    }
    /* In a child of vfork all memory is its parent's, which has not halted. */
    if (!recorder_is_own_process())
        end_process();
    /* What it records itself comes here again. */
    if (atomic_load(&halting) == this_thread() || show_says_uncounted(caller))
        return;
    bool is_late = recorder_begins_late();
    if (!is_first_to_halt()) {
        halt_wait(false);
        return;
    }
    /* If another thread has begun meanwhile, and goes on, this access was not recorded either. */
    if (is_late ? !recorder_begins_late() || recorder_begin_late() : recorder_begin_for_words())
        record(code, width, address, caller, whole);
    if (show_says_uncounted(caller)) {
        atomic_store(&halting, 0);
        return;
    }
    bool is_left = is_left_to_run();
    int patience_ms, words = ask_for_words(is_left, &patience_ms);
    side_note_halted(is_left ? HALTED_UNSAID : words >= 0 ? HALTED_AND_ASKS : HALTED_AND_SAID);
    recorder_finish(FINISH_CLOSED);
    if (words >= 0)
        stream_hang_up(); /* a copy of the trace is whole at its end */
    const struct told told = record_told(code, width, address, caller, whole);
    bool is_printed = side_is_at_exit() && (print_words(words, patience_ms) || is_left);
    if (!is_printed)
        halt_report(&told);
    if (is_telling())
        above.tell(&told);
    halt_is_first_crash();
    halt_call_back();
    end_process();
}

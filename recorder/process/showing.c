/* `places` has the call sites that were shown, as a hash table; `showing` is the thread that shows one. A run that does
   not answer is asked no more. In a process that halts `places` has the faults that do not count instead. */
#define _GNU_SOURCE
#include "process/showing.h"

#include <errno.h>
#include <limits.h>
#include <signal.h>
#include <sys/stat.h>
#include <unistd.h>

#include "base/digits.h"
#include "base/disturbance.h"
#include "base/platform.h"
#include "base/self.h"
#include "base/system.h"
#include "common/hub_name.h"
#include "environment/asan_options.h"
#include "environment/asking.h"
#include "environment/hub_names.h"
#include "environment/settings.h"
#include "process/halt_wait.h"
#include "stacks/unwinding.h"
#include "stream/faults.h"
#include "stream/sending.h"
#include "stream/side.h"
#include "stream/state.h"

/* How long a report is waited for; the first one starts asancol-report. And how many waits may fail in a row. A process
   that halts ends at the first failure, so it waits longer. */
enum { PATIENCE_MS = 300, FIRST_PATIENCE_MS = 2000, MOST_FAILURES = 3, HALT_PATIENCE_MS = 10000 };
/* The most that are shown of a process; the text of a run has no more either. */
enum { MOST_SHOWN = 50 };

enum { PLACES = 1 << 10 };
static _Atomic uint64_t places[PLACES]; /* 0: a free one */
static _Atomic uint32_t showing;        /* the number of a thread; 0: none */
static _Atomic unsigned shown, failures;

static const struct settings *settings; /* written with the flag, before there is another thread */

static bool halts(void)
{
    return settings->halt != HALT_NEVER;
}

void show_begin(const struct settings *of_process)
{
    settings = of_process;
    bool is_wanted = is_hub() && (halts() || (settings->is_live && asan_options_log()[0] == 0));
    for (size_t i = 0; is_wanted && i < PLACES; i++)
        atomic_store_explicit(&places[i], 0, memory_order_relaxed);
    atomic_store(&showing, 0);
    atomic_store(&shown, 0);
    atomic_store(&failures, 0);
    atomic_store(&showing_is_on, is_wanted);
}

/* What tells places apart, which is not 0. */
static uint64_t key_of(const struct told *told)
{
    uint64_t kind = told->event != 0 ? (uint64_t)told->code << 8 : (uint64_t)told->finding;
    return (((uint64_t)told->caller << 16 | kind) * 0x9e3779b97f4a7c15) | 1;
}

/* Where a key stands, or would stand; PLACES: there is no room. */
static size_t find(uint64_t key)
{
    for (size_t i = 0; i < PLACES; i++) {
        size_t at = ((key >> 32) + i) % PLACES;
        uint64_t seen = atomic_load_explicit(&places[at], memory_order_relaxed);
        if (seen == 0 || seen == key)
            return at;
    }
    return PLACES;
}

/* Answers whether it was not there. */
static bool add(uint64_t key)
{
    for (;;) {
        size_t at = find(key);
        uint64_t none = 0;
        if (at == PLACES || atomic_load(&places[at]) == key)
            return false;
        if (atomic_compare_exchange_strong(&places[at], &none, key))
            return true;
    }
}

/* Of /dev/null: the numbers 1 and 3. */
enum { NULL_DEVICE = 1 << 8 | 3 };

/* Whether somebody may read what goes there. */
static bool has_reader(struct stat *file)
{
    bool is_open = system_fstat(STDERR_FILENO, file) == 0;
    return is_open && !(S_ISCHR(file->st_mode) && file->st_rdev == NULL_DEVICE);
}

/* Whether it has interrupted something, for which others may wait. */
static bool is_in_handler(void)
{
    uintptr_t stored;
    return unwind_to_handlers((uintptr_t)__builtin_frame_address(0), &stored, 1) != 0;
}

static int64_t clock_ms(void)
{
    struct timespec now = {0};
    system_clock_gettime(CLOCK_MONOTONIC, &now);
    return (int64_t)now.tv_sec * 1000 + (int64_t)now.tv_nsec / 1000000;
}

/* Waits until the descriptor is ready for this. False: the time is over. */
static bool wait_for(int descriptor, short what, int64_t until)
{
    struct pollfd one = {descriptor, what, 0};
    for (int left; (left = (int)(until - clock_ms())) > 0;) {
        int count = system_poll(&one, 1, left);
        if (count != 0 && count != -EINTR)
            return count > 0;
    }
    return false;
}

/* Writes what a pipe with room takes at once: a reader that sleeps holds nobody up. */
static bool print(const char *bytes, size_t length, int64_t until)
{
    while (length > 0) {
        if (!wait_for(STDERR_FILENO, POLLOUT, until))
            return false;
        ssize_t count = system_write(STDERR_FILENO, bytes, length);
        if (count == -EINTR || count == -EAGAIN)
            continue;
        if (count <= 0) {
            signal_take_away(count == -EPIPE ? SIGPIPE : SIGXFSZ);
            return false;
        }
        bytes += count;
        length -= (size_t)count;
    }
    return true;
}

/* Prints the words that come over a connection, and says so. There may be none. False: there was no time for that. */
static bool print_words(int connection, int64_t until)
{
    static char bytes[PIPE_BUF];
    bool is_printed = false;
    for (;;) {
        if (!wait_for(connection, POLLIN, until))
            return false;
        ssize_t count = system_read(connection, bytes, sizeof bytes);
        if (count == -EAGAIN || count == -EINTR)
            continue;
        if (count < 0)
            return false;
        if (count == 0)
            break;
        is_printed = print(bytes, (size_t)count, until);
        if (!is_printed)
            return false;
    }
    if (is_printed)
        system_send(connection, "+", 1, MSG_NOSIGNAL | MSG_DONTWAIT);
    return true;
}

/* "show", and in a second line the event, the finding, and the file; or of a process that halts zeros. */
static void put_request(struct joined *request, const struct told *told, const struct stat *file)
{
    const uint64_t numbers[] = {told->event, told->entry, file != NULL ? file->st_dev : 0,
                                file != NULL ? file->st_ino : 0};
    joined_add(request, ASK_SHOW "\n", sizeof ASK_SHOW + 1);
    for (size_t i = 0; i < sizeof numbers / sizeof *numbers; i++) {
        char digits[DIGITS_ROOM];
        joined_add(request, put_digits(digits + sizeof digits, numbers[i], 1), sizeof digits);
        joined_add(request, " ", 1);
    }
}

/* Sends the question, and all that the answer needs. Answers the connection, or a number below zero. */
static int ask_about(const struct told *told, const struct stat *file, int *patience_ms)
{
    char text[ASK_MOST];
    struct joined request = {.text = text, .room = sizeof text};
    put_request(&request, told, file);
    if (*patience_ms <= 0 || !stream_send_events(told->event, patience_ms))
        return -1;
    const char *hub = settings->hub != NULL ? settings->hub : settings->passed_over;
    return ask_begin(hub, text, true, patience_ms);
}

/* Asks for the words, and prints them. False: that has failed. */
static bool show(const struct told *told, const struct stat *file, int64_t until)
{
    int patience_ms = (int)(until - clock_ms()), connection = ask_about(told, file, &patience_ms);
    if (connection < 0)
        return false;
    bool is_done = print_words(connection, until);
    system_close(connection);
    return is_done;
}

/* Waits for its turn. False: another thread shows a report all the time. */
static bool take_turn(int64_t until)
{
    for (;;) {
        uint32_t none = 0;
        if (atomic_compare_exchange_strong(&showing, &none, (uint32_t)system_gettid()))
            return true;
        if (clock_ms() >= until)
            return false;
        system_poll(NULL, 0, 1);
    }
}

static bool is_known(uint64_t key)
{
    size_t at = find(key);
    return at < PLACES && atomic_load_explicit(&places[at], memory_order_relaxed) == key;
}

/* Where this thread has met the last fault that does not count, until it was asked for; 0: it has met none. */
static _Thread_local uintptr_t uncounted;

/* The answer has a byte if the run says so. Signals come through while it is waited for. */
static bool does_not_count(const struct told *told)
{
    char answer;
    struct disturbance before;
    int patience_ms = HALT_PATIENCE_MS;
    undisturbed_begin(&before);
    int connection = ask_about(told, NULL, &patience_ms);
    undisturbed_end(&before);
    bool is_answered = connection >= 0 && ask_read(connection, &answer, 1, &patience_ms) == 1;
    if (connection >= 0)
        system_close(connection);
    return is_answered;
}

/* A process that halts asks whether it may go on. */
static void judge(const struct told *told)
{
    int error = errno;
    uint64_t key = told->event != 0 ? fault_key(told->event) : 0;
    uncounted = 0;
    if (key == 0 || !recorder_is_own_process())
        return;
    bool may_go_on = is_known(key);
    if (!may_go_on) {
        halt_wait(true);
        may_go_on = does_not_count(told);
        halt_wait(!may_go_on);
    }
    if (may_go_on)
        add(key);
    uncounted = may_go_on ? told->caller : 0;
    errno = error;
}

bool show_says_uncounted(uintptr_t caller)
{
    bool is_so = uncounted != 0 && uncounted == caller;
    uncounted = 0;
    return is_so;
}

void show_report(const struct told *told)
{
    struct stat file;
    struct disturbance before;
    uint64_t key = key_of(told);
    if (halts()) {
        judge(told);
        return;
    }
    if (told->event == 0 && told->entry == 0)
        return;
    if (is_known(key) || !recorder_is_own_process() || !add(key))
        return;
    int error = errno;
    int64_t until = clock_ms() + (atomic_load(&shown) == 0 ? FIRST_PATIENCE_MS : PATIENCE_MS);
    undisturbed_begin(&before);
    if (has_reader(&file) && !is_in_handler() && take_turn(until)) {
        bool is_done = show(told, &file, until);
        atomic_store(&failures, is_done ? 0 : atomic_load(&failures) + 1);
        if (atomic_fetch_add(&shown, 1) + 1 >= MOST_SHOWN || atomic_load(&failures) >= MOST_FAILURES)
            atomic_store(&showing_is_on, false);
        atomic_store(&showing, 0);
    }
    undisturbed_end(&before);
    errno = error;
}

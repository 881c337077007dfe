/* Four threads write into one stream: to a file, to a socket, and to files of a segment each. The output has all
   records of each thread in their order, and a close. The accesses among them go the way of compiled code. */
#define _GNU_SOURCE
#include <pthread.h>
#include <stdio.h>
#include <stdlib.h>
#include <string.h>
#include <sys/socket.h>
#include <sys/un.h>
#include <unistd.h>

#include "base/disturbance.h"
#include "base/say.h"
#include "base/self.h"
#include "libc/library.h"
#include "environment/stale_trace.h"
#include "environment/other_threads.h"
#include "environment/hub_word.h"
#include "environment/hub_folder.h"
#include "stream/own_place.h"
#include "stream/ending.h"
#include "stream/faults.h"
#include "stream/findings.h"
#include "stream/keeping.h"
#include "stream/opening.h"
#include "stream/record.h"
#include "stream/regions.h"
#include "stream/sending.h"
#include "stream/side.h"

enum { THREADS = 4, RECORDS = 40000, LIMIT = 30000 };

/* What the other parts of the recorder would do. */

void faults_begin(unsigned char *bytes, unsigned window) { (void)bytes, (void)window; }
uint32_t fault_of(unsigned window, struct access *access, unsigned width, uint64_t address)
{
    (void)window, (void)access, (void)width, (void)address;
    return 0;
}
void fault_note(unsigned window, uint32_t entry, uint64_t event) { (void)window, (void)entry, (void)event; }
static int read_clock(int clock, struct timespec *now) { return clock_gettime(clock, now); }
static const char is_alone = 0;
struct library library = {.clock_gettime = read_clock, .__libc_single_threaded = &is_alone};
bool has_other_threads(void) { return false; }
static void do_nothing(void) {}
static bool is_not(void) { return false; }
static void snapshot(uint64_t most_held, uint64_t room) { (void)most_held, (void)room; }
static void hold(uint64_t bytes) { (void)bytes; }
const struct above above = {
    .lock_heap = do_nothing,
    .unlock_heap = do_nothing,
    .is_in_heap = is_not,
    .snapshot = snapshot,
    .hold = hold,
};
bool recorder_has_checks(void) { return true; }
bool recorder_has_begun(void) { return true; }
bool recorder_is_own_process(void) { return true; }
void fault_begin(unsigned window) { (void)window; }
void fault_end(unsigned window) { (void)window; }
bool is_of_earlier_run(const char *path) { return path == NULL; }
unsigned side_open_files(int files[SIDE_FILES]) { return files == NULL; }
void side_begin(unsigned char *bytes, uint64_t segment, const struct settings *settings)
{
    (void)bytes, (void)segment, (void)settings;
}
_Atomic uint64_t *side_begin_calls(bool for_start) { return for_start ? NULL : NULL; }
void side_end_calls(_Atomic uint64_t *calls) { (void)calls; }
void side_forget(void) {}
void side_note_snapshot(uint64_t events) { (void)events; }
void side_note_closed_off(void) {}
void side_note_left_good(void) {}
void side_note_finding_lost(void) {}
void finding_note_call(const struct wrong_call *wrong)
{
    (void)wrong;
}
void side_note_skipped(uint64_t what) { (void)what; }
void side_note_stated(uint64_t events)
{
    (void)events;
}
void side_note_ending(enum ending ending, int number, uint64_t events) { (void)ending, (void)number, (void)events; }
void side_note_late_signal(int number) { (void)number; }
void side_note_left_out(void) {}
void side_note_needed(uint64_t event) { (void)event; }
void side_write_modules(void) {}
void side_end_modules(uint64_t generation)
{
    (void)generation;
}
void signal_take_away(int number) { (void)number; }
void undisturbed_begin(struct disturbance *before) { (void)before; }
void undisturbed_end(const struct disturbance *before) { (void)before; }
void hub_word_note(const char *hub, const char *why) { (void)hub, (void)why; }
bool own_place_is_at(const unsigned char *address, uint64_t cursor) { return address == NULL && cursor == 0; }
void hub_folder_keep(const char *hub) { (void)hub; }
int hub_folder_connect(int socket, const char *name, int *patience_ms) { return (void)name, -socket - *patience_ms; }
int self_process(void) { return 1; }
bool side_has_news(void) { return true; }
void recorder_say(const char *what, const char *of, const char *why)
{
    if (strstr(what, "left out") == NULL)
        fprintf(stderr, "%s%s: %s\n", what, of, why);
}

static void expect(bool holds, const char *what)
{
    if (holds)
        return;
    fprintf(stderr, "not as it should be: %s\n", what);
    exit(1);
}

static void write_access(uint64_t address)
{
    uint64_t cursor = stream_take(&STREAM->cursor, CURSOR_EVENT + ACCESS_LENGTH);
    if (stream_is_unusual(cursor, ACCESS_LENGTH))
        record_access_slowly(cursor, CODE_STORE | 8 << 8, address);
    else
        put_access(STREAM->bytes + (uint32_t)cursor, CODE_STORE | 8 << 8, address);
}

/* Mallocs, frees and accesses whose addresses say the thread, and which of its records it is. */
static void *write_records(void *number)
{
    uint64_t first = (uint64_t)(uintptr_t)number << 32;
    for (uint64_t i = 0; i < RECORDS; i++) {
        if (i % 3 == 0)
            record_region(CODE_MALLOC, first + i, 8);
        else if (i % 3 == 1)
            record_free(first + i);
        else
            write_access(first + i);
        if (i % 16 == 0)
            stream_look_at_clock(i % 64 == 0);
    }
    return NULL;
}

static void write_all(const struct settings *settings)
{
    pthread_t threads[THREADS];
    expect(stream_begin(settings), "the beginning");
    for (uintptr_t i = 0; i < THREADS; i++)
        expect(pthread_create(&threads[i], NULL, write_records, (void *)i) == 0, "a thread");
    for (int i = 0; i < THREADS; i++)
        pthread_join(threads[i], NULL);
    stream_end(FINISH_CLOSED, ENDING_EXIT, 0);
    stream_say_left_out();
}

/* Of each thread, which record comes next. */
static uint64_t next[THREADS];

/* Looks at a trace that is closed: each record is whole, and those of a thread are in order. Answers how many there
   are. */
static uint64_t look_at(const unsigned char *bytes, size_t size)
{
    uint64_t count = 0;
    size_t at = HEADER_LENGTH;
    expect(size > HEADER_LENGTH && memcmp(bytes, HEADER, HEADER_LENGTH) == 0, "the header");
    for (; at < size && bytes[at] != CODE_CLOSE; at += record_length(bytes[at]), count++) {
        uint64_t address;
        expect(record_length(bytes[at]) != 0 && at + record_length(bytes[at]) <= size, "a record");
        memcpy(&address, bytes + at + (bytes[at] == CODE_STORE ? 2 : 1), sizeof address);
        expect(address >> 32 < THREADS && (address & UINT32_MAX) == next[address >> 32], "the order of a thread");
        next[address >> 32]++;
    }
    expect(at + CLOSE_LENGTH == size, "the close");
    return count;
}

static uint64_t look_at_file(const char *path)
{
    unsigned char *bytes = malloc(MAX_STREAM_SIZE);
    FILE *file = fopen(path, "rb");
    expect(file != NULL && bytes != NULL, "the file");
    size_t size = fread(bytes, 1, MAX_STREAM_SIZE, file);
    fclose(file);
    unlink(path);
    uint64_t count = look_at(bytes, size);
    free(bytes);
    return count;
}

static void expect_all(uint64_t count)
{
    expect(count == THREADS * RECORDS, "the number of records");
    memset(next, 0, sizeof next);
}

static void check_file(void)
{
    struct settings settings = {.trace = "threads.trace", .limit = EVENT_LIMIT, .is_full = true};
    write_all(&settings);
    expect_all(look_at_file(settings.trace));
}

static void check_segments(void)
{
    struct settings settings = {.trace = "threads.trace", .limit = LIMIT, .segments = MAX_SEGMENTS_KEPT,
                                .is_full = true};
    char path[64];
    write_all(&settings);
    uint64_t count = look_at_file(settings.trace);
    for (int segment = 2; count < THREADS * RECORDS; segment++) {
        snprintf(path, sizeof path, "threads.segment-%03d.trace", segment);
        count += look_at_file(path);
    }
    expect_all(count);
}

static struct {
    int listener;
    unsigned char *bytes;
    size_t size;
} reader;

/* Reads what one connection sends. */
static void *read_all(void *nothing)
{
    ssize_t count;
    int connection = accept(reader.listener, NULL, NULL);
    (void)nothing;
    while ((count = read(connection, reader.bytes + reader.size, 50000)) > 0)
        reader.size += (size_t)count;
    close(connection);
    return NULL;
}

static void check_socket(void)
{
    struct settings settings = {.socket = "threads.socket", .limit = EVENT_LIMIT, .patience_ms = 10000};
    struct sockaddr_un name = {.sun_family = AF_UNIX};
    pthread_t thread;
    strcpy(name.sun_path, settings.socket);
    unlink(settings.socket);
    reader.listener = socket(AF_UNIX, SOCK_STREAM, 0);
    reader.bytes = malloc(MAX_STREAM_SIZE);
    expect(bind(reader.listener, (struct sockaddr *)&name, sizeof name) == 0, "the name");
    expect(listen(reader.listener, 1) == 0, "the socket");
    expect(pthread_create(&thread, NULL, read_all, NULL) == 0, "the reader");
    write_all(&settings);
    stream_forget();
    pthread_join(thread, NULL);
    expect_all(look_at(reader.bytes, reader.size));
    free(reader.bytes);
    close(reader.listener);
}

int main(void)
{
    check_file();
    stream_forget();
    check_socket();
    stream_forget();
    check_segments();
    return 0;
}

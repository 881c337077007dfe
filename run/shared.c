/* The small streams that were seen, each with its text once a checker has read it; one batch that waits, of at most 64
   segments; and a list of those that need a checker of their own. */
#define _GNU_SOURCE
#include "shared.h"

#include <errno.h>
#include <fcntl.h>
#include <math.h>
#include <stddef.h>
#include <stdio.h>
#include <stdlib.h>
#include <string.h>
#include <sys/ioctl.h>
#include <sys/mman.h>
#include <sys/socket.h>
#include <sys/stat.h>
#include <unistd.h>

#include "checkers.h"
#include "children.h"
#include "end_line.h"
#include "say.h"

/* The most segments that wait for one checker. It is started if no other one has come for the first number of seconds,
   or the first one has waited for the second. */
enum { MOST_SEGMENTS = 64 };
static const double LULL = 0.1, PATIENCE = 1;
/* The most streams that are kept for later segments. Recorders send two; others come from other programs. */
enum { MOST_KEPT = 16 };

struct small_stream {
    unsigned char bytes[SMALL_STREAM];
    size_t size;
    char *text; /* of a checker that has read it to an end, with its length and its status; or null */
    size_t length;
    int status;
};

struct batch {
    struct segment *segments[MOST_SEGMENTS];
    size_t count;
    struct small_stream *streams[MOST_SEGMENTS]; /* theirs, each once */
    size_t stream_count;
    int verdicts; /* a descriptor */
};

static struct small_stream *kept[MOST_KEPT];
static size_t kept_count;
static struct batch *waiting; /* or null */
static double first_came, last_came;
static struct segment *alone; /* the first that needs a checker of its own; the others by next_waiting */
static struct segment **alone_end = &alone;

void shared_add_alone(struct segment *segment)
{
    segment->is_alone = true;
    segment->stage = STAGE_CONNECTED;
    segment->next_waiting = NULL;
    *alone_end = segment;
    alone_end = &segment->next_waiting;
}

struct segment *shared_next_alone(void)
{
    struct segment *next = alone;
    if (next == NULL)
        return NULL;
    alone = next->next_waiting;
    if (alone == NULL)
        alone_end = &alone;
    return next;
}

static void add_stream(struct batch *batch, struct small_stream *stream)
{
    for (size_t i = 0; i < batch->stream_count; i++)
        if (batch->streams[i] == stream)
            return;
    batch->streams[batch->stream_count++] = stream;
}

static void add_waiting(struct segment *segment)
{
    if (waiting == NULL)
        waiting = must(calloc(1, sizeof *waiting));
    waiting->segments[waiting->count++] = segment;
    add_stream(waiting, segment->small);
    last_came = now();
    if (waiting->count == 1)
        first_came = last_came;
    if (waiting->count == MOST_SEGMENTS)
        shared_start(true);
}

/* The kept one of the same bytes, or a new one. */
static struct small_stream *stream_of(const struct small_stream *seen)
{
    for (size_t i = 0; i < kept_count; i++)
        if (kept[i]->size == seen->size && memcmp(kept[i]->bytes, seen->bytes, seen->size) == 0)
            return kept[i];
    struct small_stream *made = must(malloc(sizeof *made));
    *made = *seen;
    if (kept_count < MOST_KEPT)
        kept[kept_count++] = made;
    return made;
}

bool shared_take(struct segment *segment)
{
    struct small_stream seen = {.size = 0};
    int size = 0;
    if (ioctl(segment->connection, FIONREAD, &size) != 0 || size > SMALL_STREAM)
        return false;
    while (seen.size < (size_t)size) {
        ssize_t got = recv(segment->connection, seen.bytes + seen.size, (size_t)size - seen.size, MSG_DONTWAIT);
        if (got == 0 || (got < 0 && errno != EINTR))
            break;
        seen.size += got > 0 ? (size_t)got : 0;
    }
    close(segment->connection);
    segment->connection = -1;
    struct small_stream *stream = segment->small = stream_of(&seen);
    if (stream->text == NULL || !checker_take_text(segment, stream->text, stream->length, stream->status))
        add_waiting(segment);
    return true;
}

int shared_open(const struct small_stream *stream)
{
    int ends[2];
    if (pipe2(ends, O_CLOEXEC) != 0)
        return -1;
    bool is_written = write(ends[1], stream->bytes, stream->size) == (ssize_t)stream->size;
    int error = errno;
    close(ends[1]);
    if (is_written)
        return ends[0];
    close(ends[0]);
    errno = error;
    return -1;
}

double shared_due(void)
{
    if (waiting == NULL)
        return INFINITY;
    return last_came + LULL < first_came + PATIENCE ? last_came + LULL : first_came + PATIENCE;
}

/* Starts a checker of these inputs, for a batch. */
static bool start_over(struct batch *batch, const int *inputs)
{
    static char names[MOST_SEGMENTS][sizeof "/proc/self/fd/" + 10];
    struct strings argv = checkers_words();
    for (size_t i = 0; i < batch->stream_count; i++) {
        snprintf(names[i], sizeof names[i], "/proc/self/fd/%d", inputs[i]);
        strings_add(&argv, names[i]);
    }
    const struct start start = {
        .role = ROLE_SHARED,
        .owner = batch,
        .program = checkers_program(),
        .argv = argv.items,
        .input = inputs[0],
        .output = batch->verdicts,
        .passed = inputs,
        .passed_count = batch->stream_count,
    };
    bool is_started = child_start(&start) != 0;
    free(argv.items);
    return is_started;
}

/* Starts the asancol of a batch. False: there are no resources now. */
static bool start(struct batch *batch)
{
    int inputs[MOST_SEGMENTS];
    size_t count = 0;
    while (count < batch->stream_count && (inputs[count] = shared_open(batch->streams[count])) >= 0)
        count++;
    bool is_started = count == batch->stream_count && start_over(batch, inputs);
    while (count > 0)
        close(inputs[--count]);
    return is_started;
}

/* All of them get checkers of their own. */
static void give_up(struct batch *batch)
{
    for (size_t i = 0; i < batch->count; i++)
        shared_add_alone(batch->segments[i]);
    free(batch);
}

void shared_start(bool hurries)
{
    struct batch *batch = waiting;
    if (batch == NULL || (!hurries && now() < shared_due()))
        return;
    waiting = NULL;
    batch->verdicts = memfd_create("verdicts", MFD_CLOEXEC);
    if (batch->verdicts < 0) {
        give_up(batch);
    } else if (!start(batch)) {
        close(batch->verdicts);
        give_up(batch);
    } else {
        for (size_t i = 0; i < batch->count; i++)
            batch->segments[i]->stage = STAGE_CHECKED;
    }
}

/* All that was printed, with a zero at the end. */
static char *read_all(int verdicts)
{
    struct stat seen;
    size_t size = fstat(verdicts, &seen) == 0 ? (size_t)seen.st_size : 0;
    char *text = must(malloc(size + 1));
    ssize_t length = pread(verdicts, text, size, 0);
    text[length > 0 ? length : 0] = 0;
    return text;
}

/* Goes on behind the lines of a stream, and answers them as its own checker would have printed them. */
static char *take_lines(const char **at, size_t number, size_t *length)
{
    char prefix[24], *text;
    const char *line_end;
    size_t skipped = (size_t)snprintf(prefix, sizeof prefix, "p%zu ", number);
    FILE *to = must(open_memstream(&text, length));
    while (strncmp(*at, prefix, skipped) == 0 && (line_end = strchr(*at, '\n')) != NULL) {
        fprintf(to, "p0 %.*s\n", (int)(line_end - *at - (ptrdiff_t)skipped), *at + skipped);
        *at = line_end + 1;
    }
    if (fclose(to) != 0)
        must(NULL);
    return text;
}

/* Whether a stream was read to an end, as those end that are taken here. */
static bool is_read(const char *text, size_t length)
{
    struct end_line end;
    return end_line_of(text, length, &end) && (strcmp(end.fate, "closed") == 0 || strcmp(end.fate, "no-close") == 0);
}

/* Keeps what a checker has printed of each stream that it has read to an end. */
static void take_texts(struct batch *batch, int status)
{
    char *all = read_all(batch->verdicts);
    const char *at = all;
    for (size_t i = 0; i < batch->stream_count; i++) {
        struct small_stream *stream = batch->streams[i];
        size_t length;
        char *text = take_lines(&at, i, &length);
        if (stream->text == NULL && is_read(text, length)) {
            stream->text = text;
            stream->length = length;
            stream->status = status;
        } else {
            free(text);
        }
    }
    free(all);
}

void shared_has_ended(void *ended, int status)
{
    struct batch *batch = ended;
    take_texts(batch, status);
    close(batch->verdicts);
    for (size_t i = 0; i < batch->count; i++) {
        struct segment *segment = batch->segments[i];
        const struct small_stream *stream = segment->small;
        if (stream->text == NULL || !checker_take_text(segment, stream->text, stream->length, stream->status))
            shared_add_alone(segment);
    }
    free(batch);
}

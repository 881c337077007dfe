/* A fake of asancol for the tests of the C programs: no proof stands behind it, and it needs only a C compiler. Of a
   trace it prints what asancol prints, by docs/FORMAT.md and docs/inside/MODEL.md; tests/fuzz.py compares it, as
   asancol, with oracle.py. It reads one stream after another, and is lax with its command line.

   usage: fake-asancol < TRACE
          fake-asancol check [--limit L] [--quarantine B] [--memory B] [--live] FILE..
          fake-asancol serve --count N [--ready FILE] [these options] SOCKET */
#define _GNU_SOURCE /* accept4, tdestroy */
#include <errno.h>
#include <fcntl.h>
#include <inttypes.h>
#include <search.h>
#include <stdarg.h>
#include <stdbool.h>
#include <stdio.h>
#include <stdlib.h>
#include <string.h>
#include <sys/socket.h>
#include <sys/un.h>
#include <unistd.h>

#include "common/format.h"

enum { STATUS_CLEAN, STATUS_REPORTS, STATUS_REFUSED, STATUS_NOT_CHECKED, STATUS_NOT_PRINTED };
enum { MAX_STREAMS = 256 };

/* Of the header; and what version 1 has otherwise than format.h. */
enum { VERSION_AT = 4, NEWEST_VERSION = 3 };
#define MAX_REGION_SIZE_1 ((uint64_t)1 << 28)

static void *must(void *memory)
{
    if (memory == NULL) {
        fputs("fake-asancol: no memory\n", stderr);
        exit(STATUS_NOT_CHECKED);
    }
    return memory;
}

/* The bytes that a checker holds, and how many it may. The event that comes to that bound is the last one. */
static struct {
    size_t held, bound;
} memory = {.bound = SIZE_MAX};

static void *make(size_t size)
{
    memory.held += size;
    return must(calloc(1, size));
}

static void unmake(void *made, size_t size)
{
    memory.held -= made == NULL ? 0 : size;
    free(made);
}

/* The shadow: a byte for each granule, in leaves of 2^12 bytes, whose places are in branches of 2^14. A leaf that is
   not there has zeros. One whose bytes are all alike can be shared. */

enum { FREED = 0xfd, HEAP_REDZONE = 0xfa };
enum { LEAF_BITS = 12, BRANCH_BITS = 14, ROOT_BITS = 18, LEAF_SIZE = 1 << LEAF_BITS };
enum { BRANCH_SIZE = sizeof(void *) << BRANCH_BITS };

static unsigned char shared[256][LEAF_SIZE];
static unsigned char **root[(1 << ROOT_BITS) + 1]; /* and one for the granule after the last */

/* The branches that are there. */
static struct {
    size_t count;
    uint64_t places[sizeof root / sizeof *root];
} branches;

static unsigned char **leaf_place(uint64_t granule)
{
    uint64_t place = granule >> (LEAF_BITS + BRANCH_BITS);
    unsigned char ***branch = &root[place];
    if (*branch == NULL) {
        *branch = make(BRANCH_SIZE);
        branches.places[branches.count++] = place;
    }
    return &(*branch)[(granule >> LEAF_BITS) % (1 << BRANCH_BITS)];
}

static unsigned char shadow_of(uint64_t granule)
{
    unsigned char **branch = root[granule >> (LEAF_BITS + BRANCH_BITS)];
    unsigned char *leaf = branch == NULL ? NULL : branch[(granule >> LEAF_BITS) % (1 << BRANCH_BITS)];
    return leaf == NULL ? 0 : leaf[granule % LEAF_SIZE];
}

static void let_go(unsigned char *leaf)
{
    if (leaf != NULL && leaf != shared[leaf[0]])
        unmake(leaf, LEAF_SIZE);
}

/* The bytes from first up to end, which are in one leaf. */
static void paint_part(unsigned char **leaf, uint64_t first, uint64_t end, unsigned char byte)
{
    if (*leaf == NULL || *leaf == shared[(*leaf)[0]]) {
        unsigned char *own = make(LEAF_SIZE);
        if (*leaf != NULL)
            memcpy(own, *leaf, LEAF_SIZE);
        *leaf = own;
    }
    memset(*leaf + first % LEAF_SIZE, byte, end - first);
}

static void paint(uint64_t first, uint64_t end, unsigned char byte)
{
    while (first < end) {
        uint64_t next = (first / LEAF_SIZE + 1) * LEAF_SIZE;
        unsigned char **leaf = leaf_place(first);
        if (first % LEAF_SIZE == 0 && next <= end) {
            let_go(*leaf);
            *leaf = memset(shared[byte], byte, LEAF_SIZE);
        } else {
            paint_part(leaf, first, next < end ? next : end, byte);
        }
        first = next;
    }
}

static void clear_shadow(void)
{
    while (branches.count > 0) {
        unsigned char ***branch = &root[branches.places[--branches.count]];
        for (size_t i = 0; i < 1 << BRANCH_BITS; i++)
            let_go((*branch)[i]);
        unmake(*branch, BRANCH_SIZE);
        *branch = NULL;
    }
}

/* How many bytes of a granule are addressable: the first ones. */
static unsigned addressable(unsigned char shadow)
{
    return shadow == 0 ? GRANULE : shadow < GRANULE ? shadow : 0;
}

/* The bytes from start up to end of a granule. */
static void poison_part(uint64_t granule, unsigned start, unsigned end, unsigned char code)
{
    unsigned count = addressable(shadow_of(granule));
    if (start < count && count <= end)
        paint(granule, granule + 1, start == 0 ? code : (unsigned char)start);
}

static void poison(uint64_t at, uint64_t end, unsigned char code)
{
    uint64_t first = at / GRANULE, last = end / GRANULE;
    unsigned from = at % GRANULE, to = end % GRANULE;
    if (first == last) {
        poison_part(first, from, to, code);
        return;
    }
    if (from != 0)
        poison_part(first++, from, GRANULE, code);
    paint(first, last, code);
    poison_part(last, 0, to, code);
}

static void unpoison(uint64_t at, uint64_t end)
{
    uint64_t last = end / GRANULE;
    if (at == end)
        return;
    paint(at / GRANULE, last, 0);
    if (addressable(shadow_of(last)) < end % GRANULE)
        paint(last, last + 1, (unsigned char)(end % GRANULE));
}

/* The blocks that are live or held, by their spans: no two of them have a byte in common, and two that have compare as
   equal. Those that are held are in a queue too. */

struct block {
    uint64_t from, to; /* its span */
    uint64_t at, size;
    bool is_held;
    struct block *next;
};

static struct {
    void *tree;
    struct block *oldest, **end;
    uint64_t bytes, bound;
} blocks;

static int compare(const void *one, const void *other)
{
    const struct block *left = one, *right = other;
    return left->to <= right->from ? -1 : right->to <= left->from;
}

static struct block *find(const struct block *wanted)
{
    struct block **found = tfind(wanted, &blocks.tree, compare);
    return found == NULL ? NULL : *found;
}

static struct block block_of(uint64_t at, uint64_t size)
{
    uint64_t from = at - REDZONE;
    return (struct block){.from = from, .to = from + span_bytes(size), .at = at, .size = size};
}

/* Returns whether a block can be there, and then it is. */
static bool admit(uint64_t at, uint64_t size)
{
    struct block block = block_of(at, size);
    if (at % GRANULE != 0 || at < REDZONE || block.to > ADDRESS_END || find(&block) != NULL)
        return false;
    struct block *kept = make(sizeof *kept);
    *kept = block;
    must(tsearch(kept, &blocks.tree, compare));
    paint(block.from / GRANULE, block.to / GRANULE, HEAP_REDZONE);
    unpoison(at, at + size);
    return true;
}

static void forget(void *block)
{
    unmake(block, sizeof(struct block));
}

static void release_oldest(void)
{
    struct block *block = blocks.oldest;
    blocks.oldest = block->next;
    if (blocks.oldest == NULL)
        blocks.end = &blocks.oldest;
    blocks.bytes -= block->to - block->from;
    paint(block->from / GRANULE, block->to / GRANULE, HEAP_REDZONE);
    tdelete(block, &blocks.tree, compare);
    forget(block);
}

/* Returns the mistake of the free, or NULL. */
static const char *release(uint64_t at)
{
    struct block wanted = {.from = at, .to = at + 1}, *block = find(&wanted);
    if (block == NULL || block->at != at)
        return "bad-free";
    if (block->is_held)
        return "double-free";
    paint(at / GRANULE, (block->to - REDZONE) / GRANULE, FREED);
    block->is_held = true;
    *blocks.end = block;
    blocks.end = &block->next;
    blocks.bytes += block->to - block->from;
    while (blocks.bytes > blocks.bound)
        release_oldest();
    return NULL;
}

static void clear_blocks(void)
{
    tdestroy(blocks.tree, forget);
    blocks.tree = NULL;
    blocks.oldest = NULL;
    blocks.end = &blocks.oldest;
    blocks.bytes = 0;
}

/* The output for a stream. */

static struct {
    uint64_t limit;
    bool is_live;
    bool has_reports, is_incomplete; /* of any stream */
} settings = {.limit = EVENT_LIMIT};

static struct {
    unsigned process;
    uint64_t events, reports;
} now;

__attribute__((format(printf, 1, 2))) static void report(const char *format, ...)
{
    va_list list;
    va_start(list, format);
    printf("p%u #%" PRIu64 " ", now.process, now.events);
    vprintf(format, list);
    putchar('\n');
    va_end(list);
    if (settings.is_live)
        fflush(stdout);
    now.reports++;
}

/* The code of each kind of poison. */
static const unsigned char codes[] = {0xf7, 0xf2, 0xf9};

static const char *class_of(unsigned char shadow)
{
    if (shadow < GRANULE)
        return "unknown-crash";
    if (shadow == HEAP_REDZONE)
        return "heap-buffer-overflow";
    if (shadow == FREED)
        return "heap-use-after-free";
    return shadow == codes[KIND_USER]    ? "use-after-poison"
           : shadow == codes[KIND_STACK] ? "stack-buffer-overflow"
                                         : "global-buffer-overflow";
}

static void check_access(const char *what, uint64_t at, unsigned width)
{
    uint64_t granule = at / GRANULE;
    unsigned char shadow = shadow_of(granule);
    unsigned start = at % GRANULE, end = start + width, count = addressable(shadow);
    if (end > GRANULE)
        end = GRANULE;
    if (end <= count)
        return;
    uint64_t bad = granule * GRANULE + (start > count ? start : count);
    const char *class = class_of(count == 0 ? shadow : shadow_of(granule + 1));
    report("%s %u at %012" PRIx64 " bad %012" PRIx64 " %s shadow %02x", what, width, at, bad, class, shadow);
}

/* The events. */

struct event {
    unsigned code;
    uint64_t at, size; /* or the width */
    unsigned kind;
};

static uint64_t number_at(const unsigned char *bytes)
{
    uint64_t number = 0;
    for (size_t i = sizeof number; i > 0; i--)
        number = number << 8 | bytes[i - 1];
    return number;
}

static struct event event_of(const unsigned char *record, unsigned version)
{
    struct event event = {.code = record[0]};
    bool has_byte = event.code == CODE_LOAD || event.code == CODE_STORE || (event.code == CODE_POISON && version > 1);
    if (event.code == CODE_ANEW)
        return event;
    const unsigned char *numbers = record + (has_byte ? 2 : 1);
    event.at = number_at(numbers);
    if (event.code == CODE_LOAD || event.code == CODE_STORE)
        event.size = record[1];
    else if (event.code != CODE_FREE)
        event.size = number_at(numbers + sizeof event.at);
    if (has_byte && event.code == CODE_POISON)
        event.kind = record[1];
    return event;
}

/* Returns the first flaw of an event, as its fate says it, or NULL. */
static const char *flaw_of(const struct event *event, unsigned version)
{
    uint64_t largest = version == 1 ? MAX_REGION_SIZE_1 : MAX_REGION_SIZE;
    bool is_access = event->code == CODE_LOAD || event->code == CODE_STORE;
    if (is_access && event->size != 1 && event->size != 2 && event->size != 4 && event->size != 8)
        return "malformed width";
    if (event->kind > KIND_GLOBAL)
        return "malformed kind";
    if (event->size > largest)
        return "malformed size";
    if (event->at > ADDRESS_END - event->size || (event->code == CODE_FREE && event->at == ADDRESS_END))
        return "malformed range";
    return NULL;
}

static void begin_anew(void)
{
    if (memory.held == 0)
        return;
    clear_blocks();
    clear_shadow();
}

static void check(const struct event *event)
{
    const char *wrong = NULL;
    now.events++;
    if (event->code == CODE_LOAD || event->code == CODE_STORE)
        check_access(event->code == CODE_LOAD ? "load" : "store", event->at, (unsigned)event->size);
    else if (event->code == CODE_POISON)
        poison(event->at, event->at + event->size, codes[event->kind]);
    else if (event->code == CODE_UNPOISON)
        unpoison(event->at, event->at + event->size);
    else if (event->code == CODE_ANEW)
        begin_anew();
    else if (event->at == 0)
        return;
    else if (event->code == CODE_MALLOC && !admit(event->at, event->size))
        report("malloc %" PRIu64 " at %012" PRIx64 " bad-malloc", event->size, event->at);
    else if (event->code == CODE_FREE && (wrong = release(event->at)) != NULL)
        report("free at %012" PRIx64 " %s", event->at, wrong);
}

/* A stream, which is read by as much as may come at once where messages are kept apart. */

enum { PIECE = 4096 };

struct input {
    int descriptor;
    bool has_failed;
    size_t at, count;
    unsigned char bytes[POISON_LENGTH + PIECE];
};

/* Returns whether this many bytes are there, after the next read if need be. */
static bool has(struct input *input, size_t count)
{
    while (input->count - input->at < count) {
        input->count -= input->at;
        memmove(input->bytes, input->bytes + input->at, input->count);
        input->at = 0;
        ssize_t got = read(input->descriptor, input->bytes + input->count, PIECE);
        if (got < 0 && errno == EINTR)
            continue;
        input->has_failed = got < 0;
        if (got <= 0)
            return false;
        input->count += (size_t)got;
    }
    return true;
}

static unsigned length_of(unsigned char code, unsigned version)
{
    if (code == CODE_ANEW && version < 3)
        return 0;
    return code == CODE_POISON && version == 1 ? REGION_LENGTH : record_length(code);
}

static const char no_memory[] = "no-memory";

/* Checks the record that comes next. Returns the fate of the stream if that is its end, or NULL. */
static const char *next_record(struct input *input, unsigned version, uint64_t *offset)
{
    if (!has(input, 1))
        return "no-close";
    unsigned char code = input->bytes[input->at];
    if (code == CODE_CLOSE) {
        ++*offset;
        return "closed";
    }
    if (now.events == settings.limit)
        return "too-many";
    unsigned length = length_of(code, version);
    if (length == 0)
        return "malformed code";
    if (!has(input, length))
        return "truncated";
    struct event event = event_of(input->bytes + input->at, version);
    const char *flaw = flaw_of(&event, version);
    if (flaw == NULL) {
        check(&event);
        input->at += length;
        *offset += length;
    }
    return memory.held > memory.bound ? no_memory : flaw;
}

static const char *read_stream(struct input *input, uint64_t *offset)
{
    static const char header[] = HEADER;
    const char *fate = NULL;
    if (!has(input, HEADER_LENGTH))
        return input->has_failed ? "read-failed" : "truncated";
    unsigned version = input->bytes[VERSION_AT];
    input->bytes[VERSION_AT] = (unsigned char)header[VERSION_AT];
    if (memcmp(input->bytes, header, HEADER_LENGTH) != 0 || version < 1 || version > NEWEST_VERSION)
        return "malformed header";
    input->at = *offset = HEADER_LENGTH;
    while (fate == NULL)
        fate = next_record(input, version, offset);
    return input->has_failed ? "read-failed" : fate;
}

/* Prints the lines of a stream, except the last one, which it returns. */
static char *check_stream(unsigned process, int descriptor)
{
    struct input input = {.descriptor = descriptor};
    uint64_t offset = 0;
    char end[160];
    now.process = process;
    now.events = now.reports = 0;
    if (descriptor < 0) {
        settings.is_incomplete = true;
        snprintf(end, sizeof end, "p%u end not-opened\n", process);
        return must(strdup(end));
    }
    clear_blocks();
    const char *fate = read_stream(&input, &offset);
    close(descriptor);
    clear_shadow();
    settings.has_reports |= now.reports > 0;
    settings.is_incomplete |= strcmp(fate, "closed") != 0;
    if (fate == no_memory) /* the event that took too much was not checked */
        snprintf(end, sizeof end, "p%u end %s checked %" PRIu64 " reports %" PRIu64 "\n", process, fate,
                 now.events - 1, now.reports);
    else
        snprintf(end, sizeof end, "p%u end %s events %" PRIu64 " offset %" PRIu64 " reports %" PRIu64 "\n", process,
                 fate, now.events, offset, now.reports);
    return must(strdup(end));
}

/* Checks the streams that `open_next` opens, and returns the status. */
static int check_streams(unsigned count, int (*open_next)(const void *, unsigned), const void *from)
{
    char *ends[MAX_STREAMS];
    for (unsigned i = 0; i < count; i++) {
        ends[i] = check_stream(i, open_next(from, i));
        if (!settings.is_live)
            fputs(ends[i], stdout);
    }
    for (unsigned i = 0; i < count; i++) {
        if (settings.is_live)
            fputs(ends[i], stdout);
        free(ends[i]);
    }
    if (fflush(stdout) != 0 || ferror(stdout))
        return STATUS_NOT_PRINTED;
    return settings.is_incomplete ? STATUS_NOT_CHECKED : settings.has_reports ? STATUS_REPORTS : STATUS_CLEAN;
}

static int open_file(const void *from, unsigned i)
{
    const char *name = ((char *const *)from)[i];
    return strcmp(name, "-") == 0 ? STDIN_FILENO : open(name, O_RDONLY | O_CLOEXEC);
}

static int connection(const void *from, unsigned i)
{
    return ((const int *)from)[i];
}

static int refuse(const char *what)
{
    fprintf(stderr, "error: %s: fake-asancol does not take it\n", what);
    return STATUS_REFUSED;
}

static int serve(const char *path, unsigned count, const char *ready)
{
    static int connections[MAX_STREAMS];
    struct sockaddr_un address = {.sun_family = AF_UNIX};
    int door = socket(AF_UNIX, SOCK_STREAM | SOCK_CLOEXEC, 0);
    if (strlen(path) >= sizeof address.sun_path)
        return refuse(path);
    strcpy(address.sun_path, path);
    if (bind(door, (struct sockaddr *)&address, sizeof address) != 0 || listen(door, MAX_STREAMS) != 0)
        return refuse(path);
    if (ready != NULL)
        close(open(ready, O_WRONLY | O_CREAT | O_TRUNC | O_CLOEXEC, 0666));
    for (unsigned i = 0; i < count; i++)
        connections[i] = accept4(door, NULL, NULL, SOCK_CLOEXEC);
    close(door);
    return check_streams(count, connection, connections);
}

/* What the command line asks for, beside the settings. */
struct request {
    uint64_t count;
    const char *ready;
};

/* Takes an option, as --name VALUE or --name=VALUE, and moves past it. Returns whether there is such a one. */
static bool take_option(char ***argv, struct request *request)
{
    char *name = *(*argv)++, *value = strchr(name, '=');
    if (strcmp(name, "--live") == 0) {
        settings.is_live = true;
        return true;
    }
    if (value != NULL)
        *value++ = 0;
    else if (**argv != NULL)
        value = *(*argv)++;
    else
        return false;
    uint64_t number = strtoull(value, NULL, 10);
    if (strcmp(name, "--limit") == 0)
        settings.limit = number;
    else if (strcmp(name, "--quarantine") == 0)
        blocks.bound = number;
    else if (strcmp(name, "--memory") == 0)
        memory.bound = number;
    else if (strcmp(name, "--count") == 0)
        request->count = number;
    else if (strcmp(name, "--ready") == 0)
        request->ready = value;
    else /* these change nothing here */
        return strcmp(name, "--ring") == 0 || strcmp(name, "--workers") == 0;
    return true;
}

int main(int count, char **argv)
{
    static char *input[] = {"-"};
    struct request request = {0};
    char **names = argv + 1;
    blocks.bound = QUARANTINE_BOUND;
    if (count == 1)
        return check_streams(1, open_file, input);
    bool serves = strcmp(argv[1], "serve") == 0;
    if (!serves && strcmp(argv[1], "check") != 0)
        return refuse(argv[1]);
    for (char **rest = argv + 2; *rest != NULL;) {
        char *word = *rest;
        if (strncmp(word, "--", 2) != 0)
            *names++ = *rest++;
        else if (!take_option(&rest, &request))
            return refuse(word);
    }
    size_t named = (size_t)(names - argv) - 1;
    if (named == 0 || named > MAX_STREAMS || request.count > MAX_STREAMS || serves != (request.count > 0))
        return refuse(serves ? "serve" : "check");
    return serves ? serve(argv[1], (unsigned)request.count, request.ready)
                  : check_streams((unsigned)named, open_file, argv + 1);
}

/* A queue of messages, of which most have no text until they are sent: text and descriptors are a parcel. `raw` has the
   first lines of 20 processes, if asancol-report cannot run. */
#define _GNU_SOURCE
#include "report.h"

#include <errno.h>
#include <fcntl.h>
#include <inttypes.h>
#include <limits.h>
#include <signal.h>
#include <stdio.h>
#include <stdlib.h>
#include <string.h>
#include <sys/socket.h>
#include <sys/wait.h>
#include <time.h>
#include <unistd.h>

#include "asking.h"
#include "children.h"
#include "hub.h"
#include "json.h"
#include "names.h"
#include "nested.h"
#include "say.h"
#include "segments.h"
#include "texts.h"
#include "unchecked.h"
#include "verdict.h"

/* A packet has at most 65,536 bytes. So much of it may be the arguments of the command. */
enum { MAX_RUN_ARGV = 40000, MAX_PROCESS_ARGV = 24000, MAX_ARGUMENTS = 1000, MAX_LINES = 6000 };
/* The verdicts, the side memory, files of modules, and a process that waits for its words. */
enum { MOST_DESCRIPTORS = 3 + SIDE_FILES };
/* The lines printed if asancol-report cannot run. */
enum { RAW_PROCESSES = 20, RAW_LINES = 20, RAW_BYTES = 8192 };

/* The messages. Most of them only say what a process has come to, and most runs send none: the text of such a one is
   made when it is sent, from the data at that time. */
struct parcel {
    char *text;
    size_t length;
    int descriptors[MOST_DESCRIPTORS], count;
};

struct message {
    struct message *next;
    struct process *process; /* of which it speaks, if it has no parcel yet */
    struct parcel *parcel;   /* or null */
};

static struct {
    struct message *first, **last;
    size_t held;
    struct strings argv;
    const struct options *options;
    int socket; /* -1: not started, or gone */
    pid_t child;
    bool was_started, had_child, is_broken, has_ended, is_over;
    int status;
} report = {.socket = -1};

static struct {
    char *texts[RAW_PROCESSES];
    uint64_t left_out[RAW_PROCESSES]; /* lines */
    uint64_t findings[RAW_PROCESSES]; /* which have no line */
    int numbers[RAW_PROCESSES];
    char segments[RAW_PROCESSES][32]; /* which one it is of, in words, if there are several */
    const char *names[RAW_PROCESSES];
    const struct process *processes[RAW_PROCESSES];
    size_t count, more;
} raw;

static void drop(struct message *message)
{
    struct parcel *parcel = message->parcel;
    for (int i = 0; parcel != NULL && i < parcel->count; i++)
        close(parcel->descriptors[i]);
    report.held -= parcel != NULL ? (size_t)parcel->count : 0;
    if (parcel != NULL)
        free(parcel->text);
    free(parcel);
    free(message);
}

static void drop_all(void)
{
    for (struct message *message = report.first; message != NULL;) {
        struct message *next = message->next;
        drop(message);
        message = next;
    }
    report.first = NULL;
    report.last = &report.first;
}

static void drop_first(void)
{
    struct message *first = report.first;
    report.first = first->next;
    if (report.first == NULL)
        report.last = &report.first;
    drop(first);
}

/* Puts a message at the end of the queue. */
static void enqueue(struct process *process, struct parcel *parcel)
{
    struct message *message = must(malloc(sizeof *message));
    *message = (struct message){NULL, process, parcel};
    *report.last = message;
    report.last = &message->next;
    report.held += parcel != NULL ? (size_t)parcel->count : 0;
    if (report.is_broken)
        drop_all();
    else if (report.socket >= 0)
        report_send();
}

static FILE *new_parcel(struct parcel **parcel)
{
    *parcel = must(calloc(1, sizeof **parcel));
    return must(open_memstream(&(*parcel)->text, &(*parcel)->length));
}

/* Its text is the content of the file. */
static void close_parcel(FILE *text)
{
    if (fclose(text) != 0)
        must(NULL);
}

void report_begin(const struct options *options)
{
    char host[256] = "", folder[PATH_MAX];
    struct timespec time;
    struct parcel *parcel;
    report.last = &report.first;
    report.options = options;
    report.argv = options->report;
    if (options->quiet)
        strings_add(&report.argv, "--quiet");
    gethostname(host, sizeof host - 1);
    clock_gettime(CLOCK_REALTIME, &time);
    FILE *to = new_parcel(&parcel);
    fputs("{\"type\":\"run\",\"version\":1,\"command\":", to);
    json_list(to, options->command, MAX_RUN_ARGV);
    fputs(",\"host\":", to);
    json_text(to, host);
    fputs(",\"directory\":", to);
    json_text(to, getcwd(folder, sizeof folder) != NULL ? folder : "");
    fprintf(to, ",\"id\":\"%jx-%x-", (intmax_t)time.tv_sec * 1000000 + time.tv_nsec / 1000, (unsigned)getpid());
    for (const char *at = host; *at != 0; at++)
        if (*at > ' ' && *at < 0x7f && *at != '"' && *at != '\\')
            fputc(*at, to);
    fprintf(to, "\",\"time\":%jd}", (intmax_t)time.tv_sec);
    close_parcel(to);
    enqueue(NULL, parcel);
}

/* The side memory of its first segment that has one, or null. */
static const struct side *side_of(const struct process *process)
{
    const struct segment *at = process->first;
    while (at->side == NULL && at->next != NULL)
        at = at->next;
    return at->side;
}

/* The arguments of the process, or its name if that is all that is known. */
static void put_words(FILE *to, const struct process *process)
{
    char argv[SIDE_ARGV + 1], *list[MAX_ARGUMENTS + 1];
    size_t count = 0;
    const struct side *side = side_of(process);
    if (side == NULL) {
        char *only[] = {(char *)(uintptr_t)process->name, NULL};
        json_list(to, only, MAX_PROCESS_ARGV);
        return;
    }
    memcpy(argv, side->argv, SIDE_ARGV); /* once: the process may write there */
    argv[SIDE_ARGV] = 0;
    for (char *at = argv; at < argv + SIDE_ARGV && *at != 0 && count < MAX_ARGUMENTS; at += strlen(at) + 1)
        list[count++] = at;
    list[count] = NULL;
    json_list(to, list, MAX_PROCESS_ARGV);
}

/* Keeps its words, as long as its side memory is there. */
static void keep_words(struct process *process)
{
    char *text;
    size_t length;
    if (process->command != NULL && side_of(process) == NULL)
        return;
    FILE *to = must(open_memstream(&text, &length));
    put_words(to, process);
    if (fclose(to) != 0)
        must(NULL);
    process->command = text_kept(text);
    free(text);
}

/* The fields of JSON of an outcome. */
static void put_outcome(FILE *to, const struct outcome *outcome)
{
    fprintf(to,
            ",\"fate\":\"%s\",\"events\":%" PRIu64 ",\"reports\":%" PRIu64 ",\"whole\":%s,\"left_out\":%" PRIu64
            ",\"signal\":%u,\"why\":",
            outcome->fate, outcome->events, outcome->reports, outcome_is_complete(outcome) ? "true" : "false",
            outcome->left_out, outcome->signal);
    json_text(to, outcome->why);
    if (outcome->findings > 0)
        fprintf(to, ",\"findings\":%" PRIu32, outcome->findings);
    if (outcome->used_again > 0)
        fprintf(to, ",\"used_again\":%" PRIu64, outcome->used_again);
    if (outcome->answer == UP_TO_THERE)
        fputs(",\"abrupt\":true", to);
    if (outcome->has_halted)
        fputs(",\"halted\":true", to);
    if (outcome->is_unsaid)
        fputs(",\"unsaid\":true", to);
}

static void put_file(FILE *to, const char *name, const char *path)
{
    if (path == NULL)
        return;
    fprintf(to, ",\"%s\":", name);
    json_text(to, path);
}

/* Data on a process; and of its segments the one whose descriptors come with it, if that is not null. This
   many of these are files of modules, and with `asks` the last one waits for its words. */
static void put_process(FILE *to, struct process *process, const struct segment *segment, size_t files, bool asks)
{
    struct outcome joined = segments_joined(process);
    fprintf(to, "{\"type\":\"process\",\"n\":%zu,\"pid\":%d,\"parent\":%d", process_number(process),
            process->own_number, process->parent);
    put_outcome(to, &joined);
    if (process->is_awaited)
        fputs(",\"awaited\":true", to);
    fprintf(to, ",\"command\":%s", process->command);
    if (joined.segments > 1)
        fprintf(to, ",\"segments\":%" PRIu32, joined.segments);
    if (segment != NULL && segments_are_several(process))
        fprintf(to, ",\"segment\":%" PRIu64, segment->number + 1);
    put_file(to, "trace", segment != NULL ? segment->trace : process->first->trace);
    put_file(to, "kept", segments_kept(process));
    if (files > 0)
        fprintf(to, ",\"files\":%zu", files);
    if (asks)
        fputs(",\"asks\":true", to);
    fputc('}', to);
}

/* Counts lines that are not kept: with those of an earlier segment, or the process if there are none of it. */
static void count_more(const struct segment *segment)
{
    for (size_t i = raw.count; i > 0; i--)
        if (raw.processes[i - 1] == segment->process) {
            raw.left_out[i - 1] += segment->outcome.reports;
            raw.findings[i - 1] += segment->outcome.findings;
            return;
        }
    raw.more += !segment->process->is_among_more;
    segment->process->is_among_more = true;
}

/* Keeps the first lines of what the checker has printed, for the case that asancol-report cannot. */
static void keep_raw(const struct segment *segment)
{
    char text[RAW_BYTES];
    const struct process *process = segment->process;
    const struct outcome *outcome = &segment->outcome;
    if (raw.count == RAW_PROCESSES) {
        count_more(segment);
        return;
    }
    ssize_t length = pread(segment->verdicts, text, sizeof text - 1, 0);
    text[length > 0 ? length : 0] = 0;
    uint64_t lines = 0;
    char *end = text;
    for (char *line; lines < RAW_LINES && lines < outcome->reports && (line = strchr(end, '\n')) != NULL; lines++)
        end = line + 1;
    *end = 0;
    raw.texts[raw.count] = must(strdup(text));
    raw.left_out[raw.count] = outcome->reports - lines;
    raw.findings[raw.count] = outcome->findings;
    raw.names[raw.count] = process->name;
    raw.processes[raw.count] = process;
    if (segments_are_several(process))
        snprintf(raw.segments[raw.count], sizeof *raw.segments, ", segment %" PRIu64, segment->number + 1);
    raw.numbers[raw.count++] = process->own_number;
}

static void take_descriptors(struct parcel *parcel, struct segment *segment, const int *files, size_t count)
{
    lseek(segment->verdicts, 0, SEEK_SET);
    parcel->descriptors[parcel->count++] = segment->verdicts;
    segment->verdicts = -1;
    if (segment->side_memory >= 0)
        parcel->descriptors[parcel->count++] = segment->side_memory;
    segment->side_memory = -1;
    for (size_t i = 0; i < count; i++)
        parcel->descriptors[parcel->count++] = files[i];
}

/* Files that the process has loaded since it began: before something removes them. */
static void find_modules(struct segment *segment)
{
    static char map[SIDE_UNCHECKED - SIDE_MAPS + 1];
    ssize_t length = segment->side_memory >= 0 ? pread(segment->side_memory, map, sizeof map - 1, SIDE_MAPS) : 0;
    map[length > 0 ? length : 0] = 0;
    modules_find(&segment->modules, map);
}

/* Whether a reader would see something in its descriptors. */
static bool is_shown(const struct segment *segment)
{
    const struct outcome *outcome = &segment->outcome;
    bool has_more = outcome->is_crash || outcome->findings + outcome->leaks > 0 || outcome->leaks_missed;
    return outcome->reports > 0 || (has_more && segment->verdicts >= 0);
}

/* A message with the data of a segment, and the connection on which its process waits for its words, or -1. */
static void show(struct segment *segment, int asks)
{
    struct parcel *parcel;
    int files[SIDE_FILES];
    find_modules(segment);
    size_t count = modules_copy(&segment->modules, files);
    keep_words(segment->process);
    FILE *to = new_parcel(&parcel);
    put_process(to, segment->process, segment, count, asks >= 0);
    close_parcel(to);
    if (outcome_reports(&segment->outcome) > 0)
        keep_raw(segment);
    take_descriptors(parcel, segment, files, count);
    if (asks >= 0)
        parcel->descriptors[parcel->count++] = asks;
    report_start();
    enqueue(NULL, parcel);
}

static void put_shown(FILE *to, const struct segment *segment, const struct report_shown *shown, size_t files)
{
    struct process *process = segment->process;
    fprintf(to, "{\"type\":\"show\",\"n\":%zu,\"pid\":%d,\"segment\":%" PRIu64 ",\"line\":", process_number(process),
            process->own_number, segment->number + 1);
    json_text(to, shown->line);
    fprintf(to, ",\"entry\":%" PRIu32 ",\"file\":\"%s\",\"files\":%zu}", shown->entry, shown->file, files);
}

void report_shown(struct segment *segment, const struct report_shown *shown)
{
    struct parcel *parcel;
    int files[SIDE_FILES];
    find_modules(segment);
    size_t count = modules_copy(&segment->modules, files);
    FILE *to = new_parcel(&parcel);
    put_shown(to, segment, shown, count);
    close_parcel(to);
    int side = fcntl(segment->side_memory, F_DUPFD_CLOEXEC, STDERR_FILENO + 1);
    if (side >= 0)
        parcel->descriptors[parcel->count++] = side;
    for (size_t i = 0; i < count; i++)
        parcel->descriptors[parcel->count++] = files[i];
    parcel->descriptors[parcel->count++] = shown->connection;
    progress_erase();
    report_start();
    enqueue(NULL, parcel);
}

void report_again(struct process *process)
{
    keep_words(process);
    enqueue(process, NULL);
}

void report_segment(struct segment *segment)
{
    bool is_asked = segment->outcome.asks_words || segment->outcome.is_unsaid;
    int asks = is_asked ? asking_of(segment->process->peer) : -1;
    if (is_shown(segment)) {
        show(segment, asks);
        return;
    }
    if (asks >= 0) /* then it prints its own */
        close(asks);
    if (!segments_are_several(segment->process)) /* what several come to is said once they are there */
        report_again(segment->process);
}

size_t report_held(void)
{
    return report.held;
}

struct pollfd report_poll(void)
{
    bool waits = report.socket >= 0 && report.first != NULL;
    return (struct pollfd){waits ? report.socket : -1, POLLOUT, 0};
}

/* Nobody takes the messages any more. */
static void give_up(void)
{
    report.is_broken = true;
    if (report.socket >= 0)
        close(report.socket);
    report.socket = -1;
    drop_all();
}

/* What it sends, which is made if it is not there yet. */
static struct parcel *parcel_of(struct message *message)
{
    if (message->parcel != NULL)
        return message->parcel;
    FILE *to = new_parcel(&message->parcel);
    put_process(to, message->process, NULL, 0, false);
    close_parcel(to);
    return message->parcel;
}

/* Sends a parcel with its descriptors. Below zero: errno says why. */
static ssize_t send_one(const struct parcel *parcel)
{
    union {
        char room[CMSG_SPACE(MOST_DESCRIPTORS * sizeof(int))];
        struct cmsghdr align;
    } control = {0};
    struct iovec piece = {parcel->text, parcel->length};
    struct msghdr header = {.msg_iov = &piece, .msg_iovlen = 1};
    if (parcel->count > 0) {
        size_t size = (size_t)parcel->count * sizeof(int);
        header.msg_control = &control;
        header.msg_controllen = CMSG_SPACE(size);
        struct cmsghdr *first = CMSG_FIRSTHDR(&header);
        first->cmsg_level = SOL_SOCKET;
        first->cmsg_type = SCM_RIGHTS;
        first->cmsg_len = CMSG_LEN(size);
        memcpy(CMSG_DATA(first), parcel->descriptors, size);
    }
    return sendmsg(report.socket, &header, MSG_NOSIGNAL | MSG_DONTWAIT);
}

void report_send(void)
{
    while (report.socket >= 0 && report.first != NULL) {
        if (send_one(parcel_of(report.first)) < 0) {
            /* Too many descriptors under way: the next turn tries again. */
            if (errno == EAGAIN || errno == EINTR || errno == ETOOMANYREFS || errno == ENOBUFS || errno == ENOMEM)
                return;
            give_up();
            return;
        }
        drop_first();
    }
    if (report.socket >= 0 && report.is_over)
        shutdown(report.socket, SHUT_WR);
}

/* Whether it has read all that was sent to it: else the system notes an error here when it lets go. */
static bool has_read_all(void)
{
    int error = 0;
    socklen_t size = sizeof error;
    if (report.socket >= 0 && getsockopt(report.socket, SOL_SOCKET, SO_ERROR, &error, &size) != 0)
        return false;
    return report.first == NULL && report.is_over && error == 0;
}

void report_has_ended(int status)
{
    report.has_ended = true;
    report.status = status;
    report.child = 0;
    if (!has_read_all())
        give_up();
}

/* Its arguments: what the command line says, and what a run inside this one and one round it have to do with it. */
static const char *const *words_of_report(const char *program)
{
    struct strings argv = {0};
    const char *outer = nested_result();
    strings_add(&argv, program);
    strings_add(&argv, "--run");
    for (size_t i = 0; i < report.argv.count; i++)
        strings_add(&argv, report.argv.items[i]);
    if (outer != NULL) {
        strings_add(&argv, "--json");
        strings_add(&argv, outer);
    }
    if (hub_folder() != NULL) {
        strings_add(&argv, "--nested");
        strings_add(&argv, hub_folder());
    }
    return argv.items;
}

bool report_is_at(int descriptor)
{
    int type = 0;
    socklen_t size = sizeof type;
    if (getsockopt(descriptor, SOL_SOCKET, SO_TYPE, &type, &size) != 0 || type != SOCK_SEQPACKET)
        return false;
    report.was_started = true;
    report.socket = fcntl(descriptor, F_DUPFD_CLOEXEC, STDERR_FILENO + 1);
    return report.socket >= 0;
}

void report_start(void)
{
    int ends[2];
    if (report.was_started)
        return;
    report.was_started = true;
    char *program = find_own_program("asancol-report", "ASANCOL_REPORT");
    const char *named = getenv("ASANCOL_REPORT");
    if (program == NULL)
        errno = ENOENT;
    if (program != NULL && socketpair(AF_UNIX, SOCK_SEQPACKET | SOCK_CLOEXEC, 0, ends) == 0) {
        const struct start start = {
            .role = ROLE_REPORT,
            .program = program,
            .argv = words_of_report(program),
            .input = ends[1],
            .output = say_descriptor(),
            .passed = report.options->outputs,
            .passed_count = report.options->output_count,
        };
        report.child = child_start(&start);
        int error = errno;
        close(ends[1]);
        report.socket = ends[0];
        errno = error;
    }
    if (report.child == 0) {
        say("asancol-run: %s: %s: install the whole package, or name it in ASANCOL_REPORT",
            named != NULL && *named != 0 ? named : "asancol-report", strerror(errno));
        give_up();
        report.has_ended = true;
        return;
    }
    report.had_child = true;
    report_send();
}

bool report_is_running(void)
{
    return report.child != 0;
}

bool report_was_started(void)
{
    return report.was_started;
}

static void put_lines(FILE *to, const char *name, const struct strings *lines)
{
    if (lines->count == 0)
        return;
    fprintf(to, ",\"%s\":", name);
    json_list(to, (char *const *)(uintptr_t)lines->items, MAX_LINES);
}

void report_finish(const struct run_end *end)
{
    struct parcel *parcel;
    FILE *to = new_parcel(&parcel);
    fprintf(to,
            "{\"type\":\"end\",\"seconds\":%.3f,\"status\":%d,\"signal\":%d,\"nothing\":%s,\"missing\":%" PRIu64
            ",\"running\":%s,\"timed_out\":%s,\"lost\":%" PRIu64,
            end->seconds, WIFEXITED(end->status) ? WEXITSTATUS(end->status) : 0,
            WIFSIGNALED(end->status) ? WTERMSIG(end->status) : 0, end->nothing ? "true" : "false", end->missing,
            end->is_running ? "true" : "false", end->has_timed_out ? "true" : "false", end->lost);
    unchecked_put(to);
    put_lines(to, "troubles", &end->troubles);
    put_lines(to, "notes", &end->notes);
    fputc('}', to);
    close_parcel(to);
    report.is_over = true;
    enqueue(NULL, parcel);
    if (report.socket >= 0)
        report_send();
}

void report_interrupt(void)
{
    if (report.child != 0)
        kill(-report.child, SIGKILL);
}

enum report_answer report_answer(void)
{
    if (report.is_broken || !report.has_ended || !WIFEXITED(report.status) || WEXITSTATUS(report.status) >= ANSWER_NONE)
        return ANSWER_NONE;
    return (enum report_answer)WEXITSTATUS(report.status);
}

void report_leave(const char *path)
{
    FILE *to = fopen(path, "wxe");
    bool is_left = to != NULL;
    for (; is_left && report.first != NULL; drop_first())
        is_left = fprintf(to, "%s\n", parcel_of(report.first)->text) > 0;
    if (to != NULL && fclose(to) != 0)
        is_left = false;
    if (!is_left)
        say("asancol-run: the result for the outer run was not left: %s: %s", path, strerror(errno));
}

void report_print_raw(const char *kept)
{
    if (report.had_child && WIFSIGNALED(report.status))
        say("asancol-run: asancol-report was ended by %s", signal_name(WTERMSIG(report.status)));
    else if (report.had_child)
        say("asancol-run: asancol-report ended with status %d%s", WEXITSTATUS(report.status),
            report.is_broken ? ", and did not read all" : "");
    for (size_t i = 0; i < raw.count; i++) {
        say("asancol: process %d %s%s:", raw.numbers[i], raw.names[i], raw.segments[i]);
        say_text(raw.texts[i], strlen(raw.texts[i]));
        if (raw.left_out[i] > 0)
            say("and %" PRIu64 " more lines", raw.left_out[i]);
        if (raw.findings[i] > 0)
            say("and %" PRIu64 " by the recorder, which asancol-report --trace shows", raw.findings[i]);
    }
    if (raw.more > 0)
        say("asancol: and %zu more processes with reports", raw.more);
    if (raw.count > 0 && kept != NULL)
        say("asancol: the traces are in %s", kept);
    else if (raw.count > 0)
        say("asancol: --keep DIR keeps the traces");
}

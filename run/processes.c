/* An array in the order of connections, and two hash tables of 65,536 buckets: by the number that the kernel gives the
   peer, and by the one that the process has for itself. */
#define _GNU_SOURCE
#include "processes.h"

#include <poll.h>
#include <stdio.h>
#include <stdlib.h>
#include <string.h>

#include "say.h"
#include "texts.h"

/* So much of the name of a program is printed. */
enum { MAX_NAME_LENGTH = 200 };

/* The system gives at most 64 times as many numbers. */
enum { PEER_BUCKETS = 65536 };

/* Processes of which the number has the same rest, in the order in which they connected. */
struct bucket {
    struct process *first, *last;
};

static struct process **processes;
static struct bucket by_peer[PEER_BUCKETS];
static struct process *by_own_number[PEER_BUCKETS];
static size_t count, room, live;

static struct process *add(void)
{
    if (count == room) {
        room = room * 2 + 16;
        processes = must(realloc(processes, room * sizeof *processes));
    }
    struct process *made = must(calloc(1, sizeof *made));
    processes[count++] = made;
    return made;
}

struct segment *segment_add(void)
{
    struct segment *made = must(calloc(1, sizeof *made));
    made->connection = made->side_memory = made->verdicts = -1;
    made->outcome.fate = made->outcome.why = "";
    made->process = add();
    made->process->first = made;
    live++;
    return made;
}

struct process *process_next(size_t *at)
{
    while (*at < count && processes[*at]->first == NULL)
        ++*at;
    return *at < count ? processes[(*at)++] : NULL;
}

size_t process_count(void)
{
    return count;
}

size_t process_number(struct process *process)
{
    static uint32_t numbered;
    if (process->number == 0)
        process->number = ++numbered;
    return process->number - 1;
}

static struct bucket *bucket_of(pid_t peer)
{
    return &by_peer[(unsigned)peer % PEER_BUCKETS];
}

void process_set_peer(struct process *process, pid_t peer)
{
    struct bucket *bucket = bucket_of(peer);
    process->peer = peer;
    if (bucket->first == NULL)
        bucket->first = process;
    else
        bucket->last->peer_next = process;
    bucket->last = process;
}

static struct process *find_peer(struct process *from, pid_t peer)
{
    while (from != NULL && from->peer != peer)
        from = from->peer_next;
    return from;
}

struct process *process_of_peer(pid_t peer)
{
    return find_peer(bucket_of(peer)->first, peer);
}

struct process *process_next_of_peer(const struct process *process)
{
    return find_peer(process->peer_next, process->peer);
}

static void note_own_number(struct process *process)
{
    struct process **bucket = &by_own_number[(unsigned)process->own_number % PEER_BUCKETS];
    if (process->own_number == process->peer)
        return;
    process->own_next = *bucket;
    *bucket = process;
}

static struct process *find_own_number(struct process *from, int number)
{
    while (from != NULL && from->own_number != number)
        from = from->own_next;
    return from;
}

struct process *process_of_own_number(int number)
{
    return find_own_number(by_own_number[(unsigned)number % PEER_BUCKETS], number);
}

struct process *process_next_of_own_number(const struct process *process)
{
    return find_own_number(process->own_next, process->own_number);
}

bool segment_has_hung_up(const struct segment *segment)
{
    struct pollfd end = {segment->connection, POLLRDHUP, 0};
    return segment->connection < 0 || (poll(&end, 1, 0) == 1 && (end.revents & (POLLRDHUP | POLLHUP | POLLERR)));
}

size_t segment_live_count(void)
{
    return live;
}

void segment_is_done(struct segment *segment)
{
    if (segment->stage != STAGE_DONE)
        live--;
    segment->stage = STAGE_DONE;
}

/* The first word of its command line, if it still runs. */
static const char *name_by_number(pid_t number)
{
    static char name[MAX_NAME_LENGTH + 1];
    char path[64];
    snprintf(path, sizeof path, "/proc/%d/cmdline", number);
    FILE *file = number > 0 ? fopen(path, "re") : NULL;
    size_t length = file != NULL ? fread(name, 1, sizeof name - 1, file) : 0;
    if (file != NULL)
        fclose(file);
    name[length] = 0;
    return name[0] != 0 ? name : UNKNOWN_NAME;
}

static void take_settings(struct outcome *outcome, const struct side *side)
{
    struct side_settings settings = side_settings(side);
    outcome->quarantine = side_quarantine(side);
    outcome->is_one = settings.is_one != 0;
    outcome->halts = settings.halt != 0;
    outcome->is_lean = settings.is_lean != 0;
}

void segment_name(struct segment *segment)
{
    struct process *process = segment->process;
    const struct side *side = segment->side;
    segment->outcome.quarantine = UINT64_MAX;
    if (side != NULL)
        take_settings(&segment->outcome, side);
    if (process->name != NULL)
        return;
    process->own_number = side != NULL ? (int)side->process : (int)process->peer;
    process->parent = side != NULL ? (int)side->parent : 0;
    note_own_number(process);
    process_set_name(process, side != NULL ? side->argv : name_by_number(process->peer));
}

void process_set_name(struct process *process, const char *name)
{
    char *shown = must(strndup(name, MAX_NAME_LENGTH));
    process->name = text_kept(shown);
    free(shown);
}

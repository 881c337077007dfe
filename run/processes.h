/* The recorded processes of the run, in the order in which they connected. Each has a segment for each connection, or
   file, by which its recording came: segments.h joins them, and says what the whole process came to.

   Called: segment_add and process_set_peer by loop.c and marks.c, process_set_name and what goes by own numbers by
   marks.c, segment_is_done and segment_name by checkers.c, segment_has_hung_up by held.c and loop.c; the rest by
   whoever judges or prints; in the one thread of asancol-run; no lock. */
#ifndef ASANCOL_RUN_PROCESSES_H
#define ASANCOL_RUN_PROCESSES_H

#include <stdbool.h>
#include <stddef.h>
#include <stdint.h>
#include <sys/types.h>

#include "outcome.h"
#include "side.h"

/* How far a segment has come. */
enum stage {
    STAGE_CONNECTED, /* it has no checker yet */
    STAGE_CHECKED,   /* its checker runs, or that of several */
    STAGE_DONE
};

/* How it was cut short. */
enum cut { CUT_NONE, CUT_BY_WAIT, CUT_BY_TIMEOUT };

/* A connection or a file, and what has happen to it. It stays up to the end of the run, so it is packed. */
struct segment {
    struct process *process;      /* whose it is */
    struct segment *next;         /* the one after it, of those of its process that have come; or null */
    struct segment *next_waiting; /* the one after it that waits for a checker, or null */
    uint64_t number;              /* how many segments of its process came before it */
    enum stage stage;
    enum cut cut;
    int connection, side_memory, verdicts; /* descriptors; -1: there is none */
    struct small_stream *small;            /* all of its stream, in place of the connection; or null */
    const struct side *side;               /* or null, as from when the outcome is settled */
    struct modules modules;                /* until it is done */
    pid_t checker, tee;                    /* 0: it does not run */
    int checker_status;                    /* as of waitpid */
    int side_error;                        /* by which the process could not make its side memory, or 0 */
    const char *trace;                     /* the file in which it is, if it did not reach the hub; or null */
    char *kept;                            /* the file in which its trace is kept, or null */
    struct children *children;             /* that its process has forked meanwhile, or null */
    bool is_met;                           /* its side memory was asked for, and its process was found by that */
    bool is_alone;                         /* it is to have a checker of its own */
    bool is_unwritten;                     /* its file goes on with a zero after the last record */
    bool becomes;                          /* its process became a program that is to be here, and no mark says so */
    struct outcome outcome;
};

/* By its word, how many children a process has forked, and the numbers of the last of them. */
struct children {
    uint64_t forks;
    size_t count;
    pid_t numbers[];
};

/* Data on a process apart from its segments. */
enum source {
    SOURCE_HUB,    /* it has connected, or left a trace in the folder of the run */
    SOURCE_FILES,  /* files alone: asancol-run has not run it */
    SOURCE_UNSEEN, /* only that it was not recorded, and why */
    SOURCE_WORD    /* the same, and it has said so itself by a mark in the folder */
};

struct process {
    struct segment *first; /* of those that came, in their order; null: it has joined another process, or is quiet */
    uint32_t number;       /* process_number has it */
    enum source source;
    pid_t peer;                 /* as the system numbers it for us; 0: not known */
    int own_number, parent;     /* as it knows them itself */
    int of_parent;              /* the number of whoever has forked it, as it knows that itself; */
    uint64_t of_parent_started; /* and when that was begun; 0: nobody that was recorded */
    uint64_t started;           /* when it was begun; 0: not known */
    struct process *peer_next;  /* a later one whose number has the same bucket, or null */
    struct process *own_next;   /* another one whose own number has the same bucket, or null */
    struct process *known_next; /* another one in its bucket (segments.c), or null */
    const char *name;           /* the first word of its command line; null: not asked for yet */
    const char *command;        /* its command line as a list of JSON, once the report was told of it */
    char *kept_prefix;          /* where its traces are kept, without what differs */
    bool is_summed_up;          /* all of its segments have come, and the outcome was said */
    bool is_among_more;         /* it is counted, since lines of it could not be kept */
    bool is_quiet;   /* it had nothing to report, and has sent nothing (--held) */
    bool is_awaited; /* it has crashed or halted, its parent has waited for it, and the command has ended well */
};

/* A process with a segment that has no descriptor yet. Each stays where it is. */
struct segment *segment_add(void);
/* The processes in their order, without those that have joined another: of the first, *at is 0. Null: that was all. */
struct process *process_next(size_t *at);
/* How many there are, with those that have joined another. */
size_t process_count(void);
/* The number of a process in the run, from 0, which its first segment to come gets if it has none yet. */
size_t process_number(struct process *process);
/* Whether all that is known is that it was not recorded. */
static inline bool process_is_unseen(const struct process *process)
{
    return process->source == SOURCE_UNSEEN || process->source == SOURCE_WORD;
}

/* Whether its connection has no other end any more. */
bool segment_has_hung_up(const struct segment *segment);
/* How many are not done. */
size_t segment_live_count(void);
/* Notes that it is done. */
void segment_is_done(struct segment *segment);

/* Notes its number, once. */
void process_set_peer(struct process *process, pid_t peer);
/* The first to connect of those of this number, and the one after another of these; or null. */
struct process *process_of_peer(pid_t peer);
struct process *process_next_of_peer(const struct process *process);
/* The same for those that know themselves by this number, where the system has another one for us. */
struct process *process_of_own_number(int number);
struct process *process_next_of_own_number(const struct process *process);
/* Takes settings from the side memory of a segment, if it has one; and name and numbers of its process, if that has
   none yet. */
void segment_name(struct segment *segment);
/* Of one that nobody knows. */
#define UNKNOWN_NAME "(unknown)"
/* Its name, as it is printed. */
void process_set_name(struct process *process, const char *name);

#endif

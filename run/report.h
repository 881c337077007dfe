/* Feeds asancol-report: a message for each segment that is done, and for each process again when its data have changed.
   It is started when there is something to report, and takes the descriptors of a process with reports as soon as that
   has ended.

   Called: report_segment by checkers.c; report_shown by showing.c; report_again by checkers.c, kin.c, marks.c and
   asancol-run.c; report_held, report_poll, report_send, report_has_ended, report_is_running and report_interrupt by
   loop.c; the rest by asancol-run.c, at the start and the end; in the one thread of asancol-run; no lock. */
#ifndef ASANCOL_RUN_REPORT_H
#define ASANCOL_RUN_REPORT_H

#include <poll.h>
#include <stdbool.h>

#include "options.h"
#include "processes.h"

/* What came of the whole run. */
struct run_end {
    double seconds;
    pid_t command;
    int status;   /* of the command, as of waitpid */
    bool nothing; /* was recorded */
    uint64_t missing;
    bool is_running; /* something of the command */
    bool has_timed_out;
    uint64_t lost;   /* runs inside this one that left no result */
    struct strings troubles; /* lines: why not all was seen, apart from processes. Nobody else says them */
    struct strings notes;    /* lines for the reader, which cost no status */
};

enum report_answer {
    ANSWER_CLEAN,
    ANSWER_REPORTS,
    ANSWER_ARGUMENTS,
    ANSWER_INCOMPLETE,
    ANSWER_NOT_WRITTEN,
    ANSWER_NONE
};

/* The first message: the command. */
void report_begin(const struct options *options);
/* A segment is done. The message takes its descriptors, if there is something to see in them. A segment of several
   without that has none. */
void report_segment(struct segment *segment);
/* The reported data of a process have changed, or is known since all of its segments are. */
void report_again(struct process *process);

/* A process waits for one of its reports in words, on this connection, which the message takes. */
struct report_shown {
    const char *line; /* of the checker; empty: */
    uint32_t entry;   /* it is a finding of the recorder's, by its number in the list of faults */
    const char *file; /* to which the process prints it */
    int connection;
};
void report_shown(struct segment *segment, const struct report_shown *shown);

/* How many descriptors wait to be sent. */
size_t report_held(void);
/* What the hub has to wait for, so that messages go out; and sends what goes out now. */
struct pollfd report_poll(void);
void report_send(void);
/* Takes the status with which asancol-report has ended. */
void report_has_ended(int status);

/* It is there already, and has given its socket as this descriptor. False: that is none. */
bool report_is_at(int descriptor);
/* Starts it if there is no report yet. */
void report_start(void);
bool report_is_running(void);
/* Whether it was started. */
bool report_was_started(void);
/* The last message. */
void report_finish(const struct run_end *end);
/* Ends it, since nobody wants to wait for it. */
void report_interrupt(void);
/* What it has answered, once it has ended. */
enum report_answer report_answer(void);

/* Leaves the messages in a file, as JSON lines, for a run round this one. They have not been sent. */
void report_leave(const char *path);
/* The first lines of the first processes with reports, as the checkers have printed them. */
void report_print_raw(const char *kept);

#endif

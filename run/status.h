/* Which status a run ends with: asancol-run(1) has the rows, under STATUS.

   Called: by asancol-run.c, once, at the end, in the one thread of asancol-run; no lock. */
#ifndef ASANCOL_RUN_STATUS_H
#define ASANCOL_RUN_STATUS_H

#include <stdbool.h>
#include <stddef.h>
#include <stdint.h>

/* What asancol-report has said at the end. What a suppression or a baseline changes is this alone. */
enum said {
    SAID_CLEAN,      /* no report counts */
    SAID_COUNTS,     /* a report counts */
    SAID_INCOMPLETE, /* no report counts, and something was not seen */
    SAID_NOTHING     /* it has failed: each report counts */
};

/* What a run came to. */
struct seen {
    enum said said;
    uint64_t reports;             /* of all processes */
    size_t incomplete, unchecked; /* processes: the second are those of the first that have no checks */
    bool nothing;                 /* was recorded */
    bool is_cut_short;            /* something else was not seen */
    bool has_failed;              /* the command */
};

/* The statuses that were asked for, where 0 leaves the command's. */
struct statuses {
    uint64_t reports, incomplete, nothing;
};

enum { STATUS_OF_COMMAND = -1 };

/* Whether all was seen, apart from that nothing was recorded. */
bool status_is_all_seen(const struct seen *seen);
/* 0 to 255, or STATUS_OF_COMMAND. */
int status_of(const struct seen *seen, const struct statuses *statuses);

#endif

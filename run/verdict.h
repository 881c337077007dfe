/* What came of a process: its end line, and whether it was complete.

   Called: verdict_begin by asancol-run.c, verdict_is_at_end by held.c, verdict_blame_limit by segments.c,
   signal_name by marks.c, nothing.c and report.c; the rest by checkers.c, which judges; in the one thread of
   asancol-run; no lock. */
#ifndef ASANCOL_RUN_VERDICT_H
#define ASANCOL_RUN_VERDICT_H

#include <stdbool.h>

#include "end_line.h"
#include "processes.h"

/* Whether leaks are findings as any other, and are not only summed up; and whether a process that does not look for
   mismatches of functions that allocate and free has to be named. */
void verdict_begin(bool counts_leaks, bool wants_mismatches);
/* Of one with a side memory: whether nothing bad stands there that a report would show; whether anything stands there
   that asancol-report is told, as leaks that are only summed up; and whether it has ended by an exit or an exec. */
bool verdict_is_clean(const struct segment *segment);
bool verdict_has_findings(const struct segment *segment);
bool verdict_is_at_end(const struct segment *segment);
/* Reads the end line of its checker, from its verdicts or as it stands here, and judges. The cause says why it was not
   checked; null: it was. */
void verdict_read(struct segment *segment, const char *cause, const struct end_line *end);
/* Judges the unsettled again: how it ended, and how many events were left out. True if this has changed
   something. */
bool verdict_again(struct segment *segment);

/* Says of one that is incomplete that it went on after the limit of events. */
void verdict_blame_limit(struct outcome *outcome);

/* "SIGTERM", or "signal 40". */
const char *signal_name(int number);

#endif

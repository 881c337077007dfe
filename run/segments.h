/* A process whose recording has reached the limit of events goes on in a further segment: a new connection or file,
   with side memory that says which one it is. All of them are one process in the output.

   Called: segments_join, segments_take_empty and segments_are_complete by checkers.c, segments_join_file by loop.c,
   segments_last by kin.c, segments_kept by report.c, segments_process_count by asancol-run.c and loop.c;
   segments_are_several by checkers.c and report.c, segments_joined by these and by whoever prints; in the one thread of
   asancol-run; no lock. */
#ifndef ASANCOL_RUN_SEGMENTS_H
#define ASANCOL_RUN_SEGMENTS_H

#include "processes.h"

/* Joins a file to this process: which segment it is was said. */
void segments_join_file(struct process *process, struct segment *segment);
/* Joins one whose side memory was mapped to those of the same process that have come before. */
void segments_join(struct segment *segment);
/* Leaves out one that had nothing to report, and its process. */
void segments_leave_out(struct segment *segment);
/* Whether it has connected to go on in the next segment of a process, and has sent nothing: that one did not come. It
   is no process then. */
bool segments_take_empty(struct segment *segment);
/* How many processes there are, of all that have connected. */
size_t segments_process_count(void);
/* Whether a process has several segments, or should have. */
bool segments_are_several(const struct process *process);
/* Whether all segments of a process have come and are done. */
bool segments_are_complete(const struct process *process);
/* The last of those that have come. */
struct segment *segments_last(const struct process *process);
/* The file in which its trace is kept, or the first one of several; or null. */
const char *segments_kept(const struct process *process);
/* What the whole process has come to, as far as it is known now. */
struct outcome segments_joined(const struct process *process);

#endif

/* The side memory of a process: what the recorder says of it beside its trace.

   Called: side_answer, side_receive, side_map, side_read and side_unmap by checkers.c; side_quarantine by processes.c,
   side_settings by that and verdict.c, side_progress by that and segments.c, side_entries and side_children by
   verdict.c; in the one thread of asancol-run; no lock. */
#ifndef ASANCOL_RUN_SIDE_H
#define ASANCOL_RUN_SIDE_H

#include <sys/types.h>

#include "common/format.h"
#include "modules.h"

/* Whether a process asks for a side memory, since it could not make one: then it gets one, if there can be one here.
   The number of its error. */
bool side_answer(int connection, int *error);
/* The descriptor that came with the first bytes of a connection, or -1; and the files that came after it. The bytes
   stay there for the checker. */
int side_receive(int connection, struct modules *modules);
/* Maps the first part, if nobody can cut it; or answers null. */
const struct side *side_map(int descriptor);
/* Reads the first part from a file; or answers null. */
const struct side *side_read(const char *path);
/* How many bytes it holds of freed blocks. No process can hold more than a checker takes: more counts as that. */
uint64_t side_quarantine(const struct side *side);
/* How many faults and findings are in its list. */
uint32_t side_entries(const struct side *side);
/* Its settings. */
struct side_settings side_settings(const struct side *side);
/* Puts the numbers of the last children that it has forked, SIDE_CHILDREN at most, and answers how many. */
size_t side_children(const struct side *side, pid_t *children);
/* How far the process has come, without its children. */
struct side_progress side_progress(const struct side *side);
void side_unmap(const struct side *side);

#endif

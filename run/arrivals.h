/* Segments that wait for a checker: connections that have sent nothing yet, and what can be started, in the order in
   which it came. A turn costs what happens in it, and not how many wait.

   Called: by loop.c, in the one thread of asancol-run; no lock. */
#ifndef ASANCOL_RUN_ARRIVALS_H
#define ASANCOL_RUN_ARRIVALS_H

#include <poll.h>
#include <stdbool.h>

#include "processes.h"

/* Takes a descriptor. Before that, or if there is none, one connection at a time can wait. */
void arrivals_begin(void);
/* Adds a connection, which is ready once something has come, or its other end is closed. */
void arrivals_add(struct segment *segment);
/* Adds one that is ready. */
void arrivals_add_ready(struct segment *segment);
/* The descriptor to be polled; and finds the ready ones if the poll says that there are some. */
struct pollfd arrivals_poll(void);
void arrivals_find(void);
/* Takes the first that is ready; or answers null. */
struct segment *arrivals_next(void);
bool arrivals_are_ready(void);

#endif

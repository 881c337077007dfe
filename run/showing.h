/* Processes that wait for one of their reports in words, to print it where it came up. Each waits until its checker has
   printed the line of that event; asancol-report then answers it.

   Called: showing_take by asking.c, the rest by loop.c; in the one thread of
   asancol-run; no lock. */
#ifndef ASANCOL_RUN_SHOWING_H
#define ASANCOL_RUN_SHOWING_H

#include <stdbool.h>
#include <stddef.h>
#include <sys/types.h>

/* This many processes may wait at once. Before that nobody is answered. */
void showing_begin(size_t most);
/* Takes the question of a process, behind its word, and its connection. False: the caller keeps that. */
bool showing_take(pid_t number, const char *question, int connection);
/* How many wait. */
size_t showing_held(void);
/* Passes on what can be answered now. */
void showing_look(void);

#endif

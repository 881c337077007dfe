/* The connection of a program to the run that it has started (own_run.h), over which it asks at its end with which
   status it is to end (root.h). It is kept from the start: later the process may have shut itself off. If it has closed
   that, it connects again.

   Called: run_connection_begin and run_connection_forget by process.c, at the start and in a forked child, in the only
   thread; the others by root.c, once, in the thread that ends the process, also in
   a handler. Lock: none is taken; who asks may have the allocator's. */
#ifndef ASANCOL_RUN_CONNECTION_H
#define ASANCOL_RUN_CONNECTION_H

#include <stdbool.h>
#include <stddef.h>

/* Connects to the run that listens beside this hub. */
void run_connection_begin(const char *hub);
/* A child is not the program: it gives the connection up. */
void run_connection_forget(void);
/* Sends a request, and waits for all of the answer. Answers its length, or an error below zero. */
long run_connection_ask(const char *hub, const char *request, char *answer, size_t room);
/* Tells it that the program ends, and that there is nothing to ask: the run has not begun. */
void run_connection_retire(void);
/* The process that waits to become the run, or waits for that, is no child of the program's from now on. */
void run_connection_leave(bool is_asleep);
/* Whether the run knows of the program: there was a connection at the start. */
bool run_connection_was_made(void);

#endif

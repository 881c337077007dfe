/* The sockets of a program's own run, and the process that waits there to become asancol-run (own_run.h).

   Called: waiter_begin by own_run.c and waiter_end by run_connection.c, at the start, in the only thread, not in a
   signal handler; waiter_retire and waiter_leave by run_connection.c, waiter_reap by root.c, waiter_has_begun by that
   and exec_notice.c, in the thread that ends the process, executes a program or waits for its children, also in a
   handler. Lock: none is taken. Memory comes from the system alone. */
#ifndef ASANCOL_WAITER_H
#define ASANCOL_WAITER_H

#include <stdbool.h>
#include <stddef.h>

/* As long as the name of a hub is, with its zero. */
enum { WAITER_NAME_ROOM = 64 };

/* What it becomes: the path, the arguments, and which of them is to name the sockets. */
struct waiter_command {
    const char *path;
    const char **argv;
    size_t sockets_at;
};

/* Makes the sockets and puts the name of the hub into the room. Then there is a process that listens there, and becomes
   the run with the environment of this one. Answers null, or what went wrong. */
const char *waiter_begin(const struct waiter_command *command, char hub[WAITER_NAME_ROOM]);
/* Whether it did. */
bool waiter_has_begun(void);
/* The program ends, and nobody has anything to report: at the other end of this connection it does not wait any more,
   unless forked processes are connected. It is no child of the program's then. */
void waiter_retire(int connection);
/* It becomes the child of another one; -1: the run has begun. */
void waiter_leave(int connection);
/* Waits for its end, at most some seconds: the run has answered. */
void waiter_reap(void);
/* The program's end of its connection to the run, or -1. Whoever asks keeps it. */
int waiter_end(void);

#endif

/* A run for a program that runs already, and is no child of this one (process/own_run.h): the program has the process
   number that its parent knows. It began with something to report: the sockets listened before, and some connections
   were accepted. At its end the program asks for the status of the run, and waits for it.

   Called: serving_begin by asancol-run.c at the start, serving_take by asking.c; the rest by loop.c, serving_is_on and
   serving_answer also by asancol-run.c; in the one thread of asancol-run; no lock. */
#ifndef ASANCOL_RUN_SERVING_H
#define ASANCOL_RUN_SERVING_H

#include <poll.h>
#include <stdbool.h>
#include <sys/types.h>

/* Takes its sockets over, whose numbers are separated by commas: its connection to ask, or 0 if it has closed that; the
   one that listens for recordings; the one for questions; and the accepted ones. */
void serving_begin(pid_t number, const char *sockets);
/* The next accepted connection, or -1. */
int serving_next_connection(void);
/* Whether this run serves such a program. */
bool serving_is_on(void);
/* Becomes readable at its end. -1: it has ended, or nothing tells. */
struct pollfd serving_poll(void);
/* Whether it has asked for its status, or is gone: once. The status is as of waitpid, or 0 if nobody knows it. */
bool serving_has_ended(int *status);
/* Becomes readable where it asks for its status. -1: it has no connection for that, or has asked. */
struct pollfd serving_asking_poll(void);
/* Keeps the connection on which it will ask, and its question if that has come already. False: it is another
   process's. */
bool serving_take(pid_t number, const char *text, int connection);
/* Whether it waits for an answer. */
bool serving_is_asked(void);
/* Answers, once: a status, or STATUS_OF_COMMAND. */
void serving_answer(int status);
/* The program has gone, and others run on: output of ours goes where theirs goes, and holds no pipe open for which
   somebody may wait. */
void serving_follow(pid_t number);

#endif

/* The run of a program's own that is there, and has not begun: it begins once a process of the program has something to
   report (process/own_run.h). One word says so, which the program shares with the processes that it forks and with
   the one that waits to become the run.

   Called: dormant_begin by waiter.c and own_run.c at the start, dormant_is_served by waiter.c in the process that
   becomes the run; dormant_note_exec by root.c before an exec and after one that has failed, dormant_note_fork and
   dormant_note_forked by process.c around a fork; dormant_connect by output.c, and dormant_has_passed by
   run_connection.c, in a forked child; the rest by stream/, exec_notice.c and root.c, in any thread, also in a
   handler. No lock: the words are atomic. */
#ifndef ASANCOL_DORMANT_H
#define ASANCOL_DORMANT_H

#include <stdatomic.h>
#include <stdbool.h>
#include <stdint.h>

struct dormant {
    _Atomic uint32_t is_awake; /* 1: something was sent, so the run is about to begin; 2: it does */
    _Atomic uint32_t becomes;  /* the program is about to become another one */
    _Atomic uint32_t is_lost;  /* a forked process can't reach it */
    _Atomic uint32_t forking;  /* how many forks have begun whose child has not connected yet */
};

/* From now on this process, and what it forks, belongs to such a run. */
void dormant_begin(struct dormant *shared);
/* Whether it belongs to one, asleep or not. */
bool dormant_is_there(void);
/* Whether it belongs to one that has not begun. */
bool dormant_is_asleep(void);
/* A fork begins; and its child is connected, or there is none. */
void dormant_note_fork(void);
void dormant_note_forked(void);
/* Connects over the connection that the program has to it, where no name is reached: a forked child has that until it
   is connected. Answers a descriptor, or an error. And whether it did: then its own children need it, too. */
int dormant_connect(void);
bool dormant_has_passed(void);
/* This process can't reach it; and whether that was so of any. */
void dormant_note_lost(void);
bool dormant_has_lost(void);
/* Something is sent next. */
void dormant_wake(void);
/* It was sent: waits until the run knows where a forked process has its standard error, but hardly a second. */
void dormant_await(void);
/* In the run, which takes it. */
void dormant_is_served(struct dormant *shared);
/* The program executes another one; or could not. */
void dormant_note_exec(bool becomes);

#endif

/* The explorer (explore.c), and what it explores (world.c). */
#ifndef ASANCOL_EXPLORER_H
#define ASANCOL_EXPLORER_H

#include <setjmp.h>
#include <stdbool.h>
#include <stdint.h>

enum { MAX_THREADS = 5 }; /* the last one is none of them */

struct search {
    unsigned preemptions; /* how many points of a run take the processor away, or have a handler or the end of a nap */
    unsigned handlers;    /* how many of these may be handlers */
    bool times_out;       /* a thread may wait longer than it has patience */
    bool is_random;
    unsigned rareness;    /* one point of this many, if it is random */
    uint64_t seed;
};

void explore_begin(void);
/* Runs the threads in many orders, at most this many. Answers how many these were; 0: one was wrong, and its steps are
   printed. */
uint64_t explore(unsigned threads, const struct search *search, uint64_t most);
/* The run is wrong. */
void explore_fail(const char *format, ...) __attribute__((format(printf, 1, 2)));
bool explore_has_failed(void);
/* The steps of this run are listed. */
bool explore_lists(void);
/* The thread that runs now. */
unsigned explore_thread(void);
/* In a child of fork: this thread alone goes on. At the end of the run the child ends, with status 1 if it was
   wrong. */
void explore_stay_alone(void);
/* No handler comes in this thread until this is taken back. */
void explore_disturb(int change);
/* Where a handler goes that leaves by a jump. */
jmp_buf *explore_landing(void);
_Noreturn void explore_land(void);

/* The world. */
void world_begin(void);
void world_run(unsigned thread);
void world_handle(unsigned thread);
void world_end(void);

#endif

/* Whether a process has other threads, as the system says.

   Called: has_other_threads by world.c, by ending.c, also with the stream's lock, by root.c, start.c and hooks.c, and
   by library.c in a forked child; other_threads_know by start.c, once; the others by world.c and tracer.c. These have
   the allocator's lock, in a search for leaks mostly the loader's too (leaks.h), and while world.c stops threads the
   stream's. In any thread, also in a signal handler. Lock: it takes none: it makes calls of the system alone, and keeps
   what it was told at the start, and two atomic numbers. */
#ifndef ASANCOL_OTHER_THREADS_H
#define ASANCOL_OTHER_THREADS_H

#include <stdbool.h>
#include <sys/types.h>

/* What the C library knows: not 0 as long as no thread was created. It counts where the system says nothing, such as in
   another root. */
void other_threads_know(const char *single);
/* Whether other threads of this process run, or may run. One that has been joined does not, nor a first thread that has
   ended before the others. If nobody says, there may be some. */
bool has_other_threads(void);
/* Visits each of them. False: the system does not say which there are. */
bool other_threads_visit(void (*visit)(pid_t thread, void *with), void *with);
/* Whether this one runs, or may run. */
bool other_threads_has(pid_t thread);
/* For another process that has this memory: the threads are those of this process, without this thread. Zeros: the
   running process and thread are meant. */
void other_threads_are_of(pid_t process, pid_t thread);
/* Whether this one sleeps, and has blocked a signal. */
bool other_threads_is_deaf(pid_t thread, int number);

#endif

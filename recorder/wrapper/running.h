/* Runs the compiler.

   Called: by asancol-cc.c, as the last thing that it does, in the one thread of the wrapper; no lock. While an object
   is compiled, a signal handler of running.c passes signals on to the compiler. */
#ifndef ASANCOL_RUNNING_H
#define ASANCOL_RUNNING_H

#include "wrapper/job.h"

/* Links, and returns the status to end with. The linked file shows which names the program has for itself: then it is
   linked again. Code that the wrapper did not compile is noted in the program. */
int running_link(struct job *job);
/* Compiles an object that asks for checked_names.h, and returns the status to end with. */
int running_compile(struct job *job);
/* Lets the compiler say its version, and says the wrapper's. Returns the status to end with. */
int running_version(const struct job *job);
/* Becomes the compiler. */
_Noreturn void running_become(const struct job *job);

#endif

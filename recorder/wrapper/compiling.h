/* What a compiler is given for what it compiles.

   Called: compiling_object by asancol-cc.c, the rest by running.c, in the one thread of the wrapper; no lock. */
#ifndef ASANCOL_COMPILING_H
#define ASANCOL_COMPILING_H

#include "wrapper/job.h"

/* The object that is made, if it can ask for what the recorder has of the library of C++ (checked_names.h); or null. */
char *compiling_object(const struct job *job);
/* Before the caller's arguments. */
void compiling_add_before(struct strings *line, const struct job *job);
/* After them: if they name a precompiled header, it has to be the first that is included. */
void compiling_add_after(struct strings *line, const struct job *job);
/* The replacement for all that, if nothing is recorded. */
void compiling_add_note(struct strings *line, const struct job *job);

#endif

/* One run of the wrapper: what it was called as, what it was asked for, and the compiler that does it.

   Called: no code is here. asancol-cc.c fills it in, and the others read it, except running.c, which links once more
   with other words, and taken_out.c, which takes words out; in the one thread of the wrapper; no lock. */
#ifndef ASANCOL_JOB_H
#define ASANCOL_JOB_H

#include "common/string_list.h"
#include "wrapper/compilers.h"
#include "wrapper/fronts.h"
#include "wrapper/request.h"

struct target;

struct job {
    const struct front *front;
    struct strings command;          /* of the compiler */
    const struct compiler *compiler; /* null: it was not asked which it is, or it is not known */
    const struct target *target;     /* the processor that it is for; null: this one */
    struct request request;
    char **arguments; /* of the caller's, with a null at the end */
    const char *passes; /* the plugin that Clang is given (passes.h); or null */
    char *object;     /* that will ask for what the recorder has of the library of C++ (checked_names.h); or null */
    bool takes_part;  /* something is compiled or linked that can be recorded */
    bool links;
};

#endif

/* For which processor a compiler compiles.

   Called: by asancol-cc.c, in the one thread of the wrapper; no lock. */
#ifndef ASANCOL_WRAPPER_TARGET_H
#define ASANCOL_WRAPPER_TARGET_H

#include <stdbool.h>

/* A processor other than this one. What comes into its programs lies in a folder of this name, beside the wrapper. */
struct target {
    const char *machine; /* as compilers call it */
    const char *shadow;  /* where its shadow begins (base/processor.h) */
};

struct job;

/* Finds out for which one a job compiles and links, of which the compiler is asked; null: for this one. */
const struct target *target_of(const struct job *job);

#endif

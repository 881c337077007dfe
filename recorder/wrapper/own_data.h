/* What a program has for itself of the names of functions which the linker wraps.

   Called: by linking.c, in the one thread of the wrapper; no lock. */
#ifndef ASANCOL_OWN_DATA_H
#define ASANCOL_OWN_DATA_H

#include <stdbool.h>
#include <stddef.h>

#include "wrapper/names.h"

/* This brings all stubs into a program (calls/every.c). */
#define EVERY_CALL "asancol_every_call"

/* The contents of a linked program. */
struct own_data {
    bool *is_own;        /* of each name: something other than a function has it */
    bool has_own;        /* one of them */
    bool lacks_a_call;   /* a function is asked for weakly, and its stub has not come in */
    bool has_every_call; /* something has asked for all stubs */
    char *unasked;       /* __wrap_NAME, a function of the program's for a name that it does not ask for; or null */
};

/* Fills in the data found of these names. */
void own_data_find(const char *path, const char *const *names, size_t count, const struct names *asked_for,
                   struct own_data *found);

#endif

/* The names by which the wrapper is called, and what depends on them.

   Called: by asancol-cc.c, in the one thread of the wrapper; no lock. */
#ifndef ASANCOL_FRONTS_H
#define ASANCOL_FRONTS_H

#include <stdbool.h>

/* A row of fronts.def, which says what its fields are. */
struct front {
    const char *name, *end, *variable, *usual;
    bool has_new, links_libm;
};

/* What the wrapper was called as. */
struct called {
    const struct front *front;
    const char *name;     /* with which its lines begin */
    const char *compiler; /* that its name says, as asancol-clang-15; or null */
};

/* The meaning of the name by which the program was called; or, if that says nothing, by the path that was run: by its
   name, or the first name along its links. Any other name means the first row. */
struct called called_as(const char *word, const char *path);

#endif

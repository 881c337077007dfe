/* Names, each once.

   Called: names_add by arguments.c, inputs.c, running.c and taken.c, names_have by own_data.c, in the one thread of the
   wrapper; no lock. */
#ifndef ASANCOL_WRAPPER_NAMES_H
#define ASANCOL_WRAPPER_NAMES_H

#include <stdbool.h>
#include <stddef.h>

/* There may be more of them. */
struct names {
    char **names;
    size_t count, room, more;
};

void names_add(struct names *names, const char *name);
bool names_have(const struct names *names, const char *name);

#endif

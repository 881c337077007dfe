/* A list of strings that grows, such as the arguments of a command that will be run.

   Called: by asancol-run and the wrapper, in their one thread; no lock. It allocates. */
#ifndef ASANCOL_STRING_LIST_H
#define ASANCOL_STRING_LIST_H

#include <stddef.h>

struct strings {
    const char **items; /* null, or with a null at the end */
    size_t count;
};

void strings_add(struct strings *list, const char *word);
void strings_add_all(struct strings *list, const char *const *items, size_t count);

#endif

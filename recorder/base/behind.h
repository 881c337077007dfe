/* Of functions that a program may have itself: the recorder's, which its dlsym finds behind those (process/plain.c).

   Called: by heap/replaced.c and process/threads.c, each with its table, for process/plain.c, in the thread that
   calls dlsym or dlvsym; not in a handler. No lock: the tables are constant. */
#ifndef ASANCOL_BEHIND_H
#define ASANCOL_BEHIND_H

#include <stddef.h>
#include <stdint.h>
#include <string.h>

/* `named` is the program's if that has one of the name; then `below` stands behind it. */
struct behind {
    const char *name;
    uintptr_t named, own, below;
};

#define BEHIND(name, own, below) #name, (uintptr_t)&name, (uintptr_t)&own, (uintptr_t)&below

/* What stands behind a name, or 0. */
static inline uintptr_t behind_find(const struct behind *rows, size_t count, const char *name)
{
    for (size_t i = 0; i < count; i++)
        if (strcmp(rows[i].name, name) == 0)
            return rows[i].named == rows[i].own ? rows[i].named : rows[i].below;
    return 0;
}

#endif

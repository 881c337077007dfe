/* An array that is searched from its start: there are few names, at most MAX_NAMES. */
#define _GNU_SOURCE
#include "wrapper/names.h"

#include <stdlib.h>
#include <string.h>

/* The most names that are kept. */
enum { MAX_NAMES = 1000 };

bool names_have(const struct names *names, const char *name)
{
    for (size_t i = 0; i < names->count; i++)
        if (strcmp(names->names[i], name) == 0)
            return true;
    return false;
}

void names_add(struct names *names, const char *name)
{
    if (names_have(names, name))
        return;
    if (names->count == names->room) {
        size_t room = names->room == 0 ? 16 : 2 * names->room;
        char **made = names->count < MAX_NAMES ? realloc(names->names, room * sizeof *made) : NULL;
        if (made == NULL) {
            names->more++;
            return;
        }
        names->names = made;
        names->room = room;
    }
    char *copy = strdup(name);
    if (copy != NULL)
        names->names[names->count++] = copy;
    else
        names->more++;
}

/* One text: the recorder, the former value, and what marks the programs of the run. The dynamic linker takes the value
   apart at blanks and colons, and puts a word in the place of $PLATFORM. */
#define _GNU_SOURCE
#include "preload.h"

#include <stdio.h>
#include <stdlib.h>
#include <string.h>

#include "names.h"
#include "say.h"

#define PRELOADED "libasancol_preload.so"
/* One that is there on each machine on which this runs; and what all have. */
#define MARKER_HERE "for-x86_64" MARKER
#define MARKER "/libasancol_before_libasan.so"

static const char *recorder(void)
{
    const char *path = find_recorders_file(PRELOADED);
    if (path == NULL)
        fail(OWN_FAILURE, "--preload", PRELOADED " is not there; make install-recorder copies it");
    if (strpbrk(path, " :") != NULL)
        fail(OWN_FAILURE, path, "the dynamic linker preloads nothing with a blank or a colon in its path");
    return path;
}

/* It is there for all kinds of programs, or for none: the dynamic linker says in each program that it does not find
   it. */
static char *marker(const char **why)
{
    char *path = find_recorders_file(MARKER_HERE), *all;
    *why = NULL;
    if (path == NULL) {
        *why = "programs that asancol-cc did not build go unnoticed: " MARKER_HERE " is missing; "
               "make install-recorder copies it";
        return NULL;
    }
    path[strlen(path) - strlen(MARKER_HERE)] = 0;
    if (strpbrk(path, " :$") != NULL)
        *why = "programs that asancol-cc did not build go unnoticed: asancol is in a folder whose path has a blank, a "
               "colon or a dollar sign";
    else if (asprintf(&all, "%sfor-$PLATFORM" MARKER, path) >= 0)
        return all;
    return NULL;
}

/* Whether it is among the others, since a run round this one has put it there. */
static bool has(const char *value, const char *path)
{
    size_t length = strlen(path);
    for (const char *at = value; (at = strstr(at, path)) != NULL; at += length)
        if ((at == value || strchr(" :", at[-1]) != NULL) && strchr(" :", at[length]) != NULL)
            return true;
    return false;
}

const char *preload_value(bool has_recorder, bool has_marker, const char **why)
{
    const char *before = getenv("LD_PRELOAD"), *first = has_recorder ? recorder() : "";
    const char *last = has_marker ? marker(why) : NULL;
    char *all;
    before = before != NULL ? before : "";
    if (last == NULL || has(before, last))
        last = "";
    if (asprintf(&all, "%s%s%s%s%s", first, *first != 0 && *before != 0 ? ":" : "", before,
                 *last != 0 && (*first != 0 || *before != 0) ? ":" : "", last)
        < 0)
        must(NULL);
    return *first != 0 || *last != 0 ? all : NULL;
}

/* Stateless: the folders of PATH are tried in their order. */
#define _GNU_SOURCE
#include "common/path.h"

#include <limits.h>
#include <stdio.h>
#include <stdlib.h>
#include <string.h>
#include <sys/stat.h>
#include <unistd.h>

#include "common/must.h"

/* If PATH is not set. */
#define USUAL_PATH "/usr/local/bin:/usr/bin:/bin"

bool path_is_program(const char *path)
{
    struct stat seen;
    return stat(path, &seen) == 0 && S_ISREG(seen.st_mode) && access(path, X_OK) == 0;
}

char *path_in(const char *folder, size_t length, const char *name)
{
    char *path;
    if (asprintf(&path, "%.*s%s%s", (int)length, folder, length > 0 ? "/" : "", name) < 0)
        no_memory();
    return path;
}

static bool is_wanted(const char *path, const char *but)
{
    char real[PATH_MAX];
    return path_is_program(path) && (but == NULL || (realpath(path, real) != NULL && strcmp(real, but) != 0));
}

char *path_of_program(const char *name, const char *but)
{
    const char *paths = getenv("PATH");
    if (strchr(name, '/') != NULL)
        return path_is_program(name) ? must(strdup(name)) : NULL;
    if (paths == NULL)
        paths = USUAL_PATH;
    for (;;) {
        size_t length = strcspn(paths, ":");
        char *path = path_in(paths, length, name);
        if (is_wanted(path, but))
            return path;
        free(path);
        if (paths[length] == 0)
            return NULL;
        paths += length + 1;
    }
}

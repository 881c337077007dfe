/* The path of the program, read once; files are looked for beside it and in ../lib/asancol. */
#define _GNU_SOURCE
#include "wrapper/self.h"

#include <limits.h>
#include <stdio.h>
#include <stdlib.h>
#include <string.h>
#include <unistd.h>

#include "common/array.h"
#include "common/must.h"
#include "common/text.h"
#include "wrapper/say.h"

const char *self_path(void)
{
    static char path[PATH_MAX];
    if (path[0] == 0) {
        ssize_t length = readlink("/proc/self/exe", path, sizeof path - 1);
        path[length < 0 ? 0 : length] = 0;
    }
    return path;
}

const char *self_run(void)
{
    static char path[PATH_MAX + 32];
    const char *self = self_path();
    int length = (int)(base_name(self) - self);
    snprintf(path, sizeof path, "%.*s../run/asancol-run", length, self);
    if (access(path, X_OK) == 0) {
        static char real[PATH_MAX];
        return realpath(path, real) != NULL ? real : path;
    }
    snprintf(path, sizeof path, "%.*sasancol-run", length, self);
    return path;
}

static const char *first_folder;

void self_set_folder(const char *folder)
{
    first_folder = folder;
}

/* A file in this folder of each place; or null. */
static char *find_in(const char *folder, const char *name)
{
    static const char *const places[] = {"", "../lib/asancol/"};
    const char *self = self_path();
    for (size_t i = 0; i < COUNT(places); i++) {
        char path[2 * PATH_MAX];
        snprintf(path, sizeof path, "%.*s%s%s%s%s", (int)(base_name(self) - self), self, places[i], folder,
                 folder[0] != 0 ? "/" : "", name);
        if (access(path, R_OK) == 0)
            return must(strdup(path));
    }
    return NULL;
}

char *self_find_file(const char *name)
{
    char *path = first_folder != NULL ? find_in(first_folder, name) : NULL;
    return path != NULL ? path : find_in("", name);
}

char *self_file(const char *name)
{
    char *path = self_find_file(name);
    if (path == NULL)
        fail(name, "not found beside the wrapper");
    return path;
}

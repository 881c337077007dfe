/* The rows of fronts.def; a name is followed through links until one of them fits. */
#define _GNU_SOURCE
#include "wrapper/fronts.h"

#include <limits.h>
#include <stdio.h>
#include <string.h>
#include <unistd.h>

#include "common/array.h"
#include "common/must.h"
#include "common/text.h"

#define FRONT(name, end, variable, usual, has_new, links_libm) {name, end, variable, usual, has_new, links_libm},
static const struct front fronts[] = {
#include "wrapper/fronts.def"
};
#undef FRONT

/* How long a name is without a version at its end, as -14 or -14.2. */
static size_t length_of_name(const char *name)
{
    size_t length = strlen(name), at = length;
    while (at > 0 && strchr("0123456789.", name[at - 1]) != NULL)
        at--;
    return at > 1 && at < length && name[at - 1] == '-' ? at - 1 : length;
}

static bool has_end(const char *name, size_t length, const char *end)
{
    size_t of_end = end != NULL ? strlen(end) : length + 1;
    return length >= of_end && strncmp(name + length - of_end, end, of_end) == 0;
}

/* The row whose name, or whose other end, a name has at its end; or null. */
static const struct front *row_of(const char *name, bool by_end)
{
    size_t length = length_of_name(name);
    for (size_t i = 0; i < COUNT(fronts); i++)
        if (has_end(name, length, by_end ? fronts[i].end : fronts[i].name))
            return &fronts[i];
    return NULL;
}

/* Takes what the last part of a path means. False: nothing. */
static bool take_name(const char *path, struct called *called)
{
    static const char own[] = "asancol-";
    const char *name = base_name(path);
    called->front = row_of(name, false);
    if (called->front != NULL)
        return true;
    if (begins_with(name, own) && name[strlen(own)] != 0) {
        called->name = must(strdup(name));
        called->compiler = called->name + strlen(own);
    }
    called->front = row_of(name, true);
    return called->front != NULL || called->compiler != NULL;
}

/* Puts what a link leads to in its place. False: it is none. */
static bool follow(char *path)
{
    char target[PATH_MAX], whole[2 * PATH_MAX];
    ssize_t length = readlink(path, target, sizeof target - 1);
    if (length <= 0)
        return false;
    target[length] = 0;
    int folder = target[0] == '/' ? 0 : (int)(base_name(path) - path);
    if (snprintf(whole, sizeof whole, "%.*s%s", folder, path, target) >= PATH_MAX)
        return false;
    strcpy(path, whole);
    return true;
}

struct called called_as(const char *word, const char *path)
{
    enum { MAX_LINKS = 40 }; /* as the system follows */
    char at[PATH_MAX];
    struct called called = {0};
    bool is_known = take_name(word, &called);
    if (snprintf(at, sizeof at, "%s", path) >= PATH_MAX)
        at[0] = 0;
    for (int i = 0; !is_known && i < MAX_LINKS; i++) {
        is_known = take_name(at, &called);
        if (!follow(at))
            break;
    }
    if (called.front == NULL)
        called.front = &fronts[0];
    if (called.name == NULL)
        called.name = called.front->name;
    return called;
}

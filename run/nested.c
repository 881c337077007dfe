/* Up to three files in the folder of the outer run: their names are the message. */
#define _GNU_SOURCE
#include "nested.h"

#include <dirent.h>
#include <fcntl.h>
#include <limits.h>
#include <stdio.h>
#include <stdlib.h>
#include <string.h>
#include <unistd.h>

#include "common/text.h"
#include "folder.h"
#include "hub.h"
#include "outer.h"
#include "say.h"

#define FRONT "nested."
#define RESULT ".jsonl"
#define RECORDED ".recorded"
#define BEGUN ".begun"

static char result[PATH_MAX];
static const char *outer; /* the socket of the run round this one, or null */

void nested_begin(void)
{
    char folder[PATH_MAX];
    outer = outer_hub();
    const char *slash = outer != NULL ? strrchr(outer, '/') : NULL;
    if (slash == NULL || slash == outer || slash - outer > PATH_MAX / 2)
        return;
    snprintf(folder, sizeof folder, "%.*s", (int)(slash - outer), outer);
    if (access(folder, W_OK | X_OK) == 0)
        snprintf(result, sizeof result, "%.*s/" FRONT "%d.%.9f" RESULT, (int)(slash - outer), outer, getpid(), now());
}

const char *nested_result(void)
{
    return result[0] != 0 ? result : NULL;
}

/* The name that stands beside the result. */
static const char *beside_result(const char *end)
{
    static char path[PATH_MAX];
    snprintf(path, sizeof path, "%.*s%s", (int)(strlen(result) - strlen(RESULT)), result, end);
    return path;
}

static bool make_beside_result(const char *end)
{
    int made = result[0] != 0 ? open(beside_result(end), O_WRONLY | O_CREAT | O_CLOEXEC, 0600) : -1;
    if (made >= 0)
        close(made);
    return made >= 0;
}

void nested_note_begun(void)
{
    if (outer == NULL || make_beside_result(BEGUN))
        return;
    result[0] = 0;
    if (hub_knock(outer))
        say("asancol-run: the outer run does not get this result: no file can be made beside %s", outer);
}

void nested_take_back(void)
{
    if (result[0] != 0)
        unlink(beside_result(BEGUN));
}

void nested_note_recorded(void)
{
    make_beside_result(RECORDED);
}

/* Whether a run that has begun has left a result. */
static bool has_result(int folder, const char *begun)
{
    char name[NAME_MAX + sizeof RESULT];
    snprintf(name, sizeof name, "%.*s" RESULT, (int)(strlen(begun) - strlen(BEGUN)), begun);
    return faccessat(folder, name, F_OK, 0) == 0;
}

struct nested nested_found(void)
{
    struct nested found = {0};
    DIR *entries = folder_entries();
    struct dirent *entry;
    while (entries != NULL && (entry = readdir(entries)) != NULL)
        if (begins_with(entry->d_name, FRONT)) {
            found.is_there |= ends_with(entry->d_name, RESULT);
            found.has_recorded |= ends_with(entry->d_name, RECORDED);
            found.lost += ends_with(entry->d_name, BEGUN) && !has_result(dirfd(entries), entry->d_name);
        }
    if (entries != NULL)
        closedir(entries);
    return found;
}

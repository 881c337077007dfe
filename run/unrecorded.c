/* The marks are read twice: for the folders of programs that asancol-cc built, and for the other programs. */
#define _GNU_SOURCE
#include "unrecorded.h"

#include <dirent.h>
#include <limits.h>
#include <stddef.h>
#include <stdlib.h>
#include <string.h>
#include <unistd.h>

#include "common/must.h"
#include "common/program_marks.h"
#include "common/string_list.h"
#include "common/text.h"
#include "folder.h"
#include "unchecked.h"

/* Folders, each with a slash at its end. */
static char current[PATH_MAX]; /* the current one; empty: it is the root, or not known */
static struct strings folders; /* those of programs that asancol-cc built, each once */

/* Reads the path of the program that a mark stands for. */
static bool read_mark(int folder, const char *name, char path[PATH_MAX])
{
    static const char deleted[] = " (deleted)";
    ssize_t length = readlinkat(folder, name, path, PATH_MAX - 1);
    path[length > 0 ? length : 0] = 0;
    if (ends_with(path, deleted))
        path[strlen(path) - strlen(deleted)] = 0;
    return path[0] == '/';
}

static bool is_known(const char *folder)
{
    for (size_t i = 0; i < folders.count; i++)
        if (begins_with(folder, folders.items[i]))
            return true;
    return false;
}

static void take_folder(const char *path)
{
    char *folder = must(strndup(path, (size_t)(strrchr(path, '/') - path) + 1));
    if (is_known(folder))
        free(folder);
    else
        strings_add(&folders, folder);
}

static void take_program(const char *path, bool all)
{
    bool is_here = current[0] != 0 && begins_with(path, current);
    if (is_here || all || is_known(path))
        unchecked_add_program(is_here ? path + strlen(current) : path, base_name(path));
}

static void take_marks(const char *front, bool all)
{
    DIR *entries = folder_entries();
    struct dirent *entry;
    char path[PATH_MAX];
    while (entries != NULL && (entry = readdir(entries)) != NULL) {
        if (!begins_with(entry->d_name, front) || !read_mark(dirfd(entries), entry->d_name, path))
            continue;
        if (strcmp(front, MARK_OURS) == 0)
            take_folder(path);
        else
            take_program(path, all);
    }
    if (entries != NULL)
        closedir(entries);
}

void unrecorded_take(bool all)
{
    if (getcwd(current, sizeof current - 1) == NULL || current[0] != '/' || current[1] == 0)
        current[0] = 0;
    else
        strcat(current, "/");
    take_marks(MARK_OURS, all);
    take_marks(MARK_OTHERS, all);
}

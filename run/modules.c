/* A hash table by inode, with a count of the processes that have each. */
#define _GNU_SOURCE
#include "modules.h"

#include <fcntl.h>
#include <stdbool.h>
#include <stdio.h>
#include <stdlib.h>
#include <string.h>
#include <sys/stat.h>
#include <unistd.h>

#include "say.h"

struct module {
    int descriptor;
    dev_t device;
    ino_t node;
    size_t processes; /* that run it */
    struct module *next;
};

enum { BUCKETS = 1024 };
static struct module *buckets[BUCKETS];
static size_t held, most_held;

void modules_allow(size_t most)
{
    most_held = most;
}

static struct module **bucket(ino_t node)
{
    return &buckets[node % BUCKETS];
}

/* Whether it is a file that we can read: a process may send anything. */
static bool is_file(int descriptor, struct stat *seen)
{
    int flags = fcntl(descriptor, F_GETFL);
    return flags >= 0 && (flags & O_ACCMODE) != O_WRONLY && (flags & O_PATH) == 0 && fstat(descriptor, seen) == 0
           && S_ISREG(seen->st_mode);
}

static struct module *find(const struct stat *seen)
{
    struct module *found = *bucket(seen->st_ino);
    while (found != NULL && (found->node != seen->st_ino || found->device != seen->st_dev))
        found = found->next;
    return found;
}

/* The module that a descriptor is of: it is taken, or closed if it is not needed. Null: it is of no use. */
static struct module *take(int descriptor)
{
    struct stat seen;
    bool is_good = is_file(descriptor, &seen);
    struct module *module = is_good ? find(&seen) : NULL;
    if (module != NULL || !is_good || held >= most_held) {
        close(descriptor);
        return module;
    }
    module = must(malloc(sizeof *module));
    *module = (struct module){descriptor, seen.st_dev, seen.st_ino, 0, *bucket(seen.st_ino)};
    *bucket(seen.st_ino) = module;
    held++;
    return module;
}

void modules_take(struct modules *modules, const int *descriptors, size_t count)
{
    for (size_t i = 0; i < count; i++) {
        struct module *module = take(descriptors[i]);
        if (module == NULL)
            continue;
        if (modules->list == NULL)
            modules->list = must(malloc(SIDE_FILES * sizeof(struct module *)));
        module->processes++;
        modules->list[modules->count++] = module;
    }
}

/* Opens the file of a line of the map: of its first part, if it is not the system's and not held yet. -1: it is
   none. */
static int open_line(const struct modules *modules, const char *line)
{
    unsigned long offset, node;
    int at = 0;
    struct stat seen;
    char path[4096];
    if (sscanf(line, "%*x-%*x %*s %lx %*s %lu %n", &offset, &node, &at) != 2 || offset != 0 || line[at] != '/'
        || strncmp(line + at, "/usr/lib", strlen("/usr/lib")) == 0 || strncmp(line + at, "/lib", strlen("/lib")) == 0)
        return -1;
    for (size_t i = 0; i < modules->count; i++)
        if (modules->list[i]->node == node)
            return -1;
    snprintf(path, sizeof path, "%.*s", (int)strcspn(line + at, "\n"), line + at);
    int descriptor = open(path, O_RDONLY | O_CLOEXEC | O_NONBLOCK | O_NOCTTY);
    if (descriptor < 0 || (fstat(descriptor, &seen) == 0 && seen.st_ino == node))
        return descriptor;
    close(descriptor);
    return -1;
}

void modules_find(struct modules *modules, const char *map)
{
    for (const char *line = map; line != NULL && modules->count < SIDE_FILES; line = strchr(line, '\n')) {
        line += *line == '\n';
        int descriptor = open_line(modules, line);
        if (descriptor >= 0)
            modules_take(modules, &descriptor, 1);
    }
}

size_t modules_copy(const struct modules *modules, int copies[SIDE_FILES])
{
    size_t count = 0;
    for (size_t i = 0; i < modules->count; i++) {
        int copy = fcntl(modules->list[i]->descriptor, F_DUPFD_CLOEXEC, STDERR_FILENO + 1);
        if (copy >= 0)
            copies[count++] = copy;
    }
    return count;
}

static void drop(struct module *module)
{
    struct module **at = bucket(module->node);
    while (*at != module)
        at = &(*at)->next;
    *at = module->next;
    close(module->descriptor);
    free(module);
    held--;
}

void modules_let_go(struct modules *modules)
{
    for (size_t i = 0; i < modules->count; i++)
        if (--modules->list[i]->processes == 0)
            drop(modules->list[i]);
    free(modules->list);
    *modules = (struct modules){0};
}

size_t modules_held(void)
{
    return held;
}

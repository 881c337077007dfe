/* All of /proc is read into an array ordered by number, and lines of parents are followed in that. `inherited` are
   those that were there before the command. */
#define _GNU_SOURCE
#include "descendants.h"

#include <ctype.h>
#include <dirent.h>
#include <errno.h>
#include <fcntl.h>
#include <signal.h>
#include <stdio.h>
#include <stdlib.h>
#include <string.h>
#include <sys/prctl.h>
#include <sys/stat.h>
#include <sys/wait.h>
#include <unistd.h>

#include "children.h"
#include "say.h"

void descendants_adopt(void)
{
    prctl(PR_SET_CHILD_SUBREAPER, 1);
}

/* The number that /proc has for us; and where our own number stands after NSpid in a status there. Under `unshare -pf`
   /proc is still that of the namespace outside, and has other numbers than the system gives us. */
static pid_t self;
static int column;
/* A process that is served (serving.h): it and all below it are ours, as /proc has its number; 0: there is none. */
static pid_t served;

struct kin {
    pid_t number, parent, group; /* as /proc has them */
    unsigned long long started; /* since the system's start: with the number it names one process */
    bool is_zombie;
};

/* Those that had begun before the command, in the order of their numbers: a shell that became asancol-run by exec had
   children. They, and what they start, are not the command's. */
static struct kin *inherited;
static size_t inherited_count;

/* The number in our namespace of one that /proc has under this one; 0: it is gone, or not in it. */
static pid_t number_here(pid_t number)
{
    char path[64], line[256], *at = NULL, *rest = NULL;
    if (column == 0)
        return number;
    snprintf(path, sizeof path, "/proc/%d/status", number);
    FILE *status = fopen(path, "re");
    while (status != NULL && at == NULL && fgets(line, sizeof line, status) != NULL)
        at = strncmp(line, "NSpid:", strlen("NSpid:")) == 0 ? strtok_r(line + strlen("NSpid:"), "\t\n", &rest) : NULL;
    if (status != NULL)
        fclose(status);
    for (int i = 0; i < column && at != NULL; i++)
        at = strtok_r(NULL, "\t\n", &rest);
    return at != NULL ? atoi(at) : 0;
}

/* Without /proc nothing of it is asked. */
static void find_self(void)
{
    char text[32] = "";
    self = readlink("/proc/self", text, sizeof text - 1) > 0 ? atoi(text) : getpid();
    if (self == getpid())
        return;
    for (column = 1; column < 32; column++)
        if (number_here(self) == getpid())
            return;
    column = 0;
}

static int by_number(const void *left, const void *right)
{
    pid_t one = ((const struct kin *)left)->number, other = ((const struct kin *)right)->number;
    return (one > other) - (one < other);
}

/* False: it is gone. */
static bool read_kin(const char *name, struct kin *kin)
{
    char path[300], text[1024], state;
    snprintf(path, sizeof path, "/proc/%s/stat", name);
    FILE *file = fopen(path, "re");
    size_t length = file != NULL ? fread(text, 1, sizeof text - 1, file) : 0;
    if (file != NULL)
        fclose(file);
    text[length] = 0;
    /* The name, in brackets, may have brackets itself. */
    const char *end = strrchr(text, ')');
    kin->number = atoi(name);
    /* After the group: the session, the terminal and its group, flags, faults, times, priorities and threads. */
    bool is_read = end != NULL
                   && sscanf(end + 1, " %c %d %d %*d %*d %*d %*u %*u %*u %*u %*u %*u %*u %*d %*d %*d %*d %*d %*d %llu",
                             &state, &kin->parent, &kin->group, &kin->started) == 4;
    kin->is_zombie = is_read && (state == 'Z' || state == 'X');
    /* One that is just being taken away has no parent any more. */
    return is_read && !(kin->is_zombie && kin->parent == 0);
}

/* All processes that run, in the order of their numbers. */
static struct kin *read_all(size_t *count)
{
    struct kin *all = NULL;
    size_t room = 0;
    DIR *entries = opendir("/proc");
    struct dirent *entry;
    *count = 0;
    while (entries != NULL && (entry = readdir(entries)) != NULL) {
        if (!isdigit((unsigned char)entry->d_name[0]))
            continue;
        if (*count == room)
            all = must(realloc(all, (room = room * 2 + 64) * sizeof *all));
        *count += read_kin(entry->d_name, &all[*count]) && !all[*count].is_zombie;
    }
    if (entries != NULL)
        closedir(entries);
    if (*count > 0)
        qsort(all, *count, sizeof *all, by_number);
    return all;
}

static struct kin *find(struct kin *all, size_t count, pid_t number)
{
    struct kin key = {.number = number};
    return count > 0 ? bsearch(&key, all, count, sizeof *all, by_number) : NULL;
}

/* The last of its line of parents, itself included, before us; null if the line does not lead to us. */
static const struct kin *child_above(struct kin *all, size_t count, const struct kin *kin)
{
    for (int steps = 0; kin != NULL && steps < 10000; steps++) {
        if (kin->parent == self)
            return kin;
        kin = kin->parent > 1 ? find(all, count, kin->parent) : NULL;
    }
    return NULL;
}

/* Whether we have a child of any kind, which may have ended. */
static bool has_child(void)
{
    siginfo_t ended;
    return waitid(P_ALL, 0, &ended, WEXITED | WNOHANG | WNOWAIT | __WALL) == 0 || errno != ECHILD;
}

/* Mostly there are none, and to look at all processes takes as long as a small run. */
void descendants_note_inherited(void)
{
    size_t count;
    find_self();
    if (!has_child())
        return;
    struct kin *all = read_all(&count);
    inherited = must(calloc(count + 1, sizeof *inherited));
    for (size_t i = 0; i < count; i++)
        if (child_above(all, count, &all[i]) != NULL)
            inherited[inherited_count++] = all[i];
    free(all);
}

/* The number that /proc has for one of our namespace; 0: it has none. */
static pid_t number_there(pid_t number)
{
    size_t count;
    pid_t found = 0;
    if (column == 0)
        return number;
    struct kin *all = read_all(&count);
    for (size_t i = 0; i < count && found == 0; i++)
        found = number_here(all[i].number) == number ? all[i].number : 0;
    free(all);
    return found;
}

void descendants_are_of(pid_t number)
{
    find_self();
    served = number_there(number);
}

/* A process's environment, and a 0, by one call: an exec between two would leave a part of it. Null: nobody may know
   it. */
static char *read_environment(pid_t number, size_t *length)
{
    char path[64], *text = NULL;
    ssize_t got;
    size_t room = 1 << 15;
    snprintf(path, sizeof path, "/proc/%d/environ", number);
    do {
        int file = open(path, O_RDONLY | O_CLOEXEC);
        text = must(realloc(text, (room *= 2) + 1));
        got = file >= 0 ? read(file, text, room) : -1;
        if (file >= 0)
            close(file);
    } while (got == (ssize_t)room);
    if (got <= 0) { /* in the middle of an exec there is none */
        free(text);
        return NULL;
    }
    *length = (size_t)got;
    text[got] = 0;
    return text;
}

/* Whether a process was begun with the hub that was there for us, or like us without one. Those of the command have
   ours, unless it takes it away from them. False too, if nobody may know. */
static bool has_hub_of_ours(pid_t number)
{
    static const char name[] = "ASANCOL_HUB=";
    size_t length = 0;
    char *text = read_environment(number, &length);
    const char *hub = getenv("ASANCOL_HUB"), *found = NULL;
    for (const char *at = text; at != NULL && at < text + length; at += strlen(at) + 1)
        if (strncmp(at, name, sizeof name - 1) == 0)
            found = at + sizeof name - 1;
    bool is_both = found != NULL && hub != NULL, is_same = is_both ? strcmp(found, hub) == 0 : found == hub;
    bool is_read = text != NULL;
    free(text);
    return is_read && is_same;
}

/* Whether a child of ours is none of the command's: it was there before, or was started by one that was, and has been
   left to us. */
static bool is_inherited(const struct kin *child)
{
    const struct kin *before = find(inherited, inherited_count, child->number);
    if (before != NULL && before->started == child->started)
        return true;
    return inherited_count > 0 && has_hub_of_ours(child->number);
}

static bool is_of_command(const struct kin *child)
{
    return !child_is_ours(number_here(child->number)) && !is_inherited(child);
}

/* Whether its line of parents leads to us, by one that is the command's. */
static bool is_descendant(struct kin *all, size_t count, const struct kin *kin)
{
    for (int steps = 0; served != 0 && kin != NULL && steps < 10000; steps++) {
        if (kin->number == served)
            return true;
        kin = kin->parent > 1 ? find(all, count, kin->parent) : NULL;
    }
    const struct kin *child = served == 0 ? child_above(all, count, kin) : NULL;
    return child != NULL && is_of_command(child);
}

/* Follows its line of parents. Unknown: one of the line was gone before it could be looked at. */
static enum kinship follow(pid_t number)
{
    for (int steps = 0; number > 1 && steps < 10000; steps++) {
        char name[16];
        struct kin kin;
        snprintf(name, sizeof name, "%d", number);
        if (!read_kin(name, &kin))
            return KINSHIP_UNKNOWN;
        if (served != 0 && number == served)
            return KINSHIP_OURS;
        if (served == 0 && kin.parent == self)
            return is_of_command(&kin) ? KINSHIP_OURS : KINSHIP_NONE;
        number = kin.parent;
    }
    return KINSHIP_NONE;
}

enum kinship descendants_kinship(pid_t number)
{
    pid_t there = self != 0 ? number_there(number) : 0;
    if (there == 0)
        return KINSHIP_UNKNOWN;
    /* If a parent has ended meanwhile, the child has another one. */
    enum kinship found = KINSHIP_UNKNOWN;
    for (int tries = 0; tries < 3 && found == KINSHIP_UNKNOWN; tries++)
        found = follow(there);
    return found;
}

static bool is_of_user(pid_t number, uid_t user)
{
    char path[64], line[256];
    unsigned effective = 0;
    bool is_found = false;
    snprintf(path, sizeof path, "/proc/%d/status", number);
    FILE *status = fopen(path, "re");
    while (status != NULL && !is_found && fgets(line, sizeof line, status) != NULL)
        is_found = sscanf(line, "Uid: %*u %u", &effective) == 1;
    if (status != NULL)
        fclose(status);
    return is_found && effective == user;
}

bool descendants_have_user(uid_t user)
{
    size_t count;
    struct kin *all = read_all(&count);
    bool is_found = false;
    for (size_t i = 0; i < count && !is_found; i++)
        is_found = is_descendant(all, count, &all[i]) && is_of_user(all[i].number, user);
    free(all);
    return is_found;
}

/* Whether it is an asancol-run, as this is. */
static bool is_run(pid_t number)
{
    char path[64];
    struct stat seen, ours;
    snprintf(path, sizeof path, "/proc/%d/exe", number);
    return stat(path, &seen) == 0 && stat("/proc/self/exe", &ours) == 0 && seen.st_dev == ours.st_dev
           && seen.st_ino == ours.st_ino;
}

void descendants_signal(int number, bool gently)
{
    size_t count;
    struct kin *all = read_all(&count);
    for (size_t i = 0; i < count; i++) {
        const struct kin *kin = &all[i];
        /* What a run starts for itself has its own process group. */
        bool is_helper = gently && kin->group == kin->number && kin->parent != self && is_run(kin->parent);
        pid_t here = is_descendant(all, count, kin) && !is_helper ? number_here(kin->number) : 0;
        if (here > 0) {
            kill(here, number);
            if (gently)
                kill(here, SIGCONT); /* one that is stopped would not see it */
        }
    }
    free(all);
}

/* Looks at all processes, for a system that does not list children. */
static bool is_parent_of_one(void)
{
    size_t count;
    struct kin *all = read_all(&count);
    bool is_found = false;
    for (size_t i = 0; i < count && !is_found; i++)
        is_found = all[i].parent == self && is_of_command(&all[i]);
    free(all);
    return is_found;
}

/* Whether a child of this number, that has not ended, is the command's. */
static bool is_left(const char *number)
{
    struct kin kin;
    if (column == 0 && child_is_ours(atoi(number)))
        return false; /* without a look at each checker */
    if (read_kin(number, &kin))
        return !kin.is_zombie && is_of_command(&kin);
    /* It is gone, or hidden from us, as one of another user may be (hidepid). */
    pid_t here = number_here(atoi(number));
    return here > 0 && !child_is_ours(here) && (kill(here, 0) == 0 || errno == EPERM);
}

bool descendants_left(void)
{
    char path[64], number[16];
    bool is_found = false;
    if (served != 0 || !has_child())
        return false;
    snprintf(path, sizeof path, "/proc/self/task/%d/children", self);
    FILE *children = fopen(path, "re");
    if (children == NULL)
        return is_parent_of_one();
    while (!is_found && fscanf(children, "%15s", number) == 1)
        is_found = is_left(number);
    fclose(children);
    return is_found;
}

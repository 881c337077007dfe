/* Collects the numbers of at most 64 ancestors, up to the first that is called asancol-run. Then it reads ASANCOL_HUB
   from /proc/PID/environ of each of them, the parent first and that asancol-run last: it may run in another run. */
#define _GNU_SOURCE
#include "environment/ancestors.h"

#include <fcntl.h>
#include <stddef.h>
#include <string.h>

#include "base/digits.h"
#include "base/system.h"
#include "environment/hub_names.h"

enum { PIECE = 4096, HUB_ROOM = 128, PATH_ROOM = 48, MOST_ABOVE = 64 };

/* The entry of an environment that is being read. */
struct entry {
    size_t length;
    bool is_other;
    char hub[HUB_ROOM];
};

/* Takes a byte. Answers whether the hub is there, whole. */
static bool take_byte(struct entry *entry, char byte)
{
    static const char front[] = HUB_ENTRY;
    size_t at = entry->length++, before = sizeof front - 1;
    entry->is_other |= at < before ? byte != front[at] : at - before >= HUB_ROOM;
    if (!entry->is_other && at >= before)
        entry->hub[at - before] = byte;
    if (byte != 0)
        return false;
    bool is_hub = !entry->is_other && at > before;
    entry->length = 0;
    entry->is_other = false;
    return is_hub;
}

/* Opens /proc/PROCESS/WHAT for the caller, who closes it. Below zero: it cannot be opened. */
static int open_of(pid_t process, const char *what)
{
    char path[PATH_ROOM], digits[DIGITS_ROOM];
    struct joined joined = {.text = path, .room = sizeof path};
    joined_add(&joined, "/proc/", PATH_ROOM);
    joined_add(&joined, put_digits(digits + sizeof digits, (uint64_t)process, 1), sizeof digits);
    joined_add(&joined, what, PATH_ROOM);
    return system_open(path, O_RDONLY | O_CLOEXEC, 0);
}

/* Reads the environment up to the entry of the hub. False: it has none, or cannot be read. */
static bool read_hub(pid_t process, struct entry *entry)
{
    char piece[PIECE];
    ssize_t count;
    bool is_there = false;
    int file = open_of(process, "/environ");
    while (file >= 0 && !is_there && (count = system_read(file, piece, sizeof piece)) > 0)
        for (ssize_t i = 0; i < count && !is_there; i++)
            is_there = take_byte(entry, piece[i]);
    if (file >= 0)
        system_close(file);
    return is_there;
}

/* Data of a process. */
struct known {
    pid_t parent; /* 0: none is known */
    bool is_run;
};

/* By /proc/PID/stat: "NUMBER (NAME) STATE PARENT ..". */
static struct known known_of(pid_t process)
{
    static const char name[] = " (asancol-run";
    char text[PIECE];
    struct known known = {0, false};
    int file = open_of(process, "/stat");
    ssize_t count = file >= 0 ? system_read(file, text, sizeof text) : 0, at = 0;
    if (file >= 0)
        system_close(file);
    while (at < count && text[at] != ' ')
        at++;
    known.is_run = at + (ssize_t)sizeof name < count && memcmp(text + at, name, sizeof name - 1) == 0;
    for (at = count; at > 0 && text[at - 1] != ')';) /* a name may have them, too */
        at--;
    for (at += 3; at < count && text[at] >= '0' && text[at] <= '9'; at++) /* after a blank, a state, and a blank */
        known.parent = known.parent * 10 + (text[at] - '0');
    return known;
}

bool ancestors_hubs(bool (*take)(const char *hub, const char *why), const char *why)
{
    pid_t above[MOST_ABOVE];
    size_t count = 0;
    char asked[HUB_ROOM] = "";
    struct known known = {system_getppid(), false};
    while (count < MOST_ABOVE && known.parent > 0 && !known.is_run) {
        above[count++] = known.parent;
        known = known_of(known.parent);
    }
    for (size_t i = 0; i < count && known.is_run; i++) {
        struct entry entry = {0};
        if (!read_hub(above[i], &entry) || strcmp(entry.hub, asked) == 0)
            continue;
        if (take(entry.hub, why))
            return true;
        memcpy(asked, entry.hub, sizeof asked);
    }
    return false;
}

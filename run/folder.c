/* One descriptor, opened when the folder was made, with a lock for as long as the run lives. */
#define _GNU_SOURCE
#include "folder.h"

#include <fcntl.h>
#include <limits.h>
#include <stdio.h>
#include <stdlib.h>
#include <string.h>
#include <sys/file.h>
#include <sys/stat.h>
#include <unistd.h>

#include "common/array.h"
#include "common/program_marks.h"
#include "common/text.h"

/* Says which start of the system the lock of a folder is from: it is made once that is held, and on another machine
   with the same files the lock may mean nothing. */
#define BOOT "boot"
enum { BOOT_ROOM = 64 };
/* When a run begins: how many names are looked at, how many folders are removed, and how many names in each. */
enum { MAX_LOOKED_AT = 4096, MAX_SWEPT = 16, MAX_EMPTIED = 4096 };

static const char *folder; /* or null */
static int descriptor = -1;

bool folder_is_open_to_all(const char *base)
{
    struct stat seen;
    return stat(base, &seen) == 0 && (seen.st_mode & S_IWOTH) != 0 && (seen.st_mode & S_ISVTX) == 0;
}

static int open_folder(int base, const char *name)
{
    return openat(base, name, O_RDONLY | O_DIRECTORY | O_NOFOLLOW | O_CLOEXEC);
}

static bool is_own(int opened)
{
    struct stat seen;
    return fstat(opened, &seen) == 0 && seen.st_uid == geteuid();
}

static bool is_named(int opened, int base, const char *name)
{
    struct stat here, there;
    return fstat(opened, &here) == 0 && fstatat(base, name, &there, AT_SYMLINK_NOFOLLOW) == 0
           && here.st_dev == there.st_dev && here.st_ino == there.st_ino;
}

static bool read_boot(char *room)
{
    int from = open("/proc/sys/kernel/random/boot_id", O_RDONLY | O_CLOEXEC);
    ssize_t length = from >= 0 ? read(from, room, BOOT_ROOM - 1) : -1;
    if (from >= 0)
        close(from);
    room[length > 0 ? length : 0] = 0;
    room[strcspn(room, "\n")] = 0;
    return room[0] != 0;
}

static void close_folder(void)
{
    if (descriptor >= 0)
        close(descriptor);
    descriptor = -1;
    folder = NULL;
}

/* Another run leaves it alone while it is locked. */
static void lock(void)
{
    char boot[BOOT_ROOM];
    if (flock(descriptor, LOCK_EX | LOCK_NB) == 0 && read_boot(boot))
        (void)!symlinkat(boot, descriptor, BOOT);
}

/* Makes it with rights of its own, whatever the mask leaves. */
static bool make(char *path)
{
    mode_t mask = umask(S_IRWXG | S_IRWXO);
    bool is_made = mkdtemp(path) != NULL;
    umask(mask);
    return is_made;
}

bool folder_make(const char *base, char *path, size_t room)
{
    int length = snprintf(path, room, "%s" FOLDER_END, base);
    if (length < 0 || (size_t)length >= room || !make(path))
        return false;
    descriptor = open_folder(AT_FDCWD, path);
    if (descriptor < 0 || !is_own(descriptor)) {
        close_folder();
        rmdir(path);
        return false;
    }
    folder = path;
    lock();
    /* What the command has started may be another user's, and have no network of ours: the path is its only way. Nobody
       else can list the folder. */
    fchmod(descriptor, 0711);
    return true;
}

bool folder_open_socket(const char *name)
{
    return fchmodat(descriptor, name, 0777, 0) == 0;
}

bool folder_give_name(const char *before, const char *name)
{
    return folder_open_socket(before) && renameat(descriptor, before, descriptor, name) == 0;
}

static DIR *entries_of(int opened)
{
    int again = opened >= 0 ? open_folder(opened, ".") : -1;
    DIR *entries = again >= 0 ? fdopendir(again) : NULL;
    if (again >= 0 && entries == NULL)
        close(again);
    return entries;
}

DIR *folder_entries(void)
{
    return entries_of(descriptor);
}

const char *folder_lost(void)
{
    struct stat seen;
    if (folder == NULL || is_named(descriptor, AT_FDCWD, folder))
        return NULL;
    return lstat(folder, &seen) == 0 ? "replaced" : "removed";
}

/* Whether a run, or a process of it, gives such a name. */
static bool is_name_of_run(const char *name)
{
    static const char *const fronts[] = {"hub", "ask", BOOT, "nested.", ".nested.", MARK_OURS, MARK_OTHERS};
    for (size_t i = 0; i < COUNT(fronts); i++)
        if (begins_with(name, fronts[i]))
            return true;
    return name[0] >= '0' && name[0] <= '9'; /* the number of a process */
}

static void empty(DIR *entries, int most)
{
    struct dirent *entry;
    while (entries != NULL && most > 0 && (entry = readdir(entries)) != NULL)
        if (is_name_of_run(entry->d_name))
            most -= unlinkat(dirfd(entries), entry->d_name, 0) == 0;
    if (entries != NULL)
        closedir(entries);
}

void folder_remove(void)
{
    if (folder == NULL)
        return;
    empty(folder_entries(), INT_MAX);
    if (is_named(descriptor, AT_FDCWD, folder))
        rmdir(folder);
    close_folder();
}

/* Whether it is that of a run which is gone: nothing else ends the lock. */
static bool is_left_behind(int opened)
{
    char boot[BOOT_ROOM], its[BOOT_ROOM];
    ssize_t length = readlinkat(opened, BOOT, its, sizeof its - 1);
    its[length > 0 ? length : 0] = 0;
    return is_own(opened) && read_boot(boot) && strcmp(boot, its) == 0 && flock(opened, LOCK_EX | LOCK_NB) == 0;
}

/* Removes the folder of this name if a run that is gone has left it. Answers whether it was one. */
static bool sweep_one(int base, const char *name)
{
    int opened = open_folder(base, name);
    bool is_left = opened >= 0 && is_left_behind(opened);
    if (is_left)
        empty(entries_of(opened), MAX_EMPTIED);
    if (is_left && is_named(opened, base, name))
        unlinkat(base, name, AT_REMOVEDIR);
    if (opened >= 0)
        close(opened); /* and with it goes the lock */
    return is_left;
}

void folder_sweep(const char *base)
{
    static const char end[] = FOLDER_END;
    DIR *entries = opendir(base);
    struct dirent *entry;
    int looked_at = 0, swept = 0;
    while (entries != NULL && looked_at++ < MAX_LOOKED_AT && swept < MAX_SWEPT && (entry = readdir(entries)) != NULL)
        if (strlen(entry->d_name) == sizeof end - 2 && strncmp(entry->d_name, end + 1, strcspn(end, "X") - 1) == 0)
            swept += sweep_one(dirfd(entries), entry->d_name);
    if (entries != NULL)
        closedir(entries);
}

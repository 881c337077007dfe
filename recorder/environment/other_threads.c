/* Which threads a process has, by what the system says: the recorder does not see each of them begin and end. */
#define _GNU_SOURCE
#include "environment/other_threads.h"

#include <dirent.h>
#include <errno.h>
#include <fcntl.h>
#include <stdatomic.h>
#include <stdlib.h>
#include <string.h>

#include "base/digits.h"
#include "base/system.h"

static const char tasks[] = "/proc/self/task";
/* In another process: whose threads are meant, and which of them is the running one. */
static _Atomic pid_t of_process, of_thread;

static const char no_answer;
static const char *is_single = &no_answer; /* the C library's, once it is known */

void other_threads_know(const char *single)
{
    is_single = single;
}

/* Whether the system has begun to end a thread, by the text of its `stat`: it runs no code of the program any more. Who
   joins it may go on before it is gone from the folder. */
static bool is_ending(const char *text)
{
    enum { FLAGS = 7, EXITING = 4 }; /* a word after the name, which is in brackets; PF_EXITING of the kernel */
    const char *at = strrchr(text, ')');
    unsigned long flags = 0;
    for (int word = 1; at != NULL && word <= FLAGS; word++)
        at = strchr(at + 1, ' ');
    for (at = at != NULL ? at + 1 : ""; *at >= '0' && *at <= '9'; at++)
        flags = flags * 10 + (unsigned long)(*at - '0');
    return (flags & EXITING) != 0;
}

/* What the system says of a thread of this folder in a file, or as much of it as there is room. Answers its length, or
   an error. */
static ssize_t read_file(int folder, const char *thread, const char *name, char *text, size_t room)
{
    char path[32];
    text[0] = 0;
    if (strlen(thread) + strlen(name) >= sizeof path)
        return -ENAMETOOLONG;
    strcpy(path, thread);
    strcat(path, name);
    int file = (int)system_call4(SYS_openat, folder, (long)path, O_RDONLY | O_CLOEXEC, 0);
    if (file < 0)
        return file;
    ssize_t length = system_read(file, text, room - 1);
    system_close(file);
    text[length > 0 ? length : 0] = 0;
    return length;
}

/* Whether a thread of this folder runs, or may run. */
static bool runs(int folder, const char *thread)
{
    char text[512];
    ssize_t length = read_file(folder, thread, "/stat", text, sizeof text);
    return length != -ENOENT && length != -ESRCH && !is_ending(text);
}

/* Visits the threads of this folder that run, this one among them, until a visit answers true. False: nobody says which
   there are. */
static bool visit_running(int folder, bool (*visit)(const char *thread, void *with), void *with)
{
    _Alignas(struct dirent64) char entries[1024];
    ssize_t length;
    while ((length = system_call3(SYS_getdents64, folder, (long)entries, sizeof entries)) > 0)
        for (ssize_t at = 0; at < length;) {
            const struct dirent64 *entry = (const struct dirent64 *)(entries + at);
            at += entry->d_reclen;
            if (entry->d_name[0] != '.' && runs(folder, entry->d_name) && visit(entry->d_name, with))
                return true;
        }
    return length == 0;
}

static int open_tasks(void)
{
    char path[sizeof "/proc//task" + DIGITS_ROOM] = "/proc/", digits[DIGITS_ROOM];
    pid_t process = atomic_load(&of_process);
    if (process != 0) {
        strcat(path, put_digits(digits + sizeof digits, (uint64_t)process, 1));
        strcat(path, "/task");
    }
    return system_open(process != 0 ? path : tasks, O_RDONLY | O_DIRECTORY | O_CLOEXEC, 0);
}

void other_threads_are_of(pid_t process, pid_t thread)
{
    atomic_store(&of_process, process);
    atomic_store(&of_thread, thread);
}

static bool visit_tasks(bool (*visit)(const char *thread, void *with), void *with)
{
    int folder = open_tasks();
    bool is_seen = folder >= 0 && visit_running(folder, visit, with);
    if (folder >= 0)
        system_close(folder);
    else if (*is_single != 0)
        is_seen = true; /* this thread need not be visited */
    return is_seen;
}

static bool count_up_to_two(const char *thread, void *count)
{
    (void)thread;
    return ++*(int *)count > 1;
}

static bool is_alone(void)
{
    int count = 0;
    return visit_tasks(count_up_to_two, &count) && count < 2;
}

bool has_other_threads(void)
{
    enum { LINKS_OF_ONE = 3 }; /* each thread is a folder in that one */
    struct stat seen;
    if (system_stat(tasks, &seen) == 0 && seen.st_nlink == LINKS_OF_ONE)
        return false;
    /* Twice: one that ends may have begun another one while the first look was at others. */
    return !is_alone() || !is_alone();
}

struct visit {
    void (*visit)(pid_t thread, void *with);
    void *with;
};

static bool visit_other(const char *thread, void *of)
{
    const struct visit *visit = of;
    pid_t number = 0;
    for (const char *digit = thread; *digit >= '0' && *digit <= '9'; digit++)
        number = number * 10 + (*digit - '0');
    pid_t own = atomic_load(&of_thread);
    if (number != (own != 0 ? own : system_gettid()))
        visit->visit(number, visit->with);
    return false;
}

bool other_threads_visit(void (*visit)(pid_t thread, void *with), void *with)
{
    struct visit all = {visit, with};
    return visit_tasks(visit_other, &all);
}

bool other_threads_has(pid_t thread)
{
    char text[DIGITS_ROOM];
    int folder = open_tasks();
    bool is_there = folder < 0 || runs(folder, put_digits(text + sizeof text, (uint64_t)thread, 1));
    if (folder >= 0)
        system_close(folder);
    return is_there;
}

/* What follows a name at the start of a line, or null. */
static const char *find_line(const char *text, const char *name)
{
    size_t length = strlen(name);
    while (text != NULL && strncmp(text, name, length) != 0) {
        text = strchr(text, '\n');
        text = text != NULL ? text + 1 : NULL;
    }
    return text != NULL ? text + length : NULL;
}

bool other_threads_is_deaf(pid_t thread, int number)
{
    enum { ROOM = 4096 }; /* a line with all groups of the user comes before the signals */
    char text[ROOM], digits[DIGITS_ROOM];
    int folder = system_open(tasks, O_RDONLY | O_DIRECTORY | O_CLOEXEC, 0);
    if (folder < 0)
        return false;
    read_file(folder, put_digits(digits + sizeof digits, (uint64_t)thread, 1), "/status", text, sizeof text);
    system_close(folder);
    const char *state = find_line(text, "State:\t"), *blocked = find_line(text, "SigBlk:\t");
    uint64_t all = 0;
    for (; blocked != NULL && *blocked != 0 && *blocked != '\n'; blocked++)
        all = all << 4 | (uint64_t)(*blocked <= '9' ? *blocked - '0' : *blocked - 'a' + 10);
    return state != NULL && *state == 'S' && (all >> (number - 1) & 1) != 0;
}

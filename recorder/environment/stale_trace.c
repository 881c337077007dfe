/* The run began when the outermost process above that has ASANCOL_TRACE was started, by /proc/PID/stat. A file counts
   from its birth, or else its last write. */
#define _GNU_SOURCE
#include "environment/stale_trace.h"

#include <fcntl.h>
#include <string.h>

#include "base/digits.h"
#include "base/system.h"

/* How long a tick is, in which /proc/PID/stat counts. What it says is rounded down. */
enum { TICK_NS = 10000000 };

/* What /proc says of a process. */
static int open_entry(pid_t process, const char *entry)
{
    static const char front[] = "/proc/";
    char path[64], digits[DIGITS_ROOM];
    strcpy(path, front);
    strcat(path, put_digits(digits + sizeof digits, (uint64_t)process, 1));
    strcat(path, entry);
    return system_open(path, O_RDONLY | O_CLOEXEC, 0);
}

/* The number that begins here, if one does. */
static uint64_t number_at(const char *at)
{
    uint64_t number = 0;
    for (; *at >= '0' && *at <= '9'; at++)
        number = number * 10 + (uint64_t)(*at - '0');
    return number;
}

/* Its parent, and when it was started, in ticks since the system's start. False: nobody says. */
static bool read_stat(pid_t process, pid_t *parent, uint64_t *started)
{
    enum { PARENT = 2, STARTED = 20 }; /* words after the name, which is in brackets, and may have blanks */
    char text[1024];
    int file = open_entry(process, "/stat");
    ssize_t length = file >= 0 ? system_read(file, text, sizeof text - 1) : -1;
    if (file >= 0)
        system_close(file);
    text[length > 0 ? length : 0] = 0;
    const char *at = strrchr(text, ')');
    for (int word = 1; at != NULL && word <= STARTED; word++) {
        at = strchr(at + 1, ' ');
        if (at != NULL && word == PARENT)
            *parent = (pid_t)number_at(at + 1);
    }
    *started = at != NULL ? number_at(at + 1) : 0;
    return at != NULL;
}

/* Whether a process was started with ASANCOL_TRACE. */
static bool has_setting(pid_t process)
{
    static const char name[] = "ASANCOL_TRACE=";
    char text[4096];
    ssize_t length;
    size_t matched = 0;
    bool is_other = false; /* the entry is of another name */
    int file = open_entry(process, "/environ");
    if (file < 0)
        return false;
    while (matched < sizeof name - 1 && (length = system_read(file, text, sizeof text)) > 0) {
        for (const char *at = text; at < text + length && matched < sizeof name - 1; at++) {
            is_other = *at != 0 && (is_other || *at != name[matched]);
            matched = *at == 0 || is_other ? 0 : matched + 1;
        }
    }
    system_close(file);
    return matched == sizeof name - 1;
}

static int64_t nanoseconds(int64_t seconds, int64_t rest)
{
    return seconds * 1000000000 + rest;
}

/* When the run was begun, as a time of a file. */
static bool find_begin(int64_t *begun)
{
    struct timespec now, since_start;
    uint64_t started, of_parent;
    pid_t process = system_getpid(), parent = 0, next = 0;
    if (!read_stat(process, &parent, &started))
        return false;
    while (parent > 1 && has_setting(parent) && read_stat(parent, &next, &of_parent)) {
        started = of_parent;
        parent = next;
    }
    system_clock_gettime(CLOCK_REALTIME, &now);
    system_clock_gettime(CLOCK_BOOTTIME, &since_start);
    *begun = nanoseconds(now.tv_sec, now.tv_nsec) - nanoseconds(since_start.tv_sec, since_start.tv_nsec)
             + (int64_t)started * TICK_NS;
    return true;
}

bool is_of_earlier_run(const char *path)
{
    struct statx seen;
    struct timespec behind = {0, TICK_NS}; /* how far the clock of files may be */
    int64_t begun;
    if (system_call6(SYS_statx, HERE, (long)path, 0, STATX_BTIME | STATX_MTIME, (long)&seen, 0) != 0)
        return false;
    struct statx_timestamp made = seen.stx_mask & STATX_BTIME ? seen.stx_btime : seen.stx_mtime;
    system_call3(SYS_clock_getres, CLOCK_REALTIME_COARSE, (long)&behind, 0);
    return find_begin(&begun) && nanoseconds(made.tv_sec, made.tv_nsec) + behind.tv_nsec < begun;
}

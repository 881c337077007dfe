/* Calls that meet the recorder's own descriptors, which the program does not see: it gets EBADF for their numbers, and
   none of them in a listing. Ranges are closed around them; and where another file is wanted at such a number, the
   connection makes way. What read, fstat, fcntl, poll and the like see is in calls.def.

   Called: by the program's calls of these, in any thread, also in a signal handler. Lock: none; by dup2 and dup3
   note_descriptor_wanted takes the stream's, if it is free. A check also calls the function itself. */
#define _GNU_SOURCE
#include <dirent.h>
#include <fcntl.h>
#include <limits.h>
#include <string.h>
#include <unistd.h>

#include "base/digits.h"
#include "base/system.h"
#include "calls/stubs.h"
#include "interface/hooks.h"

/* As long as the texts are that the links of descriptors have of the recorder's. */
enum { LINK_ROOM = 64 };

REAL(int, close, (int));
REAL(int, isatty, (int));
REAL(off_t, lseek, (int, off_t, int));
REAL(off_t, lseek64, (int, off_t, int));
REAL(int, dup, (int));
REAL(int, dup2, (int, int));
REAL(int, dup3, (int, int, int));
REAL(int, close_range, (unsigned, unsigned, int));
REAL(void, closefrom, (int));
REAL(struct dirent *, readdir, (DIR *));
REAL(struct dirent64 *, readdir64, (DIR *));

GUARD_OWN(close);
CHECK int checked_close(int file)
{
    return real_close(ask_shown_descriptor(file));
}

GUARD_OWN(isatty);
CHECK int checked_isatty(int file)
{
    return real_isatty(ask_shown_descriptor(file));
}

/* It has another name with _FILE_OFFSET_BITS=64. */
#define LSEEK(name)                                                                                                    \
    GUARD_OWN(name);                                                                                                   \
    CHECK off_t checked_##name(int file, off_t to, int from)                                                           \
    {                                                                                                                  \
        return real_##name(ask_shown_descriptor(file), to, from);                                                      \
    }

LSEEK(lseek)
LSEEK(lseek64)

GUARD_OWN(dup);
CHECK int checked_dup(int file)
{
    return real_dup(ask_shown_descriptor(file));
}

GUARD_OWN(dup2);
CHECK int checked_dup2(int file, int to)
{
    file = ask_shown_descriptor(file);
    note_descriptor_wanted(to);
    return real_dup2(file, to);
}

GUARD_OWN(dup3);
CHECK int checked_dup3(int file, int to, int flags)
{
    file = ask_shown_descriptor(file);
    note_descriptor_wanted(to);
    return real_dup3(file, to, flags);
}

/* Whether a number of a range is the recorder's: the first of these. */
static bool has_hidden(unsigned first, unsigned last, unsigned *hidden)
{
    int found = -1;
    while (first <= INT_MAX && (found = ask_hidden_descriptor((int)first)) != INT_MAX
           && ask_shown_descriptor(found) == found)
        first = (unsigned)found + 1;
    *hidden = (unsigned)found;
    return first <= INT_MAX && found != INT_MAX && *hidden <= last;
}

GUARD_OWN(close_range);
CHECK int checked_close_range(unsigned first, unsigned last, int flags)
{
    unsigned hidden;
    for (; has_hidden(first, last, &hidden); first = hidden + 1) {
        if (hidden > first && real_close_range(first, hidden - 1, flags) != 0)
            return -1;
        if (hidden == last)
            return 0;
    }
    return real_close_range(first, last, flags);
}

GUARD_OWN(closefrom);
CHECK void checked_closefrom(int first)
{
    unsigned hidden;
    for (first = first < 0 ? 0 : first; has_hidden((unsigned)first, INT_MAX, &hidden); first = (int)hidden + 1)
        if (hidden > (unsigned)first)
            real_close_range((unsigned)first, hidden - 1, 0);
    real_closefrom(first);
}

/* What the link of an entry says; where it is empty there is none. */
static void read_link(char text[LINK_ROOM], int folder, const char *name)
{
    ssize_t length = system_readlinkat(folder, name, text, LINK_ROOM - 1);
    text[length > 0 ? length : 0] = 0;
}

/* The number that a name spells, or -1. */
static int number_of(const char *name)
{
    long number = 0;
    const char *at = name;
    for (; *at >= '0' && *at <= '9' && number <= INT_MAX; at++)
        number = 10 * number + *at - '0';
    return at > name && *at == 0 && number <= INT_MAX ? (int)number : -1;
}

/* Whether an entry is one of the recorder's descriptors: it leads where that leads. A DIR begins with its own. */
static bool is_hidden(DIR *folder, const char *name)
{
    static const char own[] = "/proc/self/fd/";
    char path[sizeof own + DIGITS_ROOM], digits[DIGITS_ROOM], there[LINK_ROOM], here[LINK_ROOM];
    int number = number_of(name);
    if (LIKELY(number < 0 || ask_shown_descriptor(number) == number))
        return false;
    strcat(strcpy(path, own), put_digits(digits + sizeof digits, (uint64_t)number, 1));
    read_link(there, *(const int *)folder, name);
    read_link(here, AT_FDCWD, path);
    return there[0] != 0 && strcmp(there, here) == 0;
}

GUARD_OWN(readdir);
CHECK struct dirent *checked_readdir(DIR *folder)
{
    struct dirent *found;
    do
        found = real_readdir(folder);
    while (found != NULL && is_hidden(folder, found->d_name));
    return found;
}

GUARD_OWN(readdir64);
CHECK struct dirent64 *checked_readdir64(DIR *folder)
{
    struct dirent64 *found;
    do
        found = real_readdir64(folder);
    while (found != NULL && is_hidden(folder, found->d_name));
    return found;
}

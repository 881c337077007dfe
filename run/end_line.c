/* The last 255 bytes are read, and the line is taken apart word by word. */
#define _GNU_SOURCE
#include "end_line.h"

#include <stdio.h>
#include <stdlib.h>
#include <string.h>
#include <sys/stat.h>
#include <unistd.h>

/* No such line is longer. */
enum { MAX_LINE = 255 };

/* Goes on after a word, if it comes next. */
static bool skip(const char **at, const char *word)
{
    size_t length = strlen(word);
    if (strncmp(*at, word, length) != 0)
        return false;
    *at += length;
    return true;
}

/* Takes the number that comes next. */
static bool take_number(const char **at, uint64_t *number)
{
    char *end;
    if (**at < '0' || **at > '9')
        return false;
    *number = strtoull(*at, &end, 10);
    *at = end;
    return true;
}

/* Takes the fate, which may have several words, and goes on at the number of events, or at the end. */
static bool take_fate(const char **at, struct end_line *end)
{
    static const char *const words[] = {" events ", " checked "};
    size_t length = strcspn(*at, "0123456789"), fate = (*at)[length] == 0 ? length : 0;
    for (size_t i = 0; i < sizeof words / sizeof *words && fate == 0; i++) {
        size_t word = strlen(words[i]);
        if (length > word && strncmp(*at + length - word, words[i], word) == 0)
            fate = length - word;
    }
    if (fate == 0 || fate >= sizeof end->fate)
        return false;
    memcpy(end->fate, *at, fate);
    end->fate[fate] = 0;
    *at += length;
    return true;
}

static bool read_line(const char *line, struct end_line *end)
{
    *end = (struct end_line){0};
    if (!skip(&line, "p0 end ") || !take_fate(&line, end))
        return false;
    if (*line == 0)
        return true;
    if (!take_number(&line, &end->events) || (skip(&line, " offset ") && !take_number(&line, &end->offset)))
        return false;
    return skip(&line, " reports ") && take_number(&line, &end->reports) && *line == 0;
}

bool end_line_of(const char *text, size_t length, struct end_line *end)
{
    char tail[MAX_LINE + 1];
    *end = (struct end_line){0};
    if (length == 0 || text[length - 1] != '\n')
        return false;
    size_t kept = length - 1 < MAX_LINE ? length - 1 : MAX_LINE;
    memcpy(tail, text + length - 1 - kept, kept);
    tail[kept] = 0;
    const char *line = strrchr(tail, '\n');
    return read_line(line != NULL ? line + 1 : tail, end);
}

bool end_line_find(int verdicts, struct end_line *end)
{
    char tail[MAX_LINE + 1];
    struct stat seen;
    *end = (struct end_line){0};
    if (verdicts < 0 || fstat(verdicts, &seen) != 0)
        return false;
    off_t from = seen.st_size > MAX_LINE ? seen.st_size - MAX_LINE : 0;
    ssize_t length = pread(verdicts, tail, MAX_LINE, from);
    return end_line_of(tail, length > 0 ? (size_t)length : 0, end);
}

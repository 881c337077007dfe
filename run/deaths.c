/* A status for each number of a process, in pages of 1,024; others are asked of /proc. */
#define _GNU_SOURCE
#include "deaths.h"

#include <errno.h>
#include <signal.h>
#include <stdio.h>
#include <stdlib.h>
#include <string.h>

#include "common/format.h"
#include "say.h"

/* How the last process of a number has ended: the system gives numbers again. */
struct noted {
    int status;
    bool is_there;
    bool is_ours; /* and not as a parent knows it */
};

/* No system gives a greater number. They are in pages, which are made when they are needed. */
enum { MAX_NUMBER = 1 << 22, PAGE = 1 << 10 };
static struct noted *pages[MAX_NUMBER / PAGE];

static void note(pid_t number, int status, bool is_ours)
{
    if (number < 0 || number >= MAX_NUMBER)
        return;
    struct noted **page = &pages[number / PAGE];
    if (*page == NULL)
        *page = must(calloc(PAGE, sizeof(struct noted)));
    (*page)[number % PAGE] = (struct noted){status, true, is_ours};
}

void death_note(pid_t number, int status)
{
    note(number, status, true);
}

void death_note_of_parent(pid_t number, int status)
{
    note(number, status, false);
}

static pid_t ending; /* it has said how, and waits */

void death_note_ending(pid_t number, int status)
{
    ending = number;
    note(number, status, true);
}

static const struct noted *find_noted(pid_t number)
{
    const struct noted *page = number >= 0 && number < MAX_NUMBER ? pages[number / PAGE] : NULL;
    return page != NULL && page[number % PAGE].is_there ? &page[number % PAGE] : NULL;
}

/* Numbers of the words after the name in /proc/NUMBER/stat, as proc(5) counts them. */
enum { WORD_STATE = 3, WORD_THREADS = 20, WORD_STATUS = 52 };

static size_t read_stat(pid_t number, char *text, size_t size)
{
    char path[64];
    snprintf(path, sizeof path, "/proc/%d/stat", number);
    FILE *file = fopen(path, "re");
    size_t length = file != NULL ? fread(text, 1, size - 1, file) : 0;
    if (file != NULL)
        fclose(file);
    text[length] = 0;
    return length;
}

/* Whether it has ended, and only its parent has not asked yet. A first thread may end before the others. */
static bool is_zombie(pid_t number, int *status, bool *has_status)
{
    char text[1024], *rest = NULL;
    char *at = read_stat(number, text, sizeof text) > 0 ? strrchr(text, ')') : NULL;
    bool is_dead = false;
    if (at == NULL)
        return false;
    at = strtok_r(at + 1, " \n", &rest);
    for (int word = WORD_STATE; at != NULL; word++, at = strtok_r(NULL, " \n", &rest)) {
        if (word == WORD_STATE)
            is_dead = *at == 'Z' || *at == 'X';
        else if (word == WORD_THREADS)
            is_dead = is_dead && atoi(at) <= 1;
        else if (word == WORD_STATUS)
            *status = atoi(at);
    }
    *has_status = is_dead && *status != 0; /* 0 also stands for what we may not see */
    return is_dead;
}

enum death death_of(pid_t number, int *status)
{
    bool has_status = false;
    *status = 0;
    if (number <= 0)
        return DEATH_NONE;
    bool is_gone = number == ending || (kill(number, 0) != 0 && errno == ESRCH);
    if (!is_gone && !is_zombie(number, status, &has_status))
        return DEATH_NONE;
    const struct noted *found = find_noted(number);
    if (found != NULL) {
        *status = found->status;
        return DEATH_SEEN;
    }
    return has_status ? DEATH_SEEN : DEATH_UNSEEN;
}

bool death_was_awaited(pid_t number)
{
    const struct noted *found = find_noted(number);
    return number > 0 && kill(number, 0) != 0 && errno == ESRCH && (found == NULL || !found->is_ours);
}

bool ignores_deaths(pid_t number)
{
    char path[64], line[256];
    unsigned long long ignored = 0;
    bool is_found = false;
    snprintf(path, sizeof path, "/proc/%d/status", number);
    FILE *file = number > 0 ? fopen(path, "re") : NULL;
    while (file != NULL && !is_found && fgets(line, sizeof line, file) != NULL)
        is_found = sscanf(line, "SigIgn: %llx", &ignored) == 1;
    if (file != NULL)
        fclose(file);
    return is_found && (ignored >> (SIGCHLD - 1)) % 2 == 1;
}

bool has_other_image(pid_t number)
{
    char path[64], line[512];
    bool is_read = false, is_same = false;
    snprintf(path, sizeof path, "/proc/%d/maps", number);
    FILE *file = number > 0 ? fopen(path, "re") : NULL;
    while (file != NULL && !is_same && fgets(line, sizeof line, file) != NULL) {
        is_read = true;
        is_same = strstr(line, "/memfd:" SIDE_MEMORY " ") != NULL;
    }
    if (file != NULL)
        fclose(file);
    return is_read && !is_same;
}

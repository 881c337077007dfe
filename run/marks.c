/* The names in the folder are gone over kind by kind: killed, unseen, expected. Each finds its process by its
   number. */
#define _GNU_SOURCE
#include "marks.h"

#include <dirent.h>
#include <signal.h>
#include <stdio.h>
#include <stdlib.h>
#include <string.h>
#include <sys/wait.h>
#include <unistd.h>

#include "checkers.h"
#include "common/crash.h"
#include "common/hub_name.h"
#include "common/text.h"
#include "deaths.h"
#include "folder.h"
#include "processes.h"
#include "report.h"
#include "say.h"
#include "verdict.h"

#define UNSEEN "." MARK_UNSEEN
#define EXPECTED "." MARK_EXPECTED
#define KILLED "." MARK_KILLED

/* What a mark says. */
struct mark {
    pid_t number;
    uint64_t made; /* microseconds since 1970; of one that is expected */
    char program[256], why[320];
};

/* Cuts the last line off a text that has several, and answers it; or null. */
static char *last_line(char *text)
{
    char *line = strrchr(text, '\n');
    if (line != NULL)
        *line++ = 0;
    return line;
}

/* What its first lines say. */
static void fill_in(struct mark *mark, char *text)
{
    const char *why = last_line(text);
    snprintf(mark->program, sizeof mark->program, "%.200s", why != NULL && text[0] != 0 ? text : UNKNOWN_NAME);
    snprintf(mark->why, sizeof mark->why, "%.300s", why != NULL && *why != 0 ? why : "it was not recorded");
}

/* The path of a program that stands in a link of its own, whose number this is. */
static void find_program(int folder, const char *number, struct mark *mark)
{
    char name[64];
    snprintf(name, sizeof name, "%.40s." MARK_PROGRAM, number);
    ssize_t length = readlinkat(folder, name, mark->program, sizeof mark->program - 1);
    mark->program[length > 0 ? length : 0] = 0;
}

/* One that is expected: its last line is the time, and the common reason is left out. */
static void read_expected(int folder, char *text, struct mark *mark)
{
    char *time = last_line(text), *why = strrchr(text, '\n');
    mark->made = time != NULL ? strtoull(time, NULL, 10) : 0;
    fill_in(mark, text);
    if (why != NULL && strcmp(why + 1, NEVER_BEGAN) == 0)
        snprintf(mark->why, sizeof mark->why, "it ended before its recording began");
    if (mark->program[0] == MARK_PROGRAM_FRONT)
        find_program(folder, text + 1, mark);
}

/* Reads the text of a link. False: it is not a mark. */
static bool read_mark(int folder, const char *name, struct mark *mark)
{
    char text[512];
    ssize_t length = readlinkat(folder, name, text, sizeof text - 1);
    if (length < 0)
        return false;
    text[length] = 0;
    *mark = (struct mark){.number = atoi(name)};
    if (ends_with(name, EXPECTED))
        read_expected(folder, text, mark);
    else
        fill_in(mark, text);
    return true;
}

/* The process of this number of which only a word came, or null. */
static struct process *word_of(pid_t number)
{
    struct process *process = process_of_peer(number);
    while (process != NULL && !process_is_unseen(process))
        process = process_next_of_peer(process);
    return process;
}

/* Says of one of which only a word came why that is, and whether it had time to come. */
static void explain(struct process *word, enum answer answer, const char *why)
{
    outcome_set(&word->first->outcome, answer, "%s", why);
    report_again(word);
}

/* A process that was not recorded: it may also have connected and sent nothing. */
static void take_unseen(struct mark *mark)
{
    struct process *process = word_of(mark->number);
    bool is_known = process != NULL;
    if (!is_known) {
        process = segment_add()->process;
        process_set_peer(process, mark->number);
    }
    process->own_number = mark->number;
    process->source = SOURCE_WORD;
    process_set_name(process, mark->program);
    if (is_known)
        explain(process, process->first->outcome.answer, mark->why);
    else
        checker_give_up(process->first, mark->why);
}

void marks_take_word(pid_t number, char *text)
{
    struct mark mark = {.number = number};
    fill_in(&mark, text + (*text == '\n'));
    take_unseen(&mark);
}

/* Whether others have ended a process that had not begun: it has raised no signal itself, unless by a fault, or by a
   limit on files that the recorder came to. */
static bool is_of_others(int signal)
{
    return !crash_is((unsigned)signal) && signal != SIGXFSZ;
}

/* Whether a process is the one of the mark: it has connected since that was made, or has left a word that says more.
   Its number may have been another one's before. */
static bool is_of(const struct mark *mark, const struct process *process)
{
    if (process_is_unseen(process))
        return process->source == SOURCE_WORD;
    return process->started == 0 || process->started / 1000 >= mark->made;
}

/* Whether the program that a mark expects has connected. */
static bool has_come(const struct mark *mark)
{
    const struct process *at = process_of_peer(mark->number);
    while (at != NULL && !is_of(mark, at))
        at = process_next_of_peer(at);
    if (at != NULL)
        return true;
    at = process_of_own_number(mark->number);
    while (at != NULL && !is_of(mark, at))
        at = process_next_of_own_number(at);
    return at != NULL;
}

/* It had connected, and sent nothing: it had no time to begin, since its parent has ended it, or who may. */
static void excuse_word(struct process *word, int signal)
{
    char why[WHY_ROOM];
    snprintf(why, sizeof why, "it ended before its recording began, by %s", signal_name(signal));
    explain(word, UP_TO_THERE, why);
}

/* What it became is a program of asancol-cc, of which nothing came. */
static void take_expected(struct mark *mark)
{
    static const char ended[] = "it ended";
    int status;
    char how[64] = "";
    if (has_come(mark))
        return;
    enum death death = death_of(mark->number, &status);
    const char *joint = strncmp(mark->why, ended, strlen(ended)) == 0 ? "," : "; it ended";
    if (death == DEATH_NONE)
        snprintf(mark->why, sizeof mark->why, "its recording had not begun at the end of asancol-run");
    else if (death == DEATH_SEEN && WIFSIGNALED(status))
        snprintf(how, sizeof how, "%s by %s", joint, signal_name(WTERMSIG(status)));
    else if (death == DEATH_SEEN)
        snprintf(how, sizeof how, "%s with status %d", joint, WEXITSTATUS(status));
    strncat(mark->why, how, sizeof mark->why - strlen(mark->why) - 1);
    take_unseen(mark);
    if (*joint == ',' && death == DEATH_SEEN && WIFSIGNALED(status) && is_of_others(WTERMSIG(status)))
        explain(word_of(mark->number), UP_TO_THERE, mark->why);
}

/* Children that others have ended and that did not come: once all are there, in the order of their parents. */
static struct killed {
    int parent, number, signal;
    size_t order; /* in which they were found */
    size_t done;  /* of the first of a parent: how many of its were looked at */
} * killed;
static size_t killed_count, killed_room;
static bool is_sorted;

static void add_killed(int number, int parent, int signal)
{
    if (killed_count == killed_room) {
        killed_room = killed_room * 2 + 16;
        killed = must(realloc(killed, killed_room * sizeof *killed));
    }
    killed[killed_count] = (struct killed){parent, number, signal, killed_count, 0};
    killed_count++;
}

static int by_parent(const void *left, const void *right)
{
    const struct killed *one = left, *other = right;
    if (one->parent != other->parent)
        return one->parent > other->parent ? 1 : -1;
    return (one->order > other->order) - (one->order < other->order);
}

/* The first of this parent, or the end. */
static size_t first_killed(int parent)
{
    size_t from = 0, to = killed_count;
    if (!is_sorted && killed_count > 0)
        qsort(killed, killed_count, sizeof *killed, by_parent);
    is_sorted = true;
    while (from < to) {
        size_t middle = from + (to - from) / 2;
        if (killed[middle].parent < parent)
            from = middle + 1;
        else
            to = middle;
    }
    return from;
}

/* How a process has ended, as its parent knows: the text has the parent's number, and that of the signal. */
static void take_killed(struct mark *mark)
{
    int status, number = atoi(mark->why);
    if (number <= 0 || number >= _NSIG)
        return;
    if (death_of(mark->number, &status) == DEATH_UNSEEN)
        death_note_of_parent(mark->number, number);
    if (!is_of_others(number) || has_come(mark))
        return;
    struct process *word = word_of(mark->number);
    if (word != NULL) {
        excuse_word(word, number);
        return;
    }
    add_killed(mark->number, atoi(mark->program), number);
}

static void excuse_child(pid_t number, const struct process *parent, int signal)
{
    struct mark mark = {.number = number};
    snprintf(mark.program, sizeof mark.program, "%.200s", parent->name);
    take_unseen(&mark);
    excuse_word(word_of(number), signal);
}

/* The signal by which another process has ended a child that did not come, whoever has waited for it; or 0. */
static int killed_by(pid_t child)
{
    int status;
    const struct mark mark = {.number = child};
    bool is_killed = death_of(child, &status) == DEATH_SEEN && WIFSIGNALED(status)
                     && is_of_others(WTERMSIG(status)) && !has_come(&mark);
    return is_killed ? WTERMSIG(status) : 0;
}

void marks_excuse_words(const struct process *parent)
{
    for (const struct segment *at = parent->first; at != NULL; at = at->next) {
        for (size_t i = 0; at->children != NULL && i < at->children->count; i++) {
            pid_t child = at->children->numbers[i];
            struct process *word = word_of(child);
            int signal = word != NULL ? killed_by(child) : 0;
            if (signal != 0)
                excuse_word(word, signal);
        }
    }
}

/* One whose parent has not waited for it. */
static bool excuse_orphan(const struct process *parent)
{
    for (const struct segment *at = parent->first; at != NULL; at = at->next) {
        for (size_t i = 0; at->children != NULL && i < at->children->count; i++) {
            pid_t child = at->children->numbers[i];
            int signal = word_of(child) == NULL ? killed_by(child) : 0;
            if (signal == 0)
                continue;
            excuse_child(child, parent, signal);
            return true;
        }
    }
    return false;
}

bool marks_excuse_child(const struct process *parent)
{
    size_t first = first_killed(parent->own_number);
    while (first < killed_count) {
        const struct killed *child = &killed[first + killed[first].done];
        if (child == &killed[killed_count] || child->parent != parent->own_number)
            break;
        killed[first].done++;
        if (word_of(child->number) == NULL) {
            excuse_child(child->number, parent, child->signal);
            return true;
        }
    }
    return excuse_orphan(parent);
}

/* Goes over all marks with this end. */
static void take_all(const char *end, void (*take)(struct mark *mark))
{
    DIR *entries = folder_entries();
    struct dirent *entry;
    struct mark mark;
    while (entries != NULL && (entry = readdir(entries)) != NULL)
        if (ends_with(entry->d_name, end) && read_mark(dirfd(entries), entry->d_name, &mark))
            take(&mark);
    if (entries != NULL)
        closedir(entries);
}

void marks_take(void)
{
    take_all(KILLED, take_killed);
    take_all(UNSEEN, take_unseen);
    take_all(EXPECTED, take_expected);
}

/* Two passes at the end: children look for their parents in a sorted array, and then processes for the programs that
   they became. */
#define _GNU_SOURCE
#include "kin.h"

#include <inttypes.h>
#include <signal.h>
#include <stdio.h>
#include <stdlib.h>

#include "marks.h"
#include "processes.h"
#include "report.h"
#include "say.h"
#include "segments.h"

/* Who a process is, as it knows that itself. */
struct key {
    int number;
    uint64_t started;
};

static int by_key(const void *left, const void *right)
{
    const struct key *one = left, *other = right;
    if (one->number != other->number)
        return one->number > other->number ? 1 : -1;
    return (one->started > other->started) - (one->started < other->started);
}

/* Of whom nobody knows who has forked them: they may be anybody's children. */
static bool is_of_unknown(const struct process *process)
{
    return process_is_unseen(process) || process->started == 0;
}

/* The parents of all that were forked, in order. */
static struct key *list_parents(size_t *count, size_t *unknown)
{
    struct key *parents = must(calloc(process_count() + 1, sizeof *parents));
    const struct process *process;
    *count = *unknown = 0;
    for (size_t at = 0; (process = process_next(&at)) != NULL;) {
        if (is_of_unknown(process))
            ++*unknown;
        else if (process->of_parent_started != 0)
            parents[(*count)++] = (struct key){process->of_parent, process->of_parent_started};
    }
    qsort(parents, *count, sizeof *parents, by_key);
    return parents;
}

/* How many come before this one. */
static size_t rank(const struct key *parents, size_t count, const struct key *key, bool with_equal)
{
    size_t from = 0, to = count;
    while (from < to) {
        size_t middle = from + (to - from) / 2;
        int order = by_key(&parents[middle], key);
        if (order < 0 || (order == 0 && with_equal))
            from = middle + 1;
        else
            to = middle;
    }
    return from;
}

static uint64_t forks_of(const struct process *process)
{
    uint64_t forks = 0;
    for (const struct segment *at = process->first; at != NULL; at = at->next)
        forks += at->children != NULL ? at->children->forks : 0;
    return forks;
}

/* Who was incomplete before has a cause already. */
static void blame(struct process *process, const char *why)
{
    struct outcome *last = &segments_last(process)->outcome;
    bool was_good = outcome_is_complete(last) || last->answer == UNCHECKED;
    outcome_set(last, INCOMPLETE, "%s", was_good ? why : last->why);
    report_again(process);
}

static void blame_for_children(struct process *process, uint64_t missing)
{
    char why[WHY_ROOM];
    if (missing == 1)
        snprintf(why, sizeof why, "a child that it forked never connected");
    else
        snprintf(why, sizeof why, "%" PRIu64 " children that it forked never connected", missing);
    blame(process, why);
}

/* Counts for each process how many came of the children that it has forked, and blames it for the rest. */
static void look_for_children(void)
{
    size_t count, unknown;
    struct key *parents = list_parents(&count, &unknown);
    struct process *process;
    for (size_t at = 0; (process = process_next(&at)) != NULL;) {
        if (is_of_unknown(process))
            continue;
        struct key key = {process->own_number, process->started};
        marks_excuse_words(process);
        uint64_t came = rank(parents, count, &key, true) - rank(parents, count, &key, false);
        uint64_t forks = forks_of(process);
        uint64_t missing = forks > came ? forks - came : 0, excused = missing < unknown ? missing : unknown;
        unknown -= excused;
        missing -= excused;
        while (missing > 0 && marks_excuse_child(process))
            missing--;
        if (missing > 0)
            blame_for_children(process, missing);
    }
    free(parents);
}

static size_t children_of(const struct process *parent)
{
    const struct process *process;
    size_t count = 0;
    for (size_t at = 0; (process = process_next(&at)) != NULL;)
        count += process->of_parent == parent->own_number;
    return count;
}

/* Some children have no number, such as that of the C library's daemon: one of them may be there. */
static bool awaits_child(const struct process *process)
{
    uint64_t forks = forks_of(process), numbers = 0;
    for (const struct segment *segment = process->first; segment != NULL; segment = segment->next) {
        for (size_t i = 0; segment->children != NULL && i < segment->children->count; i++) {
            pid_t child = segment->children->numbers[i];
            if (child > 0 && process_of_peer(child) == NULL && kill(child, 0) == 0)
                return true;
            numbers += child > 0;
        }
    }
    return forks > numbers && children_of(process) < forks;
}

bool kin_awaits_child(void)
{
    const struct process *process;
    for (size_t at = 0; (process = process_next(&at)) != NULL;)
        if (awaits_child(process))
            return true;
    return false;
}

/* Whether the program came that the process has become. */
static bool has_become(const struct process *process)
{
    const struct process *other = process->peer > 0 ? process_of_peer(process->peer) : NULL;
    for (; other != NULL; other = process_next_of_peer(other))
        if (other != process && (is_of_unknown(other) || other->started > process->started))
            return true;
    return false;
}

static void look_for_programs(void)
{
    struct process *process;
    for (size_t at = 0; (process = process_next(&at)) != NULL;)
        for (const struct segment *segment = process->first; segment != NULL; segment = segment->next)
            if (segment->becomes && !has_become(process))
                blame(process, "it became a program of asancol-cc that never connected");
}

void kin_look(void)
{
    look_for_children();
    look_for_programs();
}

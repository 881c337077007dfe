/* Lines in the order of their first process, and a tree of them by text, so that the same text is said once. */
#define _GNU_SOURCE
#include "lines.h"

#include <inttypes.h>
#include <search.h>
#include <stdio.h>
#include <stdlib.h>
#include <string.h>

#include "processes.h"
#include "say.h"
#include "segments.h"

static void say_complete(const struct process *process, const struct outcome *joined)
{
    char segments[48] = "";
    bool is_other = joined->why[0] == 0 && joined->ending == ENDING_EXEC;
    const char *end = is_other ? "continued as another program" : joined->why;
    uint64_t reports = outcome_reports(joined);
    if (joined->segments > 1)
        snprintf(segments, sizeof segments, " in %" PRIu32 " segments", joined->segments);
    say("asancol: process %d %s: complete%s%s, %" PRIu64 " event%s%s, %" PRIu64 " report%s", process->own_number,
        process->name, end[0] != 0 ? ": " : "", end, joined->events, plural(joined->events, "s"), segments, reports,
        plural(reports, "s"));
}

void lines_say_complete(void)
{
    const struct process *process;
    for (size_t at = 0; (process = process_next(&at)) != NULL;) {
        struct outcome joined = segments_joined(process);
        if (outcome_is_complete(&joined))
            say_complete(process, &joined);
    }
}

/* Processes with the same line: its text, and their numbers. */
struct line {
    char *text;
    size_t count;
    int first[3];
    struct line *next;
};

/* Lines in the order of their first processes, and by their texts. */
struct lines {
    struct line *first, **end;
    void *by_text;
};

static void say_one(const struct line *line)
{
    const int *first = line->first;
    char numbers[64];
    if (line->count == 1) {
        say("asancol: process %d %s", first[0], line->text);
        return;
    }
    if (line->count == 2)
        snprintf(numbers, sizeof numbers, "%d, %d", first[0], first[1]);
    else
        snprintf(numbers, sizeof numbers, "%d, %d, %d%s", first[0], first[1], first[2], line->count > 3 ? ", .." : "");
    say("asancol: %zu processes (%s) %s", line->count, numbers, line->text);
}

/* The line of a process of which there is more to say than that it was complete, or null. */
static char *line_of(const struct process *process, bool is_quiet, bool has_crashes)
{
    char *text = NULL;
    const char *form = NULL;
    struct outcome joined = segments_joined(process);
    bool is_crash = joined.is_crash && (has_crashes || !process->is_awaited);
    if (!outcome_is_complete(&joined))
        form = "%s: INCOMPLETE: %s";
    else if (joined.answer == UP_TO_THERE && (!is_quiet || is_crash))
        form = "%s: %s: seen up to there";
    else if (is_crash)
        form = "%s: %s";
    if (form != NULL && asprintf(&text, form, process->name, joined.why) < 0)
        must(NULL);
    return text;
}

static int compare(const void *left, const void *right)
{
    const struct line *one = left, *other = right;
    return strcmp(one->text, other->text);
}

/* The line of this text, which it takes. */
static struct line *line_with(struct lines *lines, char *text)
{
    const struct line key = {.text = text};
    struct line *const *found = tfind(&key, &lines->by_text, compare);
    if (found != NULL) {
        free(text);
        return *found;
    }
    struct line *made = must(calloc(1, sizeof *made));
    made->text = text;
    must(tsearch(made, &lines->by_text, compare));
    *lines->end = made;
    lines->end = &made->next;
    return made;
}

static void leave(void *line)
{
    (void)line; /* it is in the list, too */
}

void lines_say(bool is_quiet, bool has_crashes)
{
    struct lines lines = {0};
    const struct process *process;
    lines.end = &lines.first;
    for (size_t at = 0; (process = process_next(&at)) != NULL;) {
        char *text = line_of(process, is_quiet, has_crashes);
        if (text == NULL)
            continue;
        struct line *line = line_with(&lines, text);
        if (line->count < sizeof line->first / sizeof *line->first)
            line->first[line->count] = process->own_number;
        line->count++;
    }
    tdestroy(lines.by_text, leave);
    for (struct line *line = lines.first, *next; line != NULL; line = next) {
        say_one(line);
        next = line->next;
        free(line->text);
        free(line);
    }
}

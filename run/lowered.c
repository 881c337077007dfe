/* At most 16 lines, each with how many processes it is of. */
#define _GNU_SOURCE
#include "lowered.h"

#include <inttypes.h>
#include <stdio.h>
#include <stdlib.h>
#include <string.h>

#include "processes.h"
#include "say.h"
#include "segments.h"

/* What several processes have in common is one line, and there are at most this many. */
enum { MAX_LINES = 16 };

struct line {
    char text[160];
    const struct process *first;
    size_t count;
};

/* In lean recording nothing is held for its bound, and a process that came to it has another line (add_used_again). */
static bool has_held_less(const struct outcome *joined, uint64_t bound)
{
    return !joined->is_lean && joined->quarantine < bound;
}

/* What a process has lowered: the text is empty if it is nothing. */
static void describe(char *text, size_t room, const struct outcome *joined, const struct options *options)
{
    const char *halt = getenv("ASANCOL_HALT");
    bool may_halt = options->may_halt || (halt != NULL && *halt != 0 && strcmp(halt, "0") != 0);
    text[0] = 0;
    if (has_held_less(joined, options->held))
        snprintf(text, room,
                 "held back %" PRIu64 " byte%s of freed memory (ASANCOL_QUARANTINE), so uses after free may be missed",
                 joined->quarantine, plural(joined->quarantine, "s"));
    else if (joined->halts && !may_halt && joined->reports > 0)
        snprintf(text, room, "ended at its first fault (ASANCOL_HALT), so later errors were not seen");
}

static void note(struct line *lines, size_t *count, const struct process *process, const char *text)
{
    for (size_t i = 0; i < *count; i++) {
        if (strcmp(lines[i].text, text) == 0) {
            lines[i].count++;
            return;
        }
    }
    if (*count == MAX_LINES)
        return;
    struct line *line = &lines[(*count)++];
    snprintf(line->text, sizeof line->text, "%s", text);
    line->first = process;
    line->count = 1;
}

static const char *made(const struct line *line)
{
    char *text, more[64] = "";
    if (line->count > 1)
        snprintf(more, sizeof more, "; and so did %zu more", line->count - 1);
    if (asprintf(&text, "process %d %s: %s%s", line->first->own_number, line->first->name, line->text, more) < 0)
        must(NULL);
    return text;
}

/* Each process has come to it at another number of bytes, and there is one line for all of them: that of the first. */
static void add_used_again(struct strings *texts)
{
    struct line line = {.count = 0};
    const struct process *process;
    for (size_t at = 0; (process = process_next(&at)) != NULL;) {
        uint64_t bytes = segments_joined(process).used_again;
        if (bytes == 0 || line.count++ > 0)
            continue;
        bool is_large = bytes >= 1000000000;
        snprintf(line.text, sizeof line.text,
                 "reused freed memory after %.1f %s of blocks, so later uses after free may be missed",
                 (double)bytes / (is_large ? 1e9 : 1e6), is_large ? "GB" : "MB");
        line.first = process;
    }
    if (line.count > 0)
        strings_add(texts, made(&line));
}

/* The lowered bounds of the run. */
static void add_for_all(struct strings *texts, const struct options *options)
{
    char *all;
    if (asprintf(&all, "%" PRIu64 " byte%s of freed memory %s held back (%s), so uses after free may be missed",
                 options->held, plural(options->held, "s"), options->held == 1 ? "is" : "are",
                 options->quarantine != NULL ? "--quarantine" : "ASANCOL_QUARANTINE")
        < 0)
        must(NULL);
    strings_add(texts, all);
}

struct strings lowered_lines(const struct options *options, bool is_of_run)
{
    struct line lines[MAX_LINES];
    struct strings texts = {0};
    size_t count = 0;
    char text[sizeof lines->text];
    bool is_for_all = false;
    const struct process *process;
    for (size_t at = 0; (process = process_next(&at)) != NULL;) {
        if (process_is_unseen(process))
            continue;
        struct outcome joined = segments_joined(process);
        is_for_all |= has_held_less(&joined, QUARANTINE_BOUND) && joined.quarantine == options->held;
        describe(text, sizeof text, &joined, options);
        if (text[0] != 0)
            note(lines, &count, process, text);
    }
    if (is_of_run && is_for_all)
        add_for_all(&texts, options);
    for (size_t i = 0; i < count; i++)
        strings_add(&texts, made(&lines[i]));
    add_used_again(&texts);
    return texts;
}

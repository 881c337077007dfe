/* A segment goes from pending to running to done: checker_start, checker_has_ended, finish. What all checkers share,
   their program and options, is in `checkers`. */
#define _GNU_SOURCE
#include "checkers.h"

#include <errno.h>
#include <fcntl.h>
#include <inttypes.h>
#include <stdio.h>
#include <stdlib.h>
#include <string.h>
#include <sys/ioctl.h>
#include <sys/mman.h>
#include <sys/socket.h>
#include <sys/wait.h>
#include <unistd.h>

#include "children.h"
#include "end_line.h"
#include "keep.h"
#include "names.h"
#include "report.h"
#include "say.h"
#include "segments.h"
#include "shared.h"
#include "unchecked.h"
#include "verdict.h"

static struct {
    char *program;
    struct strings options; /* of asancol check */
    uint64_t quarantine;    /* that they say */
    bool is_fixed;          /* whatever the process has held */
    bool keeps;
    bool are_held; /* who sends nothing has nothing to report */
    bool are_live; /* they print each report when they find it */
} checkers;

/* What a checker runs as, with as much held as the process holds: else it would report good events. */
static struct strings argv_for(const struct segment *segment)
{
    static const char option[] = "--quarantine";
    static char bytes[24];
    struct strings argv = {0};
    bool is_other = segment->side != NULL && segment->outcome.quarantine != checkers.quarantine && !checkers.is_fixed;
    strings_add(&argv, "asancol");
    if (checkers.options.count == 0 && !is_other && !checkers.are_live)
        return argv;
    strings_add(&argv, "check");
    if (checkers.are_live)
        strings_add(&argv, "--live");
    for (size_t i = 0; i < checkers.options.count; i += 2)
        if (!is_other || strcmp(checkers.options.items[i], option) != 0) {
            strings_add(&argv, checkers.options.items[i]);
            strings_add(&argv, checkers.options.items[i + 1]);
        }
    if (is_other) {
        snprintf(bytes, sizeof bytes, "%" PRIu64, segment->outcome.quarantine);
        strings_add(&argv, option);
        strings_add(&argv, bytes);
    }
    strings_add(&argv, "-");
    return argv;
}

const char *checkers_program(void)
{
    return checkers.program;
}

struct strings checkers_words(void)
{
    struct strings words = {0};
    strings_add(&words, "asancol");
    strings_add(&words, "check");
    strings_add_all(&words, checkers.options.items, checkers.options.count);
    return words;
}

void checkers_begin(const struct options *options)
{
    checkers.program = find_own_program("asancol", "ASANCOL");
    if (checkers.program == NULL) {
        const char *named = getenv("ASANCOL");
        fail(OWN_FAILURE, named != NULL && *named != 0 ? named : "asancol",
             "the checker is missing or cannot be executed; set ASANCOL to its path");
    }
    checkers.options = options->check;
    checkers.quarantine = options->held;
    checkers.is_fixed = options->are_files && options->quarantine != NULL;
    checkers.keeps = options->keep != NULL;
    checkers.are_held = options->are_held;
    checkers.are_live = options->live == LIVE_ACCESS && !options->are_files;
    if (checkers.keeps)
        keep_begin(options->keep);
}

/* What comes of this may be over in a moment. */
static bool is_shortage(int error)
{
    return error == EAGAIN || error == ENOMEM || error == EMFILE || error == ENFILE;
}

static void close_one(int *descriptor)
{
    if (*descriptor >= 0)
        close(*descriptor);
    *descriptor = -1;
}

static bool has_place_for_verdicts(struct segment *segment)
{
    if (segment->verdicts < 0)
        segment->verdicts = memfd_create("verdicts", MFD_CLOEXEC);
    return segment->verdicts >= 0;
}

/* Runs the checker over an input, which it closes here unless there are no resources. */
static bool start(struct segment *segment, int input)
{
    if (has_place_for_verdicts(segment)) {
        struct strings argv = argv_for(segment);
        const struct start start = {
            .role = ROLE_CHECKER,
            .owner = segment,
            .program = checkers.program,
            .argv = argv.items,
            .input = input,
            .output = segment->verdicts,
        };
        segment->checker = child_start(&start);
        free(argv.items);
    }
    if (segment->checker != 0) {
        segment->stage = STAGE_CHECKED;
        return true;
    }
    int error = errno;
    if (is_shortage(error) && segment_live_count() > 1)
        return false;
    char why[WHY_ROOM];
    snprintf(why, sizeof why, "%.80s: %s", checkers.program, strerror(error));
    checker_give_up(segment, why);
    return true;
}

/* Takes the side memory, if it has come, and the name of the program. */
static void meet(struct segment *segment)
{
    if (segment->is_met)
        return;
    segment->is_met = true;
    segment->side_memory = side_receive(segment->connection, &segment->modules);
    if (segment->side_memory >= 0)
        segment->side = side_map(segment->side_memory);
    if (segment->side == NULL)
        close_one(&segment->side_memory);
    segment_name(segment);
    segments_join(segment);
}

/* As start, where what has begun can't be tried again from its beginning. */
static void start_at_last(struct segment *segment, int input)
{
    for (int tries = 0; tries < 100; tries++) {
        if (start(segment, input))
            return;
        usleep(10000);
    }
    checker_give_up(segment, strerror(EAGAIN));
}

/* Whether the other end has closed without a byte. Whoever does so says that there was something to see. */
static bool has_sent_nothing(const struct segment *segment)
{
    char byte;
    return recv(segment->connection, &byte, 1, MSG_PEEK | MSG_DONTWAIT) == 0;
}

bool checker_answers(struct segment *segment)
{
    return side_answer(segment->connection, &segment->side_error);
}

/* No event finds room in such a stream, so what the process holds says nothing of it. */
bool checker_can_wait(struct segment *segment)
{
    int size = 0;
    meet(segment);
    return !checkers.keeps && segment->cut == CUT_NONE && segment->side != NULL
           && ioctl(segment->connection, FIONREAD, &size) == 0 && size > 0 && size <= SMALL_STREAM
           && verdict_is_clean(segment);
}

/* Starts a checker whose input is the stream that was read already. False: there are no resources now. */
static bool start_small(struct segment *segment)
{
    int input = shared_open(segment->small);
    if (input < 0 && is_shortage(errno) && segment_live_count() > 1)
        return false;
    if (input < 0) {
        checker_give_up(segment, strerror(errno));
        return true;
    }
    bool is_started = start(segment, input);
    close(input);
    return is_started;
}

bool checker_start(struct segment *segment)
{
    if (segment->small != NULL)
        return start_small(segment);
    meet(segment);
    if (segment->cut == CUT_NONE && has_sent_nothing(segment)) {
        bool is_left_out = checkers.are_held && segment->process->first == segment;
        if (is_left_out)
            segments_leave_out(segment);
        if (is_left_out || segments_take_empty(segment)) {
            segment_is_done(segment);
            close_one(&segment->connection);
            return true;
        }
        segment->process->source = SOURCE_UNSEEN;
        checker_give_up(segment, "it was not recorded, or not by this run");
        return true;
    }
    if (!checkers.keeps)
        return start(segment, segment->connection);
    int input = keep_start(segment);
    if (input < 0) {
        say("asancol-run: a trace of %s is not kept: %s", segment->process->name, strerror(errno));
        free(segment->kept);
        segment->kept = NULL;
        return start(segment, segment->connection);
    }
    start_at_last(segment, input); /* tee has begun to read */
    close(input);
    return true;
}

bool checker_start_file(struct segment *segment)
{
    char path[4200];
    if (!segment->is_met) {
        segment->is_met = true;
        snprintf(path, sizeof path, "%s.where", segment->trace);
        segment->side = side_read(path);
        segment_name(segment);
        segments_join(segment);
    }
    int input = open(segment->trace, O_RDONLY | O_CLOEXEC | O_NONBLOCK);
    if (input < 0) {
        checker_give_up(segment, strerror(errno));
        return true;
    }
    if (checkers.keeps && segment->kept == NULL)
        keep_file(segment);
    bool is_started = start(segment, input);
    close(input);
    return is_started;
}

static void let_side_go(struct segment *segment)
{
    if (segment->outcome.is_settled)
        side_unmap(segment->side);
    if (segment->outcome.is_settled)
        segment->side = NULL;
}

/* Whether somebody may want to see the traces of a process. */
static bool is_kept(const struct outcome *outcome)
{
    return outcome_reports(outcome) > 0 || !outcome_is_complete(outcome);
}

void checker_sum_up(struct process *process)
{
    if (process->is_summed_up)
        return;
    bool has_changed = false;
    for (struct segment *at = process->first; at != NULL; at = at->next) {
        has_changed |= !at->outcome.is_settled && at->kept != NULL;
        has_changed |= verdict_again(at);
    }
    if (has_changed || segments_are_several(process)) {
        struct outcome joined = segments_joined(process);
        for (struct segment *at = process->first; at != NULL; at = at->next)
            keep_again(at, is_kept(&joined));
        report_again(process);
    }
    for (struct segment *at = process->first; at != NULL; at = at->next)
        let_side_go(at);
    process->is_summed_up = true;
}

/* It is done: what nobody asks for any more is given back. The trace stays until it is known that no segment follows,
   or what became of all. The cause says why it was not checked, or is null; the end line is null if it stands in the
   verdicts. */
static void finish(struct segment *segment, const char *cause, const struct end_line *end)
{
    const struct outcome *outcome = &segment->outcome;
    segment_is_done(segment);
    close_one(&segment->connection);
    verdict_read(segment, cause, end);
    unchecked_take(segment);
    bool is_several = segments_are_several(segment->process);
    keep_end(segment, is_several || !outcome->is_settled || is_kept(outcome));
    report_segment(segment);
    modules_let_go(&segment->modules);
    close_one(&segment->verdicts);
    close_one(&segment->side_memory);
    if (!is_several)
        let_side_go(segment);
    else if (segments_are_complete(segment->process))
        checker_sum_up(segment->process);
}

bool checker_take_text(struct segment *segment, const char *text, size_t length, int status)
{
    struct end_line end;
    if (!end_line_of(text, length, &end))
        return false;
    if (verdict_has_findings(segment)) { /* then the report takes the text */
        if (!has_place_for_verdicts(segment) || pwrite(segment->verdicts, text, length, 0) != (ssize_t)length)
            return false;
    }
    segment->checker_status = status;
    finish(segment, NULL, &end);
    return true;
}

void checker_give_up(struct segment *segment, const char *why)
{
    if (segment->process->name == NULL)
        segment_name(segment);
    finish(segment, why, NULL);
}

void checker_has_ended(struct segment *segment, bool is_tee, int status)
{
    if (is_tee) {
        segment->tee = 0;
        if (WIFEXITED(status) && WEXITSTATUS(status) != 0)
            say("asancol-run: %s: not all of the trace could be kept", segment->kept);
    } else {
        segment->checker = 0;
        segment->checker_status = status;
    }
    if (segment->checker == 0 && segment->tee == 0 && segment->stage == STAGE_CHECKED)
        finish(segment, NULL, NULL);
}

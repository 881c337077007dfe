/* Runs a command, checks each recorded process under it while it runs, and reports at the end.

   Each process connects to a socket of this program, the hub. Its connection becomes the standard input of an asancol,
   its checker, or is moved into a file for one that several share: no byte of a trace is read here. common/README.md
   says what a process sends, and the manual page says what a user sees.

   Called: by the system, in the one thread of asancol-run; no lock. */
#define _GNU_SOURCE
#include <errno.h>
#include <inttypes.h>
#include <signal.h>
#include <stdio.h>
#include <stdlib.h>
#include <string.h>
#include <sys/eventfd.h>
#include <sys/resource.h>
#include <sys/wait.h>
#include <unistd.h>

#include "checkers.h"
#include "common/standard.h"
#include "children.h"
#include "loop.h"
#include "command.h"
#include "deaths.h"
#include "descendants.h"
#include "folder.h"
#include "hub.h"
#include "lines.h"
#include "keep.h"
#include "kin.h"
#include "lowered.h"
#include "nested.h"
#include "nothing.h"
#include "options.h"
#include "processes.h"
#include "report.h"
#include "rules.h"
#include "say.h"
#include "segments.h"
#include "serving.h"
#include "signals.h"
#include "status.h"
#include "unchecked.h"
#include "unrecorded.h"
#include "verdict.h"

/* What all processes come to. */
struct sum {
    uint64_t events, reports; /* findings of recorders are reports */
    uint64_t findings;
    size_t incomplete, abrupt, crashed, awaited, with_reports, recorded, marks, unchecked;
};

/* Counts a process in the sum. */
static void add_to(struct sum *sum, const struct process *process, bool has_crashes)
{
    struct outcome joined = segments_joined(process);
    bool is_awaited = process->is_awaited && !has_crashes, has_halted = joined.has_halted && is_awaited;
    uint64_t reports = has_halted ? 0 : outcome_reports(&joined);
    sum->events += joined.events;
    sum->reports += reports;
    sum->findings += has_halted ? 0 : joined.findings;
    sum->with_reports += reports > 0;
    sum->incomplete += !outcome_is_complete(&joined);
    sum->abrupt += joined.answer == UP_TO_THERE;
    sum->crashed += joined.is_crash && !is_awaited;
    sum->awaited += is_awaited;
    sum->recorded += joined.has_checks;
    sum->marks += process_is_unseen(process);
    sum->unchecked += joined.answer == UNCHECKED;
}

/* Whether whoever has started it was recorded too, and seen to an end that is no crash. A script or a make that goes on
   is none: it minds no status. */
static bool has_good_parent(const struct process *process)
{
    const struct process *parent = process->parent > 0 ? process_of_peer(process->parent) : NULL;
    for (; parent != NULL; parent = process_next_of_peer(parent)) {
        if (parent->is_quiet)
            return true;
        if (parent->first == NULL)
            continue;
        struct outcome joined = segments_joined(parent);
        if (joined.has_checks && outcome_is_complete(&joined) && joined.signal == 0)
            return true;
    }
    return false;
}

/* If the command has ended well, a crash that a parent has waited for need not be shown: a test may want it. So it is
   with the report at which a process has ended itself, if that parent knows of reports, too. */
static void find_awaited(pid_t command, int status)
{
    struct process *process;
    if (!WIFEXITED(status) || WEXITSTATUS(status) != 0)
        return;
    for (size_t at = 0; (process = process_next(&at)) != NULL;) {
        if (process->peer == command)
            continue;
        struct outcome joined = segments_joined(process);
        bool is_death = joined.is_crash || (joined.has_halted && has_good_parent(process));
        process->is_awaited = is_death && outcome_is_complete(&joined) && !joined.is_ignored
                              && death_was_awaited(process->peer);
        if (process->is_awaited)
            report_again(process);
    }
}

static struct sum sum_up(const struct options *options, pid_t command, int status)
{
    struct sum sum = {0};
    struct process *process;
    for (size_t at = 0; (process = process_next(&at)) != NULL;)
        checker_sum_up(process);
    kin_look();
    find_awaited(command, status);
    for (size_t at = 0; (process = process_next(&at)) != NULL;)
        add_to(&sum, process, options->crashes);
    return sum;
}

/* What the summary says after the numbers. `totals_line` of asancol-report says the same of several runs: a test holds
   one against the other (tests/judge.py). */
static void put_completeness(FILE *to, const struct sum *sum, bool is_incomplete, bool lists_unchecked)
{
    bool is_first = sum->incomplete == 0 && !is_incomplete && unchecked_count() > 0;
    if (sum->incomplete > 0)
        fprintf(to, "; %zu INCOMPLETE", sum->incomplete);
    else if (!is_first)
        fputs(is_incomplete ? "; INCOMPLETE" : "; all complete", to);
    if (sum->abrupt > 0)
        fprintf(to, "%s %zu ended abruptly", is_first ? ";" : ",", sum->abrupt);
    is_first &= sum->abrupt == 0;
    if (sum->crashed > 0)
        fprintf(to, "%s %zu crashed", is_first ? ";" : ",", sum->crashed);
    if (!unchecked_is_any() || !lists_unchecked)
        return;
    fputs("; not checked: ", to);
    unchecked_say(to);
}

static void say_summary(const struct sum *sum, bool is_incomplete, bool lists_unchecked)
{
    char reports[128] = "no reports", *complete = NULL;
    size_t length = 0, count = segments_process_count();
    if (sum->reports > 0)
        snprintf(reports, sizeof reports, "%" PRIu64 " report%s in %zu process%s", sum->reports,
                 plural(sum->reports, "s"), sum->with_reports, plural(sum->with_reports, "es"));
    if (sum->findings > 0)
        snprintf(reports + strlen(reports), sizeof reports - strlen(reports), " (%" PRIu64 " by the recorder)",
                 sum->findings);
    FILE *to = must(open_memstream(&complete, &length));
    put_completeness(to, sum, is_incomplete, lists_unchecked);
    if (fclose(to) != 0)
        must(NULL);
    say("asancol: %s; %zu process%s, %" PRIu64 " event%s%s", reports, count, plural(count, "es"), sum->events,
        plural(sum->events, "s"), complete);
    free(complete);
}

/* The same line as that of `awaited_text` of asancol-report. */
static void say_awaited(size_t count)
{
    if (count == 1)
        say("asancol: 1 process whose parent waited for it crashed or halted; --crashes shows it");
    else
        say("asancol: %zu processes whose parents waited for them crashed or halted; --crashes shows them", count);
}

/* What holds of the run, and not of one process. */
static struct strings troubles_of(const struct run_end *end, const char *command, bool is_unchecked)
{
    static char missing[96], lost[96]; /* there is one run */
    struct strings lines = {0};
    snprintf(missing, sizeof missing, "INCOMPLETE: %" PRIu64 " fewer than --at-least asks for were recorded",
             end->missing);
    snprintf(lost, sizeof lost, "INCOMPLETE: %" PRIu64 " run%s inside this one left no result", end->lost,
             plural(end->lost, "s"));
    if (end->nothing)
        strings_add(&lines, nothing_text(command, end->status, end->has_timed_out));
    else if (end->missing > 0)
        strings_add(&lines, missing);
    if (end->is_running)
        strings_add(&lines, "INCOMPLETE: processes of the command still run");
    if (end->has_timed_out)
        strings_add(&lines, "INCOMPLETE: the command was ended by --timeout");
    if (end->lost > 0)
        strings_add(&lines, lost);
    if (is_unchecked)
        strings_add(&lines, "INCOMPLETE: code was not checked, and --unchecked=error was given");
    return lines;
}

/* What the reader is told besides. */
static struct strings notes_of(const struct options *options, int status)
{
    struct strings lines = lowered_lines(options, true);
    if (signal_of(status) == SIGINT)
        strings_add(&lines, "the command was interrupted by SIGINT, so later errors may be missing");
    if (signal_of(status) == SIGTERM)
        strings_add(&lines, "the command was ended by SIGTERM, so later errors may be missing");
    const char *runtime = unchecked_sanitizer();
    char *text;
    if (runtime != NULL) {
        if (asprintf(&text,
                     "%s was in a process: AddressSanitizer's runtime does not work in programs of asancol-cc; "
                     "is it in LD_PRELOAD?",
                     runtime)
            < 0)
            must(NULL);
        strings_add(&lines, text);
    }
    for (size_t i = 0; i < options->asan_notes.count; i++)
        strings_add(&lines, options->asan_notes.items[i]);
    if (options->preload_note != NULL)
        strings_add(&lines, options->preload_note);
    return lines;
}

/* What the status follows from, before asancol-report has said anything. */
static struct seen seen_of(const struct sum *sum, const struct run_end *end)
{
    return (struct seen){
        .reports = sum->reports,
        .incomplete = sum->incomplete,
        .unchecked = sum->unchecked,
        .nothing = end->nothing,
        .is_cut_short = end->missing > 0 || end->is_running || end->has_timed_out || end->lost > 0,
        .has_failed = end->status != 0,
    };
}

/* Whether something was not seen, apart from that nothing was recorded. */
static bool is_cut_short(const struct sum *sum, const struct run_end *end)
{
    struct seen seen = seen_of(sum, end);
    return !status_is_all_seen(&seen);
}

/* Ends the feed, and answers what asancol-report says; or says it here if it did not run. */
static enum report_answer conclude(const struct options *options, const struct sum *sum, const struct run_end *end,
                                   bool has_nested)
{
    if (sum->reports > 0 || has_nested || options->has_output || options->has_rules)
        report_start();
    bool is_incomplete = is_cut_short(sum, end) || end->nothing;
    enum report_answer answer = is_incomplete ? ANSWER_INCOMPLETE : ANSWER_CLEAN;
    progress_erase();
    if (options->verbose) {
        for (size_t i = 0; i < options->asan_taken.count; i++)
            say("asancol: %s", options->asan_taken.items[i]);
        lines_say_complete();
        unchecked_say_all();
    }
    report_finish(end);
    if (report_was_started()) {
        loop_wait_for_report();
        answer = report_answer();
        if (answer == ANSWER_CLEAN || answer == ANSWER_REPORTS || answer == ANSWER_INCOMPLETE
            || answer == ANSWER_NOT_WRITTEN)
            return answer;
        report_print_raw(options->keep);
    } else if (nested_result() != NULL) {
        report_leave(nested_result());
    }
    lines_say(options->quiet, options->crashes);
    for (size_t i = 0; i < end->troubles.count; i++)
        say("asancol: %s", end->troubles.items[i]);
    bool is_listed = options->unchecked == UNCHECKED_ERROR ? unchecked_count() > 0
                                                           : options->unchecked != UNCHECKED_NO && unchecked_is_news();
    if (!options->quiet || is_incomplete || is_listed || answer == ANSWER_NONE || answer == ANSWER_ARGUMENTS)
        say_summary(sum, is_incomplete, options->unchecked != UNCHECKED_NO);
    if (sum->awaited > 0 && (!options->quiet || is_incomplete))
        say_awaited(sum->awaited);
    for (size_t i = 0; i < end->notes.count && (!options->quiet || is_incomplete); i++)
        say("asancol: %s", end->notes.items[i]);
    return answer;
}

/* Ends as the command did. */
static int end_as(int status)
{
    if (!WIFSIGNALED(status))
        return WEXITSTATUS(status);
    signals_end_by(WTERMSIG(status));
    return 128 + WTERMSIG(status);
}

static enum said said_by(enum report_answer answer)
{
    switch (answer) {
    case ANSWER_CLEAN:
        return SAID_CLEAN;
    case ANSWER_REPORTS:
        return SAID_COUNTS;
    case ANSWER_INCOMPLETE:
        return SAID_INCOMPLETE;
    default:
        return SAID_NOTHING;
    }
}

/* Whether the command crashed in a way that AddressSanitizer turns into a status by default. */
static bool is_crash_of_asan(pid_t command, int status)
{
    const struct process *process = process_of_peer(command);
    int signal = WIFSIGNALED(status) ? WTERMSIG(status) : 0;
    if (signal != SIGSEGV && signal != SIGBUS && signal != SIGFPE)
        return false;
    for (; process != NULL; process = process_next_of_peer(process))
        if (process->first != NULL && segments_joined(process).is_crash)
            return true;
    return false;
}

/* What options of AddressSanitizer's change: the status of a crash, and SIGABRT is one if the command died of it. */
static int status_as_asan(int status, const struct options *options, const struct run_end *end)
{
    if (status == STATUS_OF_COMMAND && options->of_crash != 0 && is_crash_of_asan(end->command, end->status))
        return (int)options->of_crash;
    bool has_aborted = WIFSIGNALED(end->status) && WTERMSIG(end->status) == SIGABRT;
    return has_aborted && status == 128 + SIGABRT ? STATUS_OF_COMMAND : status;
}

/* Ends as the run does, or by the signal of the command. */
static int due_status(const struct options *options, enum report_answer answer, const struct sum *sum,
                      const struct run_end *end, bool is_incomplete)
{
    struct seen seen = seen_of(sum, end);
    struct statuses statuses = {options->exitcode, options->incomplete, options->nothing};
    seen.said = said_by(answer);
    seen.is_cut_short |= is_incomplete;
    int status = status_as_asan(status_of(&seen, &statuses), options, end);
    if (serving_is_on()) {
        serving_answer(status);
        return 0;
    }
    return status == STATUS_OF_COMMAND ? end_as(end->status) : status;
}

/* One for signals, and one for what connects: a run that can take nothing in would wait for ever. So would a served
   program, which asks for its status while its trace is checked. A limit that can be raised is, later. */
static void need_descriptors(bool is_served)
{
    enum { NEEDED = 2, NEEDED_TO_SERVE = 8 };
    struct rlimit limit;
    int taken[NEEDED_TO_SERVE], count = 0, needed = is_served ? NEEDED_TO_SERVE : NEEDED;
    char allowed[64];
    while (count < needed && (taken[count] = eventfd(0, EFD_CLOEXEC)) >= 0)
        count++;
    bool is_enough = count == needed || errno != EMFILE;
    while (count > 0)
        close(taken[--count]);
    if (is_enough || getrlimit(RLIMIT_NOFILE, &limit) != 0 || limit.rlim_cur < limit.rlim_max)
        return;
    snprintf(allowed, sizeof allowed, "ulimit -n allows %ju", (uintmax_t)limit.rlim_cur);
    hub_stop(); /* the removal takes a descriptor */
    folder_remove();
    fail(OWN_FAILURE, "too few descriptors", allowed);
}

/* Opens what a run needs, and starts the command. Answers its number, or fails. */
static pid_t start(const struct options *options, int *signals)
{
    int status = 0;
    if (options->served == 0 && !rules_are_good(options))
        exit(OWN_FAILURE);
    say_open(options->log);
    if (options->served != 0)
        serving_begin((pid_t)options->served, options->sockets);
    else
        hub_open(options->quiet);
    need_descriptors(options->served != 0);
    children_begin();
    *signals = signals_open();
    if (options->served != 0) {
        descendants_are_of((pid_t)options->served);
    } else {
        descendants_note_inherited();
        descendants_adopt();
    }
    report_begin(options);
    nested_note_begun();
    pid_t command = command_start(options, hub_address(), &status);
    if (command == 0) {
        int error = errno;
        nested_take_back();
        folder_remove();
        if (status == NOT_FOUND && options->command[1] == NULL && strpbrk(options->command[0], " \t\n") != NULL)
            fail(status, options->command[0],
                 "no such file: the command is one word, and no shell splits it; omit the quotes, or use sh -c");
        fail(status, options->command[0], strerror(error));
    }
    signals_ignore_writes();
    if (!options->quiet && options->live != LIVE_EXIT)
        progress_allow();
    return command;
}

/* asancol-run --files [OPTION..] -- NUMBER:TRACE..: asancol-report --trace starts this for each process, with a socket
   as standard output. It checks the segments of the process in files, and sends what it sends of a run. */
static int check_files(const struct options *options)
{
    if (!report_is_at(STDOUT_FILENO))
        fail(OWN_FAILURE, "--files", "standard output is not a socket: asancol-report --trace gives one");
    children_begin();
    int signals = signals_open();
    signals_ignore_writes();
    report_begin(options);
    loop_check_files(options, signals);
    struct run_end end = {.notes = lowered_lines(options, false)};
    report_finish(&end);
    loop_wait_for_report();
    return 0;
}

int main(int count, char **argv)
{
    int signals;
    (void)count;
    fill_standard();
    struct options options = options_read(argv);
    verdict_begin(options.leaks == LEAKS_YES, !options.no_mismatches);
    if (options.are_files) {
        checkers_begin(&options);
        return check_files(&options);
    }
    checkers_begin(&options);
    nested_begin();
    double started = now();
    pid_t command = start(&options, &signals);
    struct collected collected = loop_run(&options, command, signals);
    struct sum sum = sum_up(&options, command, collected.status);
    struct nested nested = nested_found();
    unrecorded_take(options.unchecked == UNCHECKED_LIST_ALL);
    struct run_end end = {
        .seconds = now() - started,
        .command = command,
        .status = collected.status,
        .nothing = sum.recorded + sum.marks == 0 && !nested.has_recorded && !options.are_held,
        .missing = options.at_least > sum.recorded ? options.at_least - sum.recorded : 0,
        .is_running = collected.is_running,
        .has_timed_out = collected.has_timed_out,
        .lost = nested.lost,
        .notes = notes_of(&options, collected.status),
    };
    bool is_error = options.unchecked == UNCHECKED_ERROR && unchecked_count() > 0;
    end.troubles = troubles_of(&end, options.command[0], is_error);
    bool is_incomplete = is_cut_short(&sum, &end);
    if (!end.nothing || is_incomplete)
        nested_note_recorded();
    enum report_answer answer = conclude(&options, &sum, &end, nested.is_there);
    folder_remove();
    is_incomplete |= is_error || !say_close();
    return due_status(&options, answer, &sum, &end, is_incomplete);
}

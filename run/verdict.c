/* facts_of collects the facts about a segment as bits, and the first row of judgement_rows.h that fits gives the answer
   and the reason. The table `words` has the words in capitals. */
#define _GNU_SOURCE
#include "verdict.h"

#include <fcntl.h>
#include <inttypes.h>
#include <signal.h>
#include <stdio.h>
#include <stdlib.h>
#include <string.h>
#include <sys/wait.h>
#include <unistd.h>

#include "common/crash.h"
#include "deaths.h"
#include "end_line.h"
#include "judgement_rows.h"
#include "say.h"
#include "texts.h"

const char *signal_name(int number)
{
    static char room[32];
    const char *name = sigabbrev_np(number);
    if (name != NULL)
        snprintf(room, sizeof room, "SIG%s", name);
    else
        snprintf(room, sizeof room, "signal %d", number);
    return room;
}

/* One more than the number of the last event that may be bad; 0: nobody says it. */
static uint64_t needed_of(const struct segment *segment)
{
    return segment->side != NULL ? side_progress(segment->side).needed : 0;
}

/* Whether something bad has no event yet, by its word. */
static bool has_noted(const struct segment *segment)
{
    return segment->side != NULL && side_progress(segment->side).noted != 0;
}

static bool is_bad_missing(const struct segment *segment)
{
    return needed_of(segment) > segment->outcome.events + 1 || has_noted(segment);
}

/* What the words in capitals stand for. */

static void put_how(const struct segment *segment, char *room, size_t size)
{
    int status;
    enum death death = death_of(segment->process->peer, &status);
    if (death == DEATH_SEEN && WIFSIGNALED(status))
        snprintf(room, size, "by %s", signal_name(WTERMSIG(status)));
    else if (death == DEATH_SEEN)
        snprintf(room, size, "with status %d", WEXITSTATUS(status));
    else
        snprintf(room, size, "such as by SIGKILL, or by an _exit or exec in a library");
}

static void put_missing(const struct segment *segment, char *room, size_t size)
{
    uint64_t needed = needed_of(segment), next = segment->outcome.events + 1;
    if (needed > next)
        snprintf(room, size, "its last events were not seen, at least %" PRIu64, needed - next);
    else
        snprintf(room, size, "a bad access or free was not recorded before that");
}

static void put_checker(const struct segment *segment, char *room, size_t size)
{
    int status = segment->checker_status;
    if (WIFSIGNALED(status))
        snprintf(room, size, "%s", signal_name(WTERMSIG(status)));
    else
        snprintf(room, size, "%d", WEXITSTATUS(status));
}

static void put_signal(const struct segment *segment, char *room, size_t size)
{
    uint64_t inside = segment->side != NULL ? side_progress(segment->side).inside : 0; /* also after it was lost */
    snprintf(room, size, "%s", signal_name((int)(segment->outcome.signal != 0 ? segment->outcome.signal : inside)));
}

static void put_events(const struct segment *segment, char *room, size_t size)
{
    snprintf(room, size, "%" PRIu64, segment->outcome.events);
}

static void put_left(const struct segment *segment, char *room, size_t size)
{
    snprintf(room, size, "%" PRIu64, segment->outcome.left_out);
}

/* One more than the limit stands in the stream, and says nothing. A checker with a greater limit has counted it. */
static void put_all(const struct segment *segment, char *room, size_t size)
{
    bool has_mark = strcmp(segment->outcome.fate, "no-close") == 0 && segment->outcome.events > 0;
    snprintf(room, size, "%" PRIu64, segment->outcome.left_out + segment->outcome.events - has_mark);
}

static void put_lost(const struct segment *segment, char *room, size_t size)
{
    snprintf(room, size, "%" PRIu64, side_progress(segment->side).findings_lost);
}

/* Why there is no side memory. */
static void put_cause(const struct segment *segment, char *room, size_t size)
{
    const char *cause = segment->trace != NULL ? "record with ASANCOL_WHERE=1" : "no memory came with it";
    snprintf(room, size, "%s", segment->side_error != 0 ? strerror(segment->side_error) : cause);
}

static void put_fate(const struct segment *segment, char *room, size_t size)
{
    snprintf(room, size, "%s", segment->outcome.fate);
}

static const struct {
    const char *word;
    void (*put)(const struct segment *segment, char *room, size_t size);
} words[] = {
    {"HOW", put_how},       {"MISSING", put_missing}, {"CHECKER", put_checker}, {"SIGNAL", put_signal},
    {"EVENTS", put_events}, {"LEFT", put_left},       {"ALL", put_all},         {"FATE", put_fate},
    {"LOST", put_lost},     {"CAUSE", put_cause},
};

/* Puts what a word stands for, or the word. */
static void put_word(const struct segment *segment, const char *word, size_t length, char *room, size_t size)
{
    for (size_t i = 0; i < sizeof words / sizeof *words; i++) {
        if (strlen(words[i].word) == length && strncmp(words[i].word, word, length) == 0) {
            words[i].put(segment, room, size);
            return;
        }
    }
    snprintf(room, size, "%.*s", (int)length, word);
}

/* Puts the words in capitals into the reason of a row, and sets the outcome. */
static void say_why(struct segment *segment, enum answer answer, const char *text)
{
    static const char capitals[] = "ABCDEFGHIJKLMNOPQRSTUVWXYZ_";
    char made[WHY_ROOM];
    size_t used = 0;
    made[0] = 0;
    while (*text != 0) {
        size_t word = strspn(text, capitals), length = word > 0 ? word : strcspn(text, capitals);
        put_word(segment, text, length, made + used, sizeof made - used);
        used += strlen(made + used);
        text += length;
    }
    outcome_set(&segment->outcome, answer, "%s", made);
}

/* The fate of a stream as a bit of judgement_rows.h. */
static unsigned fate_of(const struct segment *segment)
{
    static const struct {
        const char *text;
        unsigned fate;
    } fates[] = {
        {"closed", CLOSED},       {"no-close", NO_CLOSE},   {"truncated", TRUNCATED},
        {"too-many", TOO_MANY},   {"no-memory", NO_MEMORY}, {"not-checked", NOT_CHECKED},
    };
    for (size_t i = 0; i < sizeof fates / sizeof *fates; i++)
        if (strcmp(segment->outcome.fate, fates[i].text) == 0)
            return fates[i].fate;
    if (segment->is_unwritten && strcmp(segment->outcome.fate, "malformed code") == 0)
        return UNWRITTEN;
    return strncmp(segment->outcome.fate, "malformed", strlen("malformed")) == 0 ? MALFORMED : OTHER_FATE;
}

/* Whether the trace has all that the process recorded up to an end that the recorder saw. */
static bool has_all(const struct segment *segment, unsigned fate)
{
    uint32_t ending = segment->outcome.ending;
    /* A thread that continues in the next segment searches again for the fault noted in this one. */
    if (ending != ENDING_SEGMENT && is_bad_missing(segment))
        return false;
    /* Good events may be missing. */
    if (segment->outcome.is_closed_off && ending != ENDING_NONE && ending != ENDING_LOST)
        return (fate & CUT_OFF) && needed_of(segment) <= segment->outcome.events + 1;
    if (fate != NO_CLOSE)
        return fate == CLOSED;
    if (ending == ENDING_EXIT) /* threads may have gone on until the system ended them */
        return segment->side->events <= segment->outcome.events;
    return (ending == ENDING_EXEC || ending == ENDING_SIGNAL) && segment->side->events == segment->outcome.events;
}

/* Whether another program runs in the place of a process whose connection has ended: it runs still, or it has connected
   by itself. */
static bool is_replaced(const struct segment *segment)
{
    if (has_other_image(segment->process->peer))
        return true;
    const struct process *process = segment->process, *later = process;
    while ((later = process_next_of_peer(later)) != NULL)
        if (later->parent == process->parent && later->started != process->started)
            return true;
    return false;
}

/* Whether the process does not run any more, or not this program: its connection may have ended since it has closed all
   descriptors. */
static bool is_over(struct segment *segment)
{
    int status;
    segment->outcome.was_replaced |= is_replaced(segment);
    return segment->outcome.was_replaced || death_of(segment->process->peer, &status) != DEATH_NONE;
}

/* Whether other processes end one by this signal. */
static bool is_of_others(int number)
{
    return number == SIGKILL || number == SIGTERM || number == SIGINT || number == SIGHUP || number == SIGQUIT;
}

/* Whether another process has ended it, as far as that was seen. */
static bool is_death_by_others(const struct segment *segment)
{
    int status;
    return death_of(segment->process->peer, &status) == DEATH_SEEN && WIFSIGNALED(status)
           && is_of_others(WTERMSIG(status));
}

/* Whether a call of the recorder's own has ended the process, or a child of vfork before its exec, as where a filter
   ends whoever makes it. */
static bool has_stopped(struct segment *segment)
{
    int status;
    if (segment->side == NULL || segment->outcome.ending == ENDING_SEGMENT)
        return false;
    struct side_progress progress = side_progress(segment->side);
    if (segment->outcome.ending != ENDING_NONE && segment->outcome.ending != ENDING_SIGNAL)
        return progress.starts != 0 && (segment->process->source == SOURCE_FILES || is_over(segment))
               && !is_death_by_others(segment);
    if (progress.calls == 0 && progress.starts == 0)
        return false;
    if (segment->outcome.ending == ENDING_SIGNAL)
        return segment->side->signal == SIGSYS;
    enum death death = death_of(segment->process->peer, &status);
    bool is_other = death == DEATH_SEEN && !(WIFSIGNALED(status) && WTERMSIG(status) == SIGSYS);
    return death != DEATH_NONE && !is_other;
}

/* Whether the process came as far as main. What it is for was not seen if it did not. */
static bool has_begun(const struct segment *segment)
{
    return segment->side == NULL || side_progress(segment->side).has_begun != 0;
}

/* Whether another process has ended it, as a parent ends a child that it needs no more. Of SIGKILL only the number is
   known. */
static bool was_ended_by_others(const struct segment *segment)
{
    if (segment->side == NULL || segment->outcome.reports + segment->outcome.findings > 0)
        return false;
    if (segment->outcome.ending == ENDING_SIGNAL)
        return is_of_others((int)segment->side->signal) && side_progress(segment->side).sender != 0;
    return is_death_by_others(segment);
}

static bool leaks_count;
static uint64_t not_wanted; /* enum side_skipped */

void verdict_begin(bool counts_leaks, bool wants_mismatches)
{
    leaks_count = counts_leaks;
    not_wanted = (uint64_t)(counts_leaks ? 0 : SKIPPED_LEAKS) | (wants_mismatches ? 0 : SKIPPED_FAMILIES);
}

bool verdict_is_clean(const struct segment *segment)
{
    struct side_progress progress = side_progress(segment->side);
    uint64_t shown = progress.findings - (leaks_count ? 0 : progress.leaks);
    return progress.needed == 1 && progress.noted == 0 && progress.inside == 0 && shown == 0;
}

bool verdict_has_findings(const struct segment *segment)
{
    struct side_progress progress = side_progress(segment->side);
    return progress.findings != 0 || progress.leaks != 0 || progress.leaks_missed != 0;
}

bool verdict_is_at_end(const struct segment *segment)
{
    uint32_t ending = segment->side->ending;
    return ending == ENDING_EXIT || ending == ENDING_EXEC;
}

/* No process comes so far. What says more is no memory of a recorder's. */
#define MAX_LEFT_GOOD (UINT64_C(1) << 48)

static void read_children(struct segment *segment, uint64_t forks)
{
    pid_t numbers[SIDE_CHILDREN];
    size_t count = segment->side != NULL ? side_children(segment->side, numbers) : 0;
    free(segment->children);
    segment->children = NULL;
    if (count == 0 && forks == 0)
        return;
    segment->children = must(malloc(sizeof *segment->children + count * sizeof *numbers));
    segment->children->forks = forks;
    segment->children->count = count;
    memcpy(segment->children->numbers, numbers, count * sizeof *numbers);
}

static void read_findings(struct outcome *outcome, const struct side_progress *progress, uint32_t entries)
{
    uint32_t findings = progress->findings < entries ? (uint32_t)progress->findings : entries;
    outcome->leaks = leaks_count ? 0 : progress->leaks < findings ? (uint32_t)progress->leaks : findings;
    outcome->findings = findings - outcome->leaks;
    outcome->leaks_missed = progress->leaks_missed != 0;
}

/* Who has forked its process, and what that has started. */
static void read_kin(struct segment *segment, const struct side_progress *progress)
{
    struct process *process = segment->process;
    read_children(segment, progress->forks);
    segment->becomes = progress->becomes != 0 && segment->outcome.ending == ENDING_EXEC;
    if (progress->of_parent_started == 0)
        return;
    process->of_parent = (int)progress->of_parent;
    process->of_parent_started = progress->of_parent_started;
}

/* Takes what the recorder says of its end, and of what the stream has. */
static void read_side(struct segment *segment)
{
    const struct side *side = segment->side;
    struct outcome *outcome = &segment->outcome;
    outcome->ending = side != NULL ? side->ending : ENDING_NONE;
    outcome->left_out = side != NULL ? side->left_out : 0;
    outcome->has_checks = !process_is_unseen(segment->process) && (side == NULL || side->has_checks != 0);
    outcome->signal = outcome->ending == ENDING_SIGNAL ? side->signal : 0;
    uint32_t halted = side != NULL ? side_settings(side).has_halted : HALTED_NOT;
    outcome->has_halted = halted != HALTED_NOT;
    outcome->is_unsaid = halted == HALTED_UNSAID;
    outcome->asks_words = halted == HALTED_AND_ASKS;
    struct side_progress progress = side != NULL ? side_progress(side) : (struct side_progress){0};
    read_findings(outcome, &progress, side != NULL ? side_entries(side) : 0); /* after the progress: both grow */
    outcome->stated = progress.stated < outcome->events ? progress.stated : outcome->events;
    outcome->left_good = progress.left_good <= MAX_LEFT_GOOD ? progress.left_good : 0;
    outcome->skipped = progress.skipped & ~not_wanted;
    outcome->used_again = progress.used_again < ADDRESS_END ? progress.used_again : ADDRESS_END;
    outcome->is_closed_off = progress.closed_off != 0;
    read_kin(segment, &progress);
}

/* Whether what its recorder says of it can't be: it writes an entry of the list before it counts a finding. */
static bool contradicts_itself(const struct side *side)
{
    struct side_progress progress = side_progress(side);
    return progress.needed == 0 || progress.leaks > progress.findings || progress.findings > side_entries(side);
}

static unsigned limit_of(const struct outcome *outcome)
{
    return LIMIT | (outcome->left_out != 0 ? LEFT_OUT : 0) | (outcome->is_one ? ONE_SEGMENT : 0);
}

/* Of one that said nothing of its end. */
static unsigned look_if_gone(struct segment *segment)
{
    bool is_gone = is_over(segment);
    return (is_gone ? GONE : 0) | (segment->outcome.was_replaced ? REPLACED : 0);
}

static unsigned facts_of(struct segment *segment, unsigned fate)
{
    unsigned facts = 0;
    if (segment->cut != CUT_NONE)
        facts |= segment->cut == CUT_BY_WAIT ? BY_WAIT : BY_TIMEOUT;
    if (fate == NOT_CHECKED && WIFSIGNALED(segment->checker_status))
        facts |= KILLED;
    if (segment->outcome.left_out != 0 || (segment->side != NULL && segment->side->is_at_limit != 0))
        facts |= limit_of(&segment->outcome);
    if (is_bad_missing(segment))
        facts |= BAD_MISSING;
    else if (needed_of(segment) != 0)
        facts |= NONE_MISSING;
    if (has_all(segment, fate))
        facts |= ALL_CAME;
    if (has_stopped(segment))
        facts |= OWN_CALL;
    if (segment->outcome.ending == ENDING_NONE && (facts & NONE_MISSING) && (fate & CUT_OFF))
        facts |= look_if_gone(segment);
    if (segment->side != NULL && side_progress(segment->side).findings_lost != 0)
        facts |= FINDINGS_LOST;
    if (segment->side != NULL && side_progress(segment->side).inside != 0)
        facts |= INSIDE;
    if (leaks_count && segment->outcome.leaks_missed)
        facts |= LEAKS_MISSED;
    facts |= segment->outcome.is_closed_off ? CLOSED_OFF : 0;
    facts |= was_ended_by_others(segment) ? BY_OTHERS : 0;
    if (segment->side != NULL)
        facts |= BESIDE | (contradicts_itself(segment->side) ? CONTRADICTION : 0);
    facts |= segment->process->source == SOURCE_FILES ? FILE_ALONE : 0;
    return facts | (segment->outcome.has_checks ? CHECKS : 0) | (has_begun(segment) ? MAIN : 0);
}

/* A process may say anything. */
static unsigned ending_of(const struct segment *segment)
{
    return segment->outcome.ending <= ENDING_SEGMENT ? 1u << segment->outcome.ending : OTHER_ENDING;
}

void verdict_blame_limit(struct outcome *outcome)
{
    struct segment whole = {.outcome = *outcome}; /* the words of these rows need no more */
    say_why(&whole, INCOMPLETE, find_row(OTHER_FATE, OTHER_ENDING, limit_of(outcome))->why);
    *outcome = whole.outcome;
    outcome->is_cut_at_limit = true;
}

/* The signal that has ended a process without its recorder's knowledge, or 0. */
static unsigned unheard_signal(const struct segment *segment)
{
    int status;
    bool is_seen = death_of(segment->process->peer, &status) == DEATH_SEEN && WIFSIGNALED(status);
    return is_seen ? (unsigned)WTERMSIG(status) : 0;
}

/* Whether the process may still say that it did not end so: an exec may fail, and it may go on. */
static bool may_take_back(struct segment *segment)
{
    bool tries_exec = segment->outcome.ending == ENDING_EXEC || side_progress(segment->side).starts != 0;
    return tries_exec && !is_over(segment);
}

/* The data of a file do not change any more; the number past the limit may still grow, and an event of a segment
   may be left out as long as the process runs. How a process has died may be known only after its connection. */
static bool is_settled(struct segment *segment, unsigned fate, unsigned facts)
{
    uint32_t ending = segment->outcome.ending;
    if (segment->trace != NULL)
        return true;
    if (segment->side == NULL)
        return !(fate & CUT_OFF);
    return !(facts & (LIMIT | OWN_CALL)) && ending != ENDING_NONE && ending != ENDING_SEGMENT
           && !may_take_back(segment);
}

/* Reads the side memory, and judges by the first row that fits. */
static void judge(struct segment *segment)
{
    struct outcome *outcome = &segment->outcome;
    read_side(segment);
    unsigned fate = fate_of(segment), facts = facts_of(segment, fate);
    const struct row *row = find_row(fate, ending_of(segment), facts);
    outcome->is_cut_at_limit = row->holds & LIMIT;
    bool is_unheard = outcome->ending == ENDING_NONE && !(facts & REPLACED);
    if ((row->answer == UP_TO_THERE || row->answer == BEFORE_MAIN) && is_unheard)
        outcome->signal = unheard_signal(segment);
    outcome->is_crash = crash_is(outcome->signal) && !outcome->has_halted;
    outcome->is_ignored = crash_is(outcome->signal) && ignores_deaths(segment->process->parent);
    say_why(segment, row->answer, row->why);
    outcome->is_settled = is_settled(segment, fate, facts);
}

/* Whether a zero comes next: room that the recorder made in a file, and did not come to use. */
static bool goes_on_with_zero(const char *trace, uint64_t offset)
{
    char byte = 1;
    int from = open(trace, O_RDONLY | O_CLOEXEC | O_NONBLOCK);
    bool is_read = from >= 0 && offset <= MAX_STREAM_SIZE && pread(from, &byte, 1, (off_t)offset) == 1;
    if (from >= 0)
        close(from);
    return is_read && byte == 0;
}

static void read_end_line(struct segment *segment, const struct end_line *said)
{
    struct end_line end;
    struct outcome *outcome = &segment->outcome;
    bool is_read = said != NULL || end_line_find(segment->verdicts, &end);
    if (said != NULL)
        end = *said;
    outcome->events = end.events;
    outcome->reports = end.reports;
    segment->is_unwritten = segment->trace != NULL && goes_on_with_zero(segment->trace, end.offset);
    outcome->fate = text_kept(is_read ? end.fate : "not-checked");
}

void verdict_read(struct segment *segment, const char *cause, const struct end_line *end)
{
    read_end_line(segment, end);
    judge(segment);
    if (cause == NULL)
        return;
    outcome_set(&segment->outcome, INCOMPLETE, "%s", cause);
    segment->outcome.is_settled = true;
}

bool verdict_again(struct segment *segment)
{
    struct outcome before = segment->outcome, *outcome = &segment->outcome;
    if (before.is_settled)
        return false;
    judge(segment);
    outcome->is_settled = true;
    return outcome_is_complete(&before) != outcome_is_complete(outcome) || before.left_out != outcome->left_out
           || before.why != outcome->why;
}

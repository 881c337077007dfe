/* The judgement of processes and of runs, on all inputs: prints a line for each row of judgement_rows.h, and for each
   status, with how many inputs come to it and a sum over them. With PROVED, and the library of crates/asan_judgement_c,
   each answer is compared with the proved one too, and the status is 1 if one differs. */
#include <inttypes.h>
#include <stdbool.h>
#include <stdint.h>
#include <stdio.h>

#include "run/judgement_rows.h"
#include "run/status.h"

enum { FATES = 9, ENDINGS = 7, FACTS = 1 << 22, ROWS = sizeof rows / sizeof *rows };

/* As crates/asan_judgement_c numbers them. */
static const uint32_t answers[] = {
    [COMPLETE] = 0, [UP_TO_THERE] = 1, [BEFORE_MAIN] = 2, [UNCHECKED] = 3, [INCOMPLETE] = 4,
};
static const char *const answer_names[] = {"complete", "up to there", "before main", "unchecked", "incomplete"};
enum { ANSWERS = sizeof answers / sizeof *answers };

/* The most processes that a run here has, and the least reports of one that are tried. */
enum { PROCESSES = 3, KINDS = ANSWERS * 2 };

struct asked {
    uint8_t command, said;
    bool is_empty, is_cut_short;
    uint8_t reports, incomplete, nothing;
};

#ifdef PROVED
/* The answer, and 256 times the number of the reason. */
uint32_t asan_judgement_verdict(uint32_t fate, uint32_t ending, uint32_t facts);
/* A process is its answer, and 256 if it has a report. */
uint8_t asan_judgement_status(const uint32_t *processes, size_t count, const struct asked *asked);
#endif

static unsigned long differ;

/* Which of them come to a line, whatever their order. */
struct line {
    uint64_t count, sum;
};

static void add(struct line *line, uint64_t input)
{
    uint64_t mixed = (input + 1) * UINT64_C(0x9e3779b97f4a7c15);
    line->count++;
    line->sum += (mixed ^ mixed >> 29) * UINT64_C(0xbf58476d1ce4e5b9);
}

static void compare_row(unsigned fate, unsigned ending, unsigned facts, const struct row *row)
{
#ifdef PROVED
    uint32_t proved = asan_judgement_verdict(fate, ending, facts);
    uint32_t here = answers[row->answer] | (uint32_t)(row - rows) << 8;
    if (proved != here && differ++ < 5)
        printf("fate %u, ending %u, facts %06x: row %td, proved %u\n", fate, ending, facts, row - rows, proved >> 8);
#else
    (void)fate, (void)ending, (void)facts, (void)row;
#endif
}

static void judge_all(void)
{
    static struct line lines[ROWS];
    for (unsigned fate = 0; fate < FATES; fate++)
        for (unsigned ending = 0; ending < ENDINGS; ending++)
            for (unsigned facts = 0; facts < FACTS; facts++) {
                const struct row *row = find_row(1u << fate, 1u << ending, facts);
                add(&lines[row - rows], ((uint64_t)fate * ENDINGS + ending) * FACTS + facts);
                compare_row(fate, ending, facts, row);
            }
    for (size_t i = 0; i < ROWS; i++)
        printf("%9" PRIu64 " %016" PRIx64 " %s%s%s\n", lines[i].count, lines[i].sum,
               answer_names[answers[rows[i].answer]], rows[i].why[0] != 0 ? ": " : "", rows[i].why);
}

/* What a run of these processes came to. */
static struct seen seen_of(const uint32_t *processes, size_t count, const struct asked *asked)
{
    struct seen seen = {
        .said = (enum said)asked->said,
        .nothing = asked->is_empty,
        .is_cut_short = asked->is_cut_short,
        .has_failed = asked->command != 0,
    };
    for (size_t i = 0; i < count; i++) {
        uint32_t answer = processes[i] % 256;
        seen.incomplete += answer != answers[COMPLETE] && answer != answers[UP_TO_THERE];
        seen.unchecked += answer == answers[UNCHECKED];
        seen.reports += processes[i] / 256;
    }
    return seen;
}

static void compare_status(const uint32_t *processes, size_t count, const struct asked *asked, int status)
{
#ifdef PROVED
    int proved = asan_judgement_status(processes, count, asked);
    if (proved != (status == STATUS_OF_COMMAND ? asked->command : status) && differ++ < 5)
        printf("%zu processes, command %u, said %u: status %d, proved %d\n", count, asked->command, asked->said, status,
               proved);
#else
    (void)processes, (void)count, (void)asked, (void)status;
#endif
}

/* All that is asked of a run, by its number: the statuses are 0 or their own. */
enum { ASKED = 4 << 6 };

static struct asked asked_of(unsigned number)
{
    return (struct asked){
        .said = number % 4,
        .command = number & 4 ? 7 : 0,
        .is_empty = number & 8,
        .is_cut_short = number & 16,
        .reports = number & 32 ? 99 : 0,
        .incomplete = number & 64 ? 98 : 0,
        .nothing = number & 128 ? 77 : 0,
    };
}

/* All runs of this many processes. */
static void end_each(size_t count, struct line *lines)
{
    unsigned long lists = 1;
    for (size_t i = 0; i < count; i++)
        lists *= KINDS;
    for (unsigned long list = 0; list < lists; list++) {
        uint32_t processes[PROCESSES];
        unsigned long rest = list;
        for (size_t i = 0; i < count; i++, rest /= KINDS)
            processes[i] = (uint32_t)(rest % ANSWERS | (rest % KINDS / ANSWERS) << 8);
        for (unsigned number = 0; number < ASKED; number++) {
            struct asked asked = asked_of(number);
            struct seen seen = seen_of(processes, count, &asked);
            int status = status_of(&seen, &(struct statuses){asked.reports, asked.incomplete, asked.nothing});
            add(&lines[status == STATUS_OF_COMMAND ? 0 : status], (list * (PROCESSES + 1) + count) * ASKED + number);
            compare_status(processes, count, &asked, status);
        }
    }
}

int main(void)
{
    static struct line ends[256];
    judge_all();
    for (size_t count = 0; count <= PROCESSES; count++)
        end_each(count, ends);
    printf("%9" PRIu64 " %016" PRIx64 " the command's status\n", ends[0].count, ends[0].sum);
    for (unsigned status = 1; status < 256; status++)
        if (ends[status].count != 0)
            printf("%9" PRIu64 " %016" PRIx64 " status %u\n", ends[status].count, ends[status].sum, status);
    if (differ != 0)
        printf("%lu answers differ from the proved ones\n", differ);
    return differ != 0;
}

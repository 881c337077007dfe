/* What a segment has come to; or all segments of a process together.

   Called: outcome_set by verdict.c, segments.c, kin.c and marks.c, which judge; the others by these, and by whoever
   prints; in the one thread of asancol-run; no lock. */
#ifndef ASANCOL_RUN_OUTCOME_H
#define ASANCOL_RUN_OUTCOME_H

#include <stdbool.h>
#include <stdint.h>

/* Whether it was complete. */
enum answer {
    INCOMPLETE,
    COMPLETE,
    UP_TO_THERE, /* complete: its recorder did not see its end, and what it did up to there was seen all the same */
    BEFORE_MAIN, /* incomplete: the same, and what it is for was not seen */
    UNCHECKED    /* incomplete since it has no checks, and for no other reason */
};

/* Zeros and empty texts until its end was judged. Texts are kept (texts.h). */
struct outcome {
    const char *fate, *why; /* of its end line; why it was incomplete, or how it ended */
    enum answer answer;
    uint32_t ending;   /* enum ending */
    unsigned signal;   /* that has ended it, as the recorder saw; or 0 */
    uint32_t segments; /* how many have come, of all together */
    uint64_t events, reports, left_out, stated, left_good;
    uint32_t findings;           /* places of which its recorder says that something is wrong there, */
    uint32_t leaks;              /* and those that leak, if leaks are summed up: then they are no findings */
    uint64_t skipped;            /* enum side_skipped: of the wanted checks */
    uint64_t used_again;         /* how many bytes of blocks it had handed out when freed memory came again; or 0 */
    uint64_t quarantine;         /* how many bytes of freed blocks it holds */
    bool is_one, halts, is_lean; /* as it was set (struct side_settings) */
    bool leaks_missed;           /* they were to be looked for, and could not be */
    bool has_checks;
    bool is_closed_off;   /* it has closed its descriptors, that of its stream too */
    bool is_cut_at_limit; /* it is incomplete since it went on after the limit of events */
    bool has_halted;      /* it has ended itself at its first report, by ASANCOL_HALT: that is no crash; */
    bool is_unsaid;       /* and has left it to us to print that, */
    bool asks_words;      /* or waits for its words to print them itself */
    bool is_crash;        /* the signal is one of a mistake, */
    bool is_ignored;      /* of which whoever has started it wants to hear nothing */
    bool was_replaced;    /* it did not end: another program runs in its place */
    bool is_settled;      /* nothing of it can change any more */
};

/* No cause is longer, with the zero at its end. */
enum { WHY_ROOM = 160 };

static inline bool outcome_is_complete(const struct outcome *outcome)
{
    return outcome->answer == COMPLETE || outcome->answer == UP_TO_THERE;
}

static inline uint64_t outcome_reports(const struct outcome *outcome)
{
    return outcome->reports + outcome->findings; /* both are reports to the user */
}

/* Sets its answer and its cause: nothing else does. */
void outcome_set(struct outcome *outcome, enum answer answer, const char *form, ...)
    __attribute__((format(printf, 3, 4)));

#endif

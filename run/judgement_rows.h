/* How a process is judged by the facts about it: rows, and which of them applies.

   Called: by verdict.c alone, which includes it, and by tests; in the one thread of asancol-run; no lock. */
#ifndef ASANCOL_RUN_JUDGEMENT_ROWS_H
#define ASANCOL_RUN_JUDGEMENT_ROWS_H

#include "common/format.h"
#include "outcome.h"

/* How a trace ended, by its end line. */
enum {
    CLOSED = 1 << 0,
    NO_CLOSE = 1 << 1,
    TRUNCATED = 1 << 2,
    UNWRITTEN = 1 << 3, /* a file that goes on with zeros */
    MALFORMED = 1 << 4,
    TOO_MANY = 1 << 5,
    NO_MEMORY = 1 << 6,
    NOT_CHECKED = 1 << 7,
    OTHER_FATE = 1 << 8,
    CUT_OFF = NO_CLOSE | TRUNCATED | UNWRITTEN
};

/* How the process ended, by its recorder. */
enum {
    NONE = 1 << ENDING_NONE,
    EXIT = 1 << ENDING_EXIT,
    EXEC = 1 << ENDING_EXEC,
    SIGNAL = 1 << ENDING_SIGNAL,
    LOST = 1 << ENDING_LOST,
    SEGMENT = 1 << ENDING_SEGMENT,
    OTHER_ENDING = 1 << 6
};

enum { ANY = (1 << 9) - 1 };

/* What else is known. README.md says it in words. */
enum {
    BY_WAIT = 1 << 0,
    BY_TIMEOUT = 1 << 1,
    KILLED = 1 << 2,
    LIMIT = 1 << 3,
    LEFT_OUT = 1 << 4,
    ONE_SEGMENT = 1 << 5,
    OWN_CALL = 1 << 6,
    GONE = 1 << 7,
    REPLACED = 1 << 8,
    NONE_MISSING = 1 << 9,
    BAD_MISSING = 1 << 10,
    ALL_CAME = 1 << 11,
    CHECKS = 1 << 12,
    MAIN = 1 << 13,
    FILE_ALONE = 1 << 14,
    FINDINGS_LOST = 1 << 15,
    LEAKS_MISSED = 1 << 16,
    INSIDE = 1 << 17,
    CLOSED_OFF = 1 << 18,
    BY_OTHERS = 1 << 19,
    BESIDE = 1 << 20,
    CONTRADICTION = 1 << 21
};

struct row {
    unsigned fates, endings, holds, lacks;
    enum answer answer;
    const char *why; /* say_why fills in its words in capitals */
};

/* The judgement: the first row that applies counts. README.md has the same rows, and each has a test
   (tests/judge.py). crates/asan_judgement proves what they promise: tests/judged.c holds them against it. */
static const struct row rows[] = {
    {ANY, ANY, BY_WAIT, ALL_CAME, INCOMPLETE, "was still running at the end of asancol-run"},
    {ANY & ~CLOSED, NONE | SIGNAL | LOST | SEGMENT, BY_TIMEOUT, 0, INCOMPLETE, "was ended by --timeout"},
    {NOT_CHECKED, ANY, KILLED, 0, INCOMPLETE, "its checker was ended by CHECKER"},
    {NOT_CHECKED, ANY, 0, 0, INCOMPLETE, "its checker printed no verdict, and ended with status CHECKER"},
    {ANY, ANY, INSIDE, 0, INCOMPLETE,
     "died in the recorder, by SIGNAL: a bug in asancol, or a wild store into its memory"},
    {ANY, ANY, LIMIT | LEFT_OUT | ONE_SEGMENT, 0, INCOMPLETE,
     "reached the event limit: LEFT of ALL events were not recorded, since ASANCOL_SEGMENTS is 0"},
    {ANY, ANY, LIMIT | LEFT_OUT, 0, INCOMPLETE, "reached the event limit: LEFT of ALL events were not recorded"},
    {ANY, ANY, LIMIT, 0, INCOMPLETE, "reached the event limit, and was not seen to end"},
    {ANY, ANY, OWN_CALL, 0, INCOMPLETE,
     "ended in a system call of the recorder, or before an exec, such as by SIGKILL or a system call filter"},
    {ANY, ANY, FINDINGS_LOST, 0, INCOMPLETE, "its recorder had no room for LOST of its findings"},
    {ANY, ANY, LEAKS_MISSED, 0, INCOMPLETE, "its leaks were not looked for, such as when a thread does not stop"},
    {ANY, ANY, CONTRADICTION, 0, INCOMPLETE,
     "the data beside its trace are inconsistent, such as after a wild store"},
    {CUT_OFF, NONE, GONE | NONE_MISSING, CHECKS, UNCHECKED, "none of its code was compiled by asancol-cc"},
    {CUT_OFF, NONE, GONE | NONE_MISSING | REPLACED | MAIN, 0, COMPLETE, "ran another program, by an exec in a library"},
    {CUT_OFF, NONE, GONE | NONE_MISSING | REPLACED, 0, BEFORE_MAIN, "ran another program, by an exec in a library"},
    {CUT_OFF, NONE, GONE | NONE_MISSING | MAIN, 0, UP_TO_THERE, "ended abruptly, HOW"},
    {CUT_OFF, NONE, GONE | NONE_MISSING | BY_OTHERS, 0, UP_TO_THERE, "ended abruptly, HOW, before main"},
    {CUT_OFF, NONE, GONE | NONE_MISSING, 0, BEFORE_MAIN, "ended abruptly, HOW, before main"},
    {NO_MEMORY, ANY, 0, 0, INCOMPLETE, "its checker had no more memory after EVENTS events"},
    {TOO_MANY, ANY, 0, 0, INCOMPLETE, "reached the event limit of its checker, after EVENTS events"},
    {ANY, ANY, CLOSED_OFF | BAD_MISSING, ALL_CAME, INCOMPLETE, "it has closed all its descriptors: MISSING"},
    {ANY, LOST, CLOSED_OFF, ALL_CAME, INCOMPLETE, "it has closed all its descriptors, and ASANCOL_SEGMENTS is 0"},
    {ANY, LOST, 0, ALL_CAME, INCOMPLETE, "its recording ended early"},
    {CUT_OFF | MALFORMED, NONE, BAD_MISSING, 0, INCOMPLETE, "ended abruptly, HOW: MISSING"},
    {UNWRITTEN, NONE, FILE_ALONE, 0, INCOMPLETE,
     "ended abruptly, such as by SIGKILL, or by an _exit or exec in a library, or still running"},
    {CUT_OFF | MALFORMED, NONE, 0, FILE_ALONE, INCOMPLETE, "ended abruptly, HOW: its last events were not seen"},
    {ANY, ANY, BAD_MISSING, ALL_CAME, INCOMPLETE, "it ended: MISSING"},
    {ANY, ANY, 0, ALL_CAME, INCOMPLETE, "its trace ended as FATE"},
    {ANY, ANY, 0, BESIDE, INCOMPLETE,
     "its findings and leaks are unknown, since there are no data beside its trace: CAUSE"},
    {ANY, ANY, 0, CHECKS, UNCHECKED, "none of its code was compiled by asancol-cc"},
    {ANY, SIGNAL, MAIN, 0, COMPLETE, "ended by SIGNAL"},
    {ANY, SIGNAL, BY_OTHERS, 0, UP_TO_THERE, "ended by SIGNAL before main"},
    {ANY, SIGNAL, 0, 0, BEFORE_MAIN, "ended by SIGNAL before main"},
    {ANY, ANY, 0, 0, COMPLETE, ""},
};

static const struct row *find_row(unsigned fate, unsigned ending, unsigned facts)
{
    const struct row *row = rows;
    while (!(row->fates & fate) || !(row->endings & ending) || (facts & row->holds) != row->holds
           || (facts & row->lacks))
        row++; /* the last one takes all */
    return row;
}

#endif

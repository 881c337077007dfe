/* The last line that a checker prints of a stream: how it ended, and the numbers of it.

   Called: end_line_of by checkers.c and shared.c, end_line_find by verdict.c; in the one thread of asancol-run; no
   lock. */
#ifndef ASANCOL_RUN_END_LINE_H
#define ASANCOL_RUN_END_LINE_H

#include <stdbool.h>
#include <stddef.h>
#include <stdint.h>

struct end_line {
    char fate[32];
    uint64_t events, offset, reports; /* 0, if the line does not have it */
};

/* Reads the last line of a text: "p0 end FATE events E offset O reports R", "p0 end no-memory checked E reports R" or
   "p0 end FATE". False: there is none, or it is none of these. */
bool end_line_of(const char *text, size_t length, struct end_line *end);
/* Reads the last line of what a checker has written to a file. False: there is none, or it is none of these. */
bool end_line_find(int verdicts, struct end_line *end);

#endif

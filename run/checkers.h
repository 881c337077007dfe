/* Each recorded process has a checker: an asancol whose standard input is the connection, or has one with others
   (shared.h).

   Called: checkers_begin by asancol-run.c; checker_can_wait by held.c; checkers_program, checkers_words and
   checker_take_text by shared.c; the rest by loop.c, checker_sum_up also by asancol-run.c, checker_give_up also by
   marks.c; in the one thread of asancol-run; no lock. */
#ifndef ASANCOL_RUN_CHECKERS_H
#define ASANCOL_RUN_CHECKERS_H

#include <stdbool.h>

#include "common/string_list.h"
#include "options.h"
#include "processes.h"

/* Finds asancol, so that it is known to be there before the command starts. */
void checkers_begin(const struct options *options);
/* Starts the checker of a process that has sent its first bytes. False: there are no resources now, try again. */
bool checker_start(struct segment *segment);
/* Whether it can do without: its stream is small, and nothing is known that a report would show. */
bool checker_can_wait(struct segment *segment);
/* The program, and the first words of its command line before names of files. */
const char *checkers_program(void);
struct strings checkers_words(void);
/* Takes the text and the status of a checker that it had with others. False: there are no resources now. */
bool checker_take_text(struct segment *segment, const char *text, size_t length, int status);
/* Whether what it has sent is a question, which comes before those bytes. It is answered. */
bool checker_answers(struct segment *segment);
/* Checks a trace that is in a file. The same. */
bool checker_start_file(struct segment *segment);
/* Judges all segments of a process again, at its end, and says what has changed. */
void checker_sum_up(struct process *process);
/* Gives up a process whose checker can't be started, for this cause. */
void checker_give_up(struct segment *segment, const char *why);
/* Takes the status of a checker or of a tee that has ended. */
void checker_has_ended(struct segment *segment, bool is_tee, int status);

#endif

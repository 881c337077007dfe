/* The log, where reports and all other lines go, and the ends of a run that cannot go on.

   Called: by any file here: say_open, say_close and progress_allow by asancol-run.c, say_text by report.c,
   say_descriptor by that and command.c, progress and progress_line by loop.c, progress_erase by signals.c and
   asancol-run.c; in the one thread of asancol-run, never in a handler; no lock. */
#ifndef ASANCOL_RUN_SAY_H
#define ASANCOL_RUN_SAY_H

#include <stdbool.h>
#include <stdint.h>
#include <stddef.h>

#include "common/must.h"

/* As env: what asancol-run ends with if it cannot run the command. */
enum { OWN_FAILURE = 125, NOT_EXECUTABLE = 126, NOT_FOUND = 127 };

/* The log is this file, or standard error if it is null. Fails if it cannot be opened. */
void say_open(const char *path);
int say_descriptor(void);
/* A line of the log: what can't be printed is escaped. */
void say(const char *form, ...) __attribute__((format(printf, 1, 2)));
/* Text of the log as it is. */
void say_text(const char *text, size_t length);
/* False if something could not be written. */
bool say_close(void);

/* Prints "asancol-run: OF: WHAT" on standard error, and ends. */
_Noreturn void fail(int status, const char *of, const char *what);

/* The plural ending of a word for this number, or none for one. */
const char *plural(uint64_t count, const char *end);

/* Seconds since some moment. */
double now(void);

/* A line on the terminal that says what the run waits for. It is erased before any other line. */
void progress_allow(void);
void progress(const char *form, ...) __attribute__((format(printf, 1, 2)));
void progress_erase(void);
/* One that stays there. */
void progress_line(const char *form, ...) __attribute__((format(printf, 1, 2)));

#endif

/* The unchecked code of the processes, as their recorders list it, and the programs that were not recorded: each name
   once.

   Called: unchecked_take by checkers.c, unchecked_add_program by unrecorded.c, unchecked_put by report.c,
   unchecked_program by nothing.c, the rest by asancol-run.c at the end; in the one thread of asancol-run; no lock. */
#ifndef ASANCOL_RUN_UNCHECKED_H
#define ASANCOL_RUN_UNCHECKED_H

#include <stdbool.h>
#include <stddef.h>
#include <stdio.h>

#include "processes.h"

/* Whether it is said, and whether it counts: in the order of the words of --unchecked (options/asancol-run.options). */
enum unchecked { UNCHECKED_LIST, UNCHECKED_LIST_ALL, UNCHECKED_NO, UNCHECKED_ERROR };

/* Takes what a process has, while its side memory or its file is there. */
void unchecked_take(const struct segment *segment);
/* Adds a program that was not recorded, by its path, unless its file is among the unchecked code. */
void unchecked_add_program(const char *path, const char *file);
/* The program of this number that was not recorded, by its path from the current folder; null: there are no more. */
const char *unchecked_program(size_t number);
/* How many names there are, without those of libraries of the system. */
size_t unchecked_count(void);
/* Whether one of them is more than what ASAN_OPTIONS, or a program's own options, have turned off: their user knows of
   that, so a quiet run does not say it. */
bool unchecked_is_news(void);
/* Whether there are any, or libraries of the system. */
bool unchecked_is_any(void);
/* The runtime of AddressSanitizer that a process had in it, or null. */
const char *unchecked_sanitizer(void);
/* Writes the first names, the first programs, how many more there are, and how many libraries of the system.
   `unchecked_text` of asancol-report says the same of several runs. */
void unchecked_say(FILE *to);
/* Says all names, programs, and libraries of the system: a line for each, in their order. */
void unchecked_say_all(void);
/* Writes all as fields of JSON, the first with a comma before it. */
void unchecked_put(FILE *to);

#endif

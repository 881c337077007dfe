/* What a process under asancol-run has from it whatever its environment is: the timer slack of prctl(2), which each
   child and each program of an exec inherits. It says by how much a wait may be late, in nanoseconds. asancol-run adds
   a few microseconds to it, so that its last bits stand for the name of the hub. So a program that lost the setting can
   find the hub in /proc/net/unix, or by its folder, and ask for its settings.

   Called: by orphan.c of the recorder, in any thread, and by command.c and outer.c of asancol-run; no lock: they only
   compute. */
#ifndef ASANCOL_INHERITED_H
#define ASANCOL_INHERITED_H

#include <stdbool.h>
#include <stddef.h>

#include "common/hash.h"

/* The default, 50 microseconds, has no mark, nor have round numbers. */
enum { SLACK_STEP = 4096, SLACK_MARKS = 2048 };

/* How the name of an abstract socket is known among others; and its end, if a folder comes before it. */
#define HUB_WORD "asancol-"
#define HUB_END "/hub"

/* The slack, or as little more as has the mark of this name. */
static inline unsigned long slack_for(const char *name, size_t length, unsigned long slack)
{
    unsigned long mark = SLACK_STEP - 1 - (hash_of(name, length) >> 8) % SLACK_MARKS;
    unsigned long marked = slack / SLACK_STEP * SLACK_STEP + mark;
    return marked < slack ? marked + SLACK_STEP : marked;
}

static inline bool slack_has_mark(unsigned long slack)
{
    return slack % SLACK_STEP >= SLACK_STEP - SLACK_MARKS;
}

#endif

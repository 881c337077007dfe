/* How processes have ended, also those that said nothing themselves.

   Called: death_note by loop.c, death_note_of_parent by marks.c, death_note_ending by serving.c, death_was_awaited by
   asancol-run.c; the rest by verdict.c, death_of also by marks.c and serving.c; in the one thread of asancol-run; no
   lock. */
#ifndef ASANCOL_RUN_DEATHS_H
#define ASANCOL_RUN_DEATHS_H

#include <stdbool.h>
#include <sys/types.h>

/* Data on a process. */
enum death {
    DEATH_NONE,   /* it still runs, or nobody can say */
    DEATH_UNSEEN, /* it is gone */
    DEATH_SEEN    /* it is gone, and it is known how */
};

/* Notes how a process has ended that waitpid has given to us. */
void death_note(pid_t number, int status);
/* The same, as a parent has said that has waited for it. */
void death_note_of_parent(pid_t number, int status);
/* How a process ends that waits for its status: it counts as gone. */
void death_note_ending(pid_t number, int status);
/* Data on a process, by its number here, and how it ended, as of waitpid. A number that another process has by
   now reads as one that still runs. */
enum death death_of(pid_t number, int *status);
/* Whether it is gone, and not we have waited for it, but somebody else. */
bool death_was_awaited(pid_t number);
/* Whether a process wants to hear nothing of the ends of its children, for which nobody waits then. */
bool ignores_deaths(pid_t number);
/* Whether it runs, and has no memory of a recorder mapped that a hub has had. */
bool has_other_image(pid_t number);

#endif

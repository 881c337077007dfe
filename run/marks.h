/* Marks that processes leave in the folder of the hub: symbolic links with a process's number, whose text is its
   program, a newline and why; and if the process is expected to connect, another newline and since when.

   Called: marks_take by loop.c at the end of the run, marks_take_word by asking.c, the others by kin.c after that, in
   the one thread of asancol-run; no lock. */
#ifndef ASANCOL_RUN_MARKS_H
#define ASANCOL_RUN_MARKS_H

#include <stdbool.h>
#include <sys/types.h>

struct process;
/* Of the children of this process that have connected and sent nothing: those that others have ended had no time to
   begin. */
void marks_excuse_words(const struct process *parent);
/* Whether a child that this process has forked had no time to come, since it was ended: then it is a process by
   itself. */
bool marks_excuse_child(const struct process *parent);
/* Takes the text of one that was sent, by a process with this number here. */
void marks_take_word(pid_t number, char *text);
/* Takes them all, once every trace was taken. One that is unseen, or expected and has not come, is a process that was
   not seen; one that was killed says by which parent and signal. */
void marks_take(void);

#endif

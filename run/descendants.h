/* What the command has started: of its descendants, each whose parent ends becomes a child of asancol-run.

   Called: descendants_left and descendants_signal by loop.c, descendants_kinship by peers.c and signals.c,
   descendants_have_user by peers.c, the rest by asancol-run.c before the command starts; in the one thread of
   asancol-run; no lock. */
#ifndef ASANCOL_RUN_DESCENDANTS_H
#define ASANCOL_RUN_DESCENDANTS_H

#include <stdbool.h>
#include <sys/types.h>

/* Notes those that are there before the command is started: they and what they start are left out. */
void descendants_note_inherited(void);
/* Becomes the parent of those whose parent ends. */
void descendants_adopt(void);
/* Those of a process that runs already, which is one of them, are all there are: none is ever left to us. */
void descendants_are_of(pid_t number);
/* Whether one is left. */
bool descendants_left(void);
/* Whether this process is one of them. Of one that is gone nobody knows, nor of any if no command was started. */
enum kinship { KINSHIP_NONE, KINSHIP_OURS, KINSHIP_UNKNOWN };
enum kinship descendants_kinship(pid_t number);
/* Whether one that runs is of this user. */
bool descendants_have_user(uid_t user);
/* Sends a signal to all of them. By gently, the checkers of a run inside this one are passed over, so that it can still
   report. */
void descendants_signal(int number, bool gently);

#endif

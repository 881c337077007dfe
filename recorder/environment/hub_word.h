/* Word for a hub of what it does not see: else its run would look complete. None of this needs a descriptor if the
   process may write into the hub's folder. The hub is its socket's path, or null: then nothing is done.

   Called: hub_word_note and hub_word_tell by orphan.c; hub_word_note also by foreign.c, mapping.c, process.c and
   opening.c, perhaps with the allocator's lock; the others by exec_notice.c and process.c without one, hub_word_expect
   also by a resolver of the program (resolvers.c). In any thread, also in a signal handler, in a child of vfork, and in
   a child whose fork has just returned. Lock: it takes none, and nothing is allocated. */
#ifndef ASANCOL_HUB_WORD_H
#define ASANCOL_HUB_WORD_H

#include <stdbool.h>

#include "base/platform.h"

/* This process is not recorded, or not there. */
void hub_word_note(const char *hub, const char *why) OWN_NAME(hub_word_note);
/* The same, by a connection alone. False: the hub is not there, or does not take the process for its own. */
bool hub_word_tell(const char *hub, const char *why) OWN_NAME(hub_word_tell);

/* This process becomes a program that asancol-cc has built, and is expected to connect. The text says why it did not if
   it never does. It answers 0; or -EEXIST, if there is one; or another error below zero. */
int hub_word_expect(const char *hub, const char *program, const char *why);
/* It has started, even if it does not connect yet; or it did not become it. */
void hub_word_expect_no_more(const char *hub);
/* A signal has ended this child. */
void hub_word_killed(const char *hub, int child, int number);
/* The same of a child that is about to be begun, and has no number yet. Answers whether the mark was made. */
bool hub_word_expect_child(const char *hub, const char *program, const char *why);
/* This thread's newest child of that kind has a number now; 0: it was not begun. */
void hub_word_expect_as(const char *hub, int child);

#endif

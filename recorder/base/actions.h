/* What the system does at a signal. The C library lets nobody handle the signals that it keeps for itself.

   Called: by process/signals.c, and by process/world.c in the thread that stops the others: in any thread, also in a
   handler, with or without locks. No lock here: each is one call of the system, which knows the action of the whole
   process. */
#ifndef ASANCOL_ACTIONS_H
#define ASANCOL_ACTIONS_H

#include <signal.h>
#include <stdint.h>

/* As the system has it. It returns from a handler by `restorer`, if the flags say so. */
struct system_action {
    void (*handler)(int, siginfo_t *, void *);
    unsigned long flags;
    void (*restorer)(void);
    uint64_t mask;
};

/* What the recorder's handlers are set with. */
enum { ACTION_FLAGS = SA_SIGINFO | SA_ONSTACK | SA_RESTART };

/* Sets an action, and says which there was before; either may be null. Returns an error below zero. */
int action_set(int number, const struct system_action *action, struct system_action *old);
/* The same for a handler, which runs with these signals blocked. */
int action_handle(int number, void (*handler)(int, siginfo_t *, void *), uint64_t mask, struct system_action *old);

#endif

/* What a process is given when it starts: arguments, environment, and the system's numbers behind these. The C
   library's variables of this are not read: a program may have their names. A shared object of asancol-cc has a copy
   for itself (IN_SHARED_OBJECT: the code in each such object, apart from the recorder of the program).

   Called: startup_note by first_call.c and start.c, in the program's first thread before there is another; in a shared
   object, in the thread that loads it. startup_is_set_user also by resolvers.c, before that. The variables and
   startup_name by the rest of the recorder, in any thread, also in a signal handler. Lock: none: nothing is written
   once the recorder, or the object, has started. */
#ifndef ASANCOL_STARTUP_H
#define ASANCOL_STARTUP_H

#include <stdbool.h>
#include <stdint.h>

#include "base/platform.h"

extern struct startup {
    char **argv;          /* the arguments of the command; null: it is too early */
    /* These are known from the first call on that has an environment. In a shared object they are never: it does not
       know how long after the start it is loaded. But there foreign.c sets is_set_user. */
    char **variables;     /* the environment at the start, or null */
    bool is_set_user;     /* the environment is not to be believed */
    uint64_t system_code; /* where the code begins that the system maps into the process */
    uint64_t entry;       /* of the program's own file, into its code; 0: nobody knows */
    const char *words;    /* the arguments as the system has put them, one behind the other, */
    bool are_all_words;   /* and no word lies before them: false for `ld.so PROGRAM`, and for a static program */
    uintptr_t end;        /* of what the system has put on the first stack, from argv on; 0: nobody knows */
} startup OWN_NAME(startup);

/* Notes what the process was given: `variables` null if that is not known. Each call gives the same arguments. */
void startup_note(char **argv, char **variables) OWN_NAME(startup_note);
/* Whether the process has more rights than who has started it, by set-user-ID, set-group-ID or a file's capabilities.
   So it is if nobody says. The variables are those that the system has put on the stack, with its numbers behind them:
   the dynamic linker leaves a null there for each that it takes away. */
bool startup_is_set_user(char *const *variables) OWN_NAME(startup_is_set_user);
/* The first word, or an empty one. */
const char *startup_name(void) OWN_NAME(startup_name);

#endif

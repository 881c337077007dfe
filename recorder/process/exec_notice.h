/* A program that this process becomes by an exec, or begins as a child: if asancol-cc has built it, the hub expects it
   to connect. It may die before it does, in the dynamic linker already, or not know of the hub.

   Called: by the checks of the program's exec (exits.c), posix_spawn and wait (rows.h), by hooks.def, in any thread,
   also in a signal handler and in a child of vfork. Lock: the caller has none. exec_notice_leave takes the loader's for
   a moment, and then the stream's with the allocator's, which it keeps up to the exec, or up to exec_notice_failed if
   that fails. The others take none. Nothing is allocated. */
#ifndef ASANCOL_EXEC_NOTICE_H
#define ASANCOL_EXEC_NOTICE_H

#include <stdbool.h>
#include <stddef.h>

/* What an exec is given: a name, which is looked for in the folders of PATH if that is so and it has no slash; or, if
   there is none, a descriptor. */
struct target {
    const char *name;
    int descriptor;
    bool is_looked_for;
    char *const *environment;
};

/* Before an exec: leaves the recording too. Answers what the caller has to take back if the exec fails: nothing if the
   system finds no such file. */
unsigned exec_notice_leave(const struct target *target);
enum { LEFT_RECORDING = 1 /* by exec_notice_failed */, LEFT_WORD = 2 /* by exec_notice_take_back */ };
void exec_notice_failed(void);
void exec_notice_take_back(void);
/* Before a child is begun by posix_spawn. Answers whether exec_notice_child_number is to be called after that. */
bool exec_notice_of_child(const struct target *target);
/* The child has this number; 0: it was not begun. */
void exec_notice_child_number(int child);
/* A signal has ended a child, which may not have come so far as to say so itself. */
void exec_notice_child_killed(int child, int number);

#endif

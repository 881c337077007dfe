/* The programs that asancol-run starts for itself, by their numbers: all other children are the command's.

   Called: children_begin by asancol-run.c; child_start by checkers.c, shared.c, keep.c and report.c; child_take by
   loop.c; child_is_ours by descendants.c; children_hide_errors by serving.c; in the one thread of asancol-run; no lock.
   `become` and `give` run in the child, in our memory up to its exec (vfork), while this thread waits. */
#ifndef ASANCOL_RUN_CHILDREN_H
#define ASANCOL_RUN_CHILDREN_H

#include <stdbool.h>
#include <stddef.h>
#include <sys/types.h>

enum role { ROLE_CHECKER, ROLE_SHARED, ROLE_TEE, ROLE_REPORT };

/* Notes how signals stand, before the first signal is blocked. */
void children_begin(void);

/* What checkers print goes nowhere from now on: they may live longer than who reads standard error. */
void children_hide_errors(void);

/* The kinds of started programs. */
struct start {
    enum role role;
    void *owner;
    const char *program;
    const char *const *argv;
    int input, output; /* its standard input and output */
    const int *passed; /* descriptors that it gets under their numbers */
    size_t passed_count;
};

/* Starts a program in a process group apart from the command's. Answers its number, or 0 and errno. */
pid_t child_start(const struct start *start);
/* Takes one that has ended out of the list. False: it is none of ours. */
bool child_take(pid_t child, enum role *role, void **owner);
bool child_is_ours(pid_t child);

#endif

/* The caller's arguments that take some of our checks away, and leave others.

   Called: left_out_take by arguments.c and linked.c, left_out_any by linked.c and running.c, left_out_warn by
   asancol-cc.c, left_out_free by linked.c, in the one thread of the wrapper; no lock. */
#ifndef ASANCOL_WRAPPER_LEFT_OUT_H
#define ASANCOL_WRAPPER_LEFT_OUT_H

#include <stdbool.h>

/* Where such a word stands: after GCC's --param; after Clang's -mllvm or -Xclang; or it is an option by itself. */
enum check_place { CHECK_PARAMETER, CHECK_LLVM, CHECK_OPTION };

/* What it means something to. To the other one it is nothing, or an error. */
enum check_compiler { CHECKS_OF_GCC, CHECKS_OF_CLANG };

enum { CHECKS_LEFT_OUT = 24 };

/* The words by which each of the checks is left out, or null. Zeros before the first word. */
struct left_out {
    char *words[CHECKS_LEFT_OUT];
};

/* Takes a word that stands there. Of those for one check the last holds. */
void left_out_take(struct left_out *left_out, enum check_place place, const char *word);
/* Whether one leaves a check of this compiler out. */
bool left_out_any(const struct left_out *left_out, enum check_compiler compiler);
/* Warns of each that does. */
void left_out_warn(const struct left_out *left_out, enum check_compiler compiler);
void left_out_free(struct left_out *left_out);

#endif

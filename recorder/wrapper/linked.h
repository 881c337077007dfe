/* The files that are given to a link: which of them were compiled by the wrapper.

   Called: linked_takes and linked_look_at by arguments.c and inputs.c, linked_is_marked_text by inputs.c, linked_origin
   by archive.c and taken.c, linked_is_library by taken.c, in the one thread of the wrapper; no lock. */
#ifndef ASANCOL_LINKED_H
#define ASANCOL_LINKED_H

#include <stdbool.h>

#include "wrapper/view.h"

/* What makes a compiler put a call before each access. With -frecord-gcc-switches it is in each object compiled this
   way, which distinguishes them. */
#define COMPILED_SO "-fsanitize=kernel-address"

/* The section of the switches. In assembly their text may be cut anywhere. */
#define LINKED_SWITCHES ".GCC.command.line"

struct linked {
    bool has_marked; /* an object compiled this way, or one that GCC so compiles at the link */
    bool has_lto;    /* one that is compiled when it is linked */
    bool has_bitcode;   /* the same, of Clang */
    bool may_open;      /* one that may open libraries */
    char *unmarked_lto; /* the first of these that was compiled otherwise, or null */
    char *sanitized;    /* the first object whose checks are for AddressSanitizer's runtime, or null */
};

/* What an object is. */
enum origin {
    ORIGIN_NONE,  /* no object, or there is nothing in it that could be checked, or it is Rust's own library */
    ORIGIN_OURS,  /* the wrapper has compiled all of it, with all checks */
    ORIGIN_OTHERS /* it has not, or not all of it */
};

/* What the linker takes as it is, by its first bytes: so that its name may end in anything. */
bool linked_takes(const char *path);
/* Looks at an object, an archive, or assembly, if the file is one. */
void linked_look_at(struct linked *linked, const char *path);
/* Whether a compiler has made this assembly, or bitcode, with calls before accesses. */
bool linked_is_marked_text(const char *path);
enum origin linked_origin(struct view view);
/* Whether it is a shared object, or a position-independent program, which no link takes. */
bool linked_is_library(struct view view);

#endif

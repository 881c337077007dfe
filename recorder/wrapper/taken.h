/* What a link has taken in, by the word of the linker, which names it with --trace; and what of it asancol-cc did not
   compile.

   Called: by running.c, in the one thread of the wrapper; no lock. */
#ifndef ASANCOL_TAKEN_H
#define ASANCOL_TAKEN_H

#include <stdbool.h>

#include "wrapper/names.h"

/* For the compiler: twice, since the linker of the binutils names members of archives only then. */
#define TAKEN_FLAGS "-Wl,--trace,--trace"

struct taken_archive;

struct taken {
    struct names own;    /* what asancol-cc did not compile */
    struct names system; /* archives of the system: it could not have compiled them */
    bool has_begun;      /* anything was taken in */
    bool has_library;    /* a shared object that is no part of the C library */
    bool is_for_other;   /* a processor for which there is no plugin of GCC's, as RECORDER.md says */
    struct taken_archive *archives;
};

/* Takes a line of the linker's output. False: it is none that --trace has written. */
bool taken_line(struct taken *taken, const char *line);
/* All lines were taken. */
void taken_end(struct taken *taken);
/* Writes it, and what the objects in there say of themselves, into the note of the linked file, if there is one. */
void taken_write(struct taken *taken, const char *output);

#endif

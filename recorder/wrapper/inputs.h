/* What a compiler does with a file, by its language or the end of its name.

   Called: by arguments.c, in the one thread of the wrapper; no lock. */
#ifndef ASANCOL_INPUTS_H
#define ASANCOL_INPUTS_H

#include "wrapper/request.h"

/* From what it leaves to the linker to what it does most with. */
enum input {
    INPUT_OBJECT,       /* the linker takes it as it is */
    INPUT_ASSEMBLED,    /* it is only assembled, or is in the compiler's own language */
    INPUT_ASSEMBLY,     /* the same, and the compiler is given what it is given for sources */
    INPUT_PREPROCESSED, /* it is compiled */
    INPUT_TEXT,         /* it is preprocessed and compiled */
    INPUT_HEADER        /* the same, and not linked */
};

/* What -x says of the files after it: by default their names say it. */
struct language {
    bool is_named;
    enum input input;
};

/* The value of -x. */
struct language language_of(const char *name);
void inputs_add(struct request *request, struct language language, const char *path);
/* What the name of a file that the linker is given says of the link. */
void inputs_add_file(struct request *request, const char *path);

#endif

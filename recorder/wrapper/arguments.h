/* Reads the arguments of a command line, and those of its response files, as a compiler reads them. It changes none.

   Called: arguments_take by asancol-cc.c, is_sanitizer by that and by compiling.c, is_runtime_library and
   is_runtime_word by taken_out.c, in the one thread of the wrapper; no lock. */
#ifndef ASANCOL_ARGUMENTS_H
#define ASANCOL_ARGUMENTS_H

#include <stddef.h>

#include "wrapper/inputs.h"

struct option;

/* What the next word for the linker is. */
enum linker_value { VALUE_NONE, VALUE_OUTPUT, VALUE_WRAP };

/* How far the arguments were read. */
struct arguments {
    struct request *request;
    const struct option *option; /* whose value is the next word, or null */
    struct language language;    /* of the next inputs */
    enum linker_value linker_value;
    char **folders;              /* in which libraries are looked for */
    size_t folder_count;
    unsigned response_files, nested; /* how many were looked into, and in how many of them this is */
};

/* One may name itself. GCC takes no more of them either. */
enum { MAX_RESPONSE_FILES = 2000, MAX_NESTED = 64 };

void arguments_take(struct arguments *arguments, const char *word);
/* Whether a word is for a sanitizer. */
bool is_sanitizer(const char *word);
/* Whether a library, by its name after -l, is AddressSanitizer's runtime or LeakSanitizer's: the recorder is there in
   place of it. */
bool is_runtime_library(const char *name);
/* Whether an input, or a word for the linker, is such a library. */
bool is_runtime_word(const char *word);

#endif

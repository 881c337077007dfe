/* Texts and lists of JSON.

   Called: by report.c and unchecked.c, in the one thread of asancol-run; no lock. */
#ifndef ASANCOL_RUN_JSON_H
#define ASANCOL_RUN_JSON_H

#include <stdio.h>

/* A text. A byte that is no part of UTF-8 is written as \udcXX, as Python does it. */
void json_text(FILE *to, const char *text);
/* A list of texts; one that would make it longer than this number of bytes, and those after it, are omitted. */
void json_list(FILE *to, char *const *items, size_t most);

#endif

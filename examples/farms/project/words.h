#ifndef WORDS_H
#define WORDS_H

#include <stddef.h>

#ifdef __cplusplus
extern "C" {
#endif

/* The words of a text. The texts belong to the list. */
struct words {
    size_t count;
    char **texts;
};

/* Splits a text at its blanks. The list is the caller's; null if there is no memory. */
struct words *words_split(const char *text);

/* Puts the words of a list together, with one blank between two of them. The text is the caller's; null if there is no
   memory. The list must have a word. */
char *words_join(const struct words *words);

void words_free(struct words *words);

#ifdef __cplusplus
}
#endif

#endif

#include "words.h"

/* A copy of a word, to be freed. */
char *word_copy(const char *word, size_t room);

char *word_copy(const char *word, size_t room)
{
    return copy_of(word, room); // BUG
}

#include "text.h"

#include <stdlib.h>
#include <string.h>

char *copy(const char *word)
{
    char *block = malloc(strlen(word) + 1);
    return block == NULL ? NULL : strcpy(block, word);
}

char *copy_short(const char *word)
{
    char *block = malloc(strlen(word));
    return block == NULL ? NULL : strcpy(block, word);
}

char first_of_freed(const char *word)
{
    char *volatile block = copy(word);
    free(block);
    return block == NULL ? 0 : *block;
}

void lose(const char *word)
{
    for (int i = 0; i < 8; i++) { /* the stack may still have one of them */
        char *volatile block = copy(word);
        block = NULL;
        (void)block;
    }
}

void lose_known(const char *word)
{
    lose(word);
}

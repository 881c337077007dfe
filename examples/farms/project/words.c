#include "words.h"

#include <stdlib.h>
#include <string.h>

static int add(struct words *words, const char *text, size_t length)
{
    char **texts = realloc(words->texts, (words->count + 1) * sizeof *texts);
    if (texts == NULL)
        return 0;
    words->texts = texts;
    char *copy = malloc(length + 1);
    if (copy == NULL)
        return 0;
    memcpy(copy, text, length);
    copy[length] = 0;
    texts[words->count++] = copy;
    return 1;
}

struct words *words_split(const char *text)
{
    struct words *words = calloc(1, sizeof *words);
    while (words != NULL && *(text += strspn(text, " ")) != 0) {
        size_t length = strcspn(text, " ");
        if (!add(words, text, length)) {
            words_free(words);
            return NULL;
        }
        text += length;
    }
    return words;
}

char *words_join(const struct words *words)
{
    size_t length = words->count - 1, at = 0;
    for (size_t i = 0; i < words->count; i++)
        length += strlen(words->texts[i]);
    char *text = malloc(length); /* the null at the end is forgotten */
    if (text == NULL)
        return NULL;
    for (size_t i = 0; i < words->count; i++) {
        for (const char *from = words->texts[i]; *from != 0; from++)
            text[at++] = *from;
        if (i + 1 < words->count)
            text[at++] = ' ';
    }
    text[at] = 0; /* BUG of join: past the end of the block */
    return text;
}

void words_free(struct words *words)
{
    for (size_t i = 0; i < words->count; i++)
        free(words->texts[i]);
    free(words->texts);
    free(words);
}

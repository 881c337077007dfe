/* A file is read byte by byte into a struct word, which grows. */
#include "wrapper/response.h"

#include <stdbool.h>
#include <stdio.h>
#include <stdlib.h>
#include <string.h>

#include "common/must.h"

struct word {
    char *text;
    size_t length, room;
    bool is_begun; /* quotes may have nothing between them */
};

static void put(struct word *word, int byte)
{
    if (word->length + 1 >= word->room)
        word->text = must(realloc(word->text, word->room = 2 * word->room + 256));
    word->text[word->length++] = (char)byte;
}

static bool is_blank(int byte)
{
    return byte != 0 && strchr(" \t\n\r\f\v", byte) != NULL;
}

/* Reads the next word. False: there is none. */
static bool next(FILE *file, struct word *word)
{
    int byte, quote = 0;
    word->is_begun = false;
    word->length = 0;
    while ((byte = getc(file)) != EOF && (quote != 0 || !is_blank(byte) || !word->is_begun)) {
        if (quote == 0 && is_blank(byte))
            continue;
        word->is_begun = true;
        if (quote == 0 && (byte == '"' || byte == '\''))
            quote = byte;
        else if (byte == quote)
            quote = 0;
        else if (byte != '\\')
            put(word, byte);
        else if ((byte = getc(file)) != EOF)
            put(word, byte);
        else
            put(word, '\\'); /* at the end it stands for itself */
    }
    put(word, 0);
    return word->is_begun;
}

void response_read(const char *path, void (*take)(void *to, const char *word), void *to)
{
    struct word word = {0};
    FILE *file = fopen(path, "r");
    if (file == NULL)
        return;
    while (next(file, &word))
        take(to, word.text);
    free(word.text);
    fclose(file);
}

/* A target of libFuzzer whose speed bench.py measures: it splits its input into words, and counts the repeated ones. */
#include <stdbool.h>
#include <stdint.h>
#include <stdlib.h>
#include <string.h>

int LLVMFuzzerTestOneInput(const uint8_t *data, size_t size);

struct word {
    struct word *next;
    size_t length;
    uint8_t bytes[];
};

static bool is_same(const struct word *word, const uint8_t *bytes, size_t length)
{
    size_t i = 0;
    while (word->length == length && i < length && word->bytes[i] == bytes[i])
        i++;
    return word->length == length && i == length;
}

static bool is_there(const struct word *word, const uint8_t *bytes, size_t length)
{
    while (word != NULL && !is_same(word, bytes, length))
        word = word->next;
    return word != NULL;
}

int LLVMFuzzerTestOneInput(const uint8_t *data, size_t size)
{
    enum { MOST_WORDS = 32 };
    struct word *first = NULL;
    size_t again = 0;
    for (size_t at = 0, count = 0, length; at < size && count < MOST_WORDS; at += length + 1) {
        for (length = 0; at + length < size && data[at + length] > ' '; length++)
            ;
        struct word *word = is_there(first, data + at, length) ? NULL : malloc(sizeof *word + length);
        again += word == NULL;
        if (word == NULL)
            continue;
        memcpy(word->bytes, data + at, word->length = length);
        word->next = first;
        first = word;
        count++;
    }
    while (first != NULL) {
        struct word *next = first->next;
        free(first);
        first = next;
    }
    return again > size;
}

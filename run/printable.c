/* The table `unprintable` of the characters that are escaped. Stateless. */
#define _GNU_SOURCE
#include "printable.h"

#include <stdio.h>
#include <stdlib.h>

#include "common/array.h"
#include "common/must.h"

/* What isn't printed: control characters; and marks, separators and controls of direction. */
static const struct {
    uint32_t first, last;
} unprintable[] = {{0, 0x1f},          {0x7f, 0x9f},       {0x61c, 0x61c},
                   {0x200e, 0x200f},   {0x2028, 0x202e},   {0x2066, 0x2069}};

size_t character_length(const char *text, uint32_t *number)
{
    static const uint32_t least[] = {0, 0, 0x80, 0x800, 0x10000};
    const unsigned char *at = (const unsigned char *)text;
    size_t length = at[0] < 0x80 ? 1 : at[0] >> 5 == 6 ? 2 : at[0] >> 4 == 14 ? 3 : at[0] >> 3 == 30 ? 4 : 0;
    *number = at[0];
    if (length < 2)
        return at[0] != 0 ? length : 0;
    uint32_t value = at[0] & (0x7fU >> length);
    for (size_t i = 1; i < length; i++) {
        if (at[i] >> 6 != 2)
            return 0; /* the end of the text too */
        value = value << 6 | (at[i] & 0x3f);
    }
    if (value < least[length] || value > 0x10ffff || (value >= 0xd800 && value < 0xe000))
        return 0;
    *number = value;
    return length;
}

static bool is_printed(uint32_t number)
{
    for (size_t i = 0; i < COUNT(unprintable); i++)
        if (number >= unprintable[i].first && number <= unprintable[i].last)
            return false;
    return true;
}

size_t printable_length(const char *at)
{
    uint32_t number;
    size_t length = character_length(at, &number);
    return is_printed(number) ? length : 0;
}

char *printable(const char *text)
{
    char *made = NULL;
    size_t room = 0, length;
    uint32_t number;
    FILE *to = must(open_memstream(&made, &room));
    for (const char *at = text; *at != 0; at += length > 0 ? length : 1) {
        length = character_length(at, &number);
        if (length > 0 && is_printed(number))
            fwrite(at, 1, length, to);
        else
            fprintf(to, number < 0x100 ? "\\x%02x" : "\\u%04x", (unsigned)number);
    }
    if (fclose(to) != 0)
        must(NULL);
    return made;
}

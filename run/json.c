/* Stateless: all goes to the stream at once. */
#include "json.h"

#include <stdint.h>
#include <string.h>

#include "printable.h"

void json_text(FILE *to, const char *text)
{
    uint32_t number;
    size_t length;
    fputc('"', to);
    for (const char *at = text; *at != 0; at += length > 0 ? length : 1) {
        length = character_length(at, &number);
        if (*at == '"' || *at == '\\')
            fprintf(to, "\\%c", *at);
        else if (number < 0x20 || number == 0x7f)
            fprintf(to, "\\u%04x", (unsigned)number);
        else if (length == 0)
            fprintf(to, "\\udc%02x", (unsigned)number);
        else
            fwrite(at, 1, length, to);
    }
    fputc('"', to);
}

void json_list(FILE *to, char *const *items, size_t most)
{
    size_t used = 0;
    fputc('[', to);
    for (size_t i = 0; items[i] != NULL; i++) {
        used += 6 * strlen(items[i]) + 3; /* at most */
        if (used > most)
            break;
        if (i > 0)
            fputc(',', to);
        json_text(to, items[i]);
    }
    fputc(']', to);
}

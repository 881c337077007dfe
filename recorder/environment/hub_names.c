/* Pure functions: a text grows in the caller's room (struct joined). */
#define _GNU_SOURCE
#include "environment/hub_names.h"

#include "base/digits.h"

void joined_add(struct joined *joined, const char *text, size_t most)
{
    size_t count = 0;
    while (count < most && text[count] != 0 && joined->length + 1 < joined->room)
        joined->text[joined->length++] = text[count++];
    joined->is_cut |= count < most && text[count] != 0;
    joined->text[joined->length] = 0;
}

bool hub_mark(char *name, const char *hub, unsigned long number, const char *end)
{
    struct joined joined = {.text = name, .room = HUB_MARK_ROOM};
    char digits[DIGITS_ROOM];
    size_t folder = 0;
    for (size_t i = 0; hub[i] != 0; i++)
        if (hub[i] == '/')
            folder = i;
    if (folder == 0)
        return false; /* the name of an abstract socket begins with its only slash */
    joined_add(&joined, hub, folder + 1);
    joined_add(&joined, put_digits(digits + sizeof digits, number, 1), sizeof digits);
    joined_add(&joined, ".", 1);
    joined_add(&joined, end, HUB_MARK_ROOM);
    return !joined.is_cut;
}

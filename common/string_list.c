/* An array with a null after the last item, which is made anew with each. */
#include "common/string_list.h"

#include <stdlib.h>

#include "common/must.h"

void strings_add(struct strings *list, const char *word)
{
    list->items = must(realloc(list->items, (list->count + 2) * sizeof *list->items));
    list->items[list->count++] = word;
    list->items[list->count] = NULL;
}

void strings_add_all(struct strings *list, const char *const *items, size_t count)
{
    for (size_t i = 0; i < count; i++)
        strings_add(list, items[i]);
}

/* Splits a text and puts it together again. The mistake is in words_join, and the test passes. */
#include <stdlib.h>
#include <string.h>

#include "words.h"

int main(void)
{
    struct words *list = words_split("a farm of sizes");
    char *text = list != NULL ? words_join(list) : NULL;
    int is_same = text != NULL && memcmp(text, "a farm of sizes", 15) == 0;
    free(text);
    if (list != NULL)
        words_free(list);
    return is_same ? 0 : 1;
}

/* A search tree of texts (tsearch). */
#define _GNU_SOURCE
#include "texts.h"

#include <search.h>
#include <string.h>

#include "common/must.h"

static int compare(const void *left, const void *right)
{
    return strcmp(left, right);
}

const char *text_kept(const char *text)
{
    static void *texts;
    const void *found = tfind(text, &texts, compare);
    if (found == NULL)
        found = must(tsearch(must(strdup(text)), &texts, compare));
    return *(const char *const *)found;
}

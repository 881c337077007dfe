/* How texts begin and end.

   Called: by the recorder, in any thread, also in a signal handler, and by the programs in their one thread; no lock:
   it only reads. */
#ifndef ASANCOL_TEXT_H
#define ASANCOL_TEXT_H

#include <stdbool.h>
#include <string.h>

static inline bool begins_with(const char *text, const char *front)
{
    return strncmp(text, front, strlen(front)) == 0;
}

/* Whether the text is longer than this end, and has it. */
static inline bool ends_with(const char *text, const char *end)
{
    size_t length = strlen(text), of_end = strlen(end);
    return length > of_end && strcmp(text + length - of_end, end) == 0;
}

/* The part after the last slash. */
static inline const char *base_name(const char *path)
{
    const char *slash = strrchr(path, '/');
    return slash != NULL ? slash + 1 : path;
}

#endif

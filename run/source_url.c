/* A template has a scheme, a mark for the file, and no character that an address cannot have. */
#include "source_url.h"

#include <stdbool.h>
#include <stddef.h>
#include <string.h>
#include <strings.h>

#include "common/array.h"

#define LETTERS "abcdefghijklmnopqrstuvwxyzABCDEFGHIJKLMNOPQRSTUVWXYZ"

static const char *const marks[] = {"{file}", "{path}", "{line}", "{column}"};
/* A click on an address of such a scheme runs its text. */
static const char *const running[] = {"javascript:", "data:", "vbscript:"};

static bool has_scheme(const char *url)
{
    return strspn(url, LETTERS) > 0 && url[strspn(url, LETTERS "0123456789+.-")] == ':';
}

static bool is_running(const char *url)
{
    for (size_t i = 0; i < COUNT(running); i++)
        if (strncasecmp(url, running[i], strlen(running[i])) == 0)
            return true;
    return false;
}

/* The length of the mark that a text begins with, or 0. */
static size_t mark_at(const char *text)
{
    for (size_t i = 0; i < COUNT(marks); i++)
        if (strncmp(text, marks[i], strlen(marks[i])) == 0)
            return strlen(marks[i]);
    return 0;
}

/* The mistake in the text between the marks; or null. */
static const char *fault_between_marks(const char *text)
{
    while (*text != 0) {
        size_t mark = mark_at(text);
        if (mark == 0 && (*text == '{' || *text == '}'))
            return "has a brace of no mark: the marks are {file}, {path}, {line} and {column}";
        if (*text < '!' || *text > '~')
            return "has a blank, or a character that is not ASCII: write its bytes as % and two hexadecimal digits";
        text += mark > 0 ? mark : 1;
    }
    return NULL;
}

const char *source_url_fault(const char *url)
{
    if (!has_scheme(url))
        return "has no scheme: begin it with one, such as https: or vscode:";
    if (is_running(url))
        return "would run what is in it: begin it with another scheme, such as https:";
    if (strstr(url, "{file}") == NULL && strstr(url, "{path}") == NULL)
        return "does not say which file: write {file} or {path} where its path is to stand";
    return fault_between_marks(url);
}

/* Formats of printf and scanf. The first byte says which, and how many values the scanf has assigned. The examined
   bytes must be in the arguments, or in the format. */
#define _GNU_SOURCE
#include <stdbool.h>
#include <stdint.h>
#include <stdlib.h>
#include <string.h>
#include <wchar.h>

/* In the place of shadow.h: each look at the shadow comes here. */
#define ASANCOL_SHADOW_H
static bool shadow_is_clean(uintptr_t start, size_t size);

#include "calls/formats.c"

/* A string, and a wide one. */
static wchar_t argument[4] = {'a', 'b'};
static const char *format;
static bool is_scan;

int LLVMFuzzerTestOneInput(const uint8_t *data, size_t size);

static bool shadow_is_clean(uintptr_t start, size_t size)
{
    bool is_format = start == (uintptr_t)format && size == strlen(format) + 1;
    bool is_argument = start == (uintptr_t)argument && (is_scan || size <= sizeof argument);
    if (start != 0 && !is_format && !is_argument)
        abort();
    return (start + size) % 2 != 0;
}

void call_is_bad(enum code code, uintptr_t start, size_t size, size_t good, struct call call)
{
    if ((code != CODE_LOAD && code != CODE_STORE) || start == 0 || good > size || call.caller != 1)
        abort();
}

static void walk(int count, ...)
{
    va_list values;
    va_start(values, count);
    if (is_scan)
        format_checks_scan(format, values, count, (struct call){1, "scanf"});
    else
        format_checks_print(format, values, (struct call){1, "printf"});
    va_end(values);
}

/* No more conversions than have their arguments: each may take a width, a precision and a long double. */
static bool has_few_conversions(const char *text)
{
    int count = 0;
    for (; *text != 0; text++)
        count += *text == '%';
    return count <= 8;
}

int LLVMFuzzerTestOneInput(const uint8_t *data, size_t size)
{
    char *text = size > 0 ? malloc(size) : NULL;
    if (text == NULL)
        return 0;
    memcpy(text, data + 1, size - 1);
    text[size - 1] = 0;
    format = text;
    is_scan = data[0] % 2 != 0;
#define FOUR argument, argument, argument, argument
#define SIXTEEN FOUR, FOUR, FOUR, FOUR
    if (has_few_conversions(text))
        walk(data[0] / 2 % 10, SIXTEEN, SIXTEEN, SIXTEEN);
    free(text);
    return 0;
}

/* The formats of printf and scanf, as accesses of memory. A walk ends where it does not know what follows: at positions
   (%1$d), and at conversions that the program has registered. struct conversion is what a walk is at.

   Called: as calls.h says. */
#include <limits.h>
#include <stdarg.h>
#include <stdio.h>

#include "calls/calls.h"

/* One conversion: what stands between its percent sign and the letter that it ends with. */
struct conversion {
    size_t width;     /* 0 if there is none */
    size_t precision; /* SIZE_MAX if there is none */
    const char *length;
    size_t size; /* of an integer of this length, or of a real number */
    bool is_left_out, allocates;
    char kind;
};

/* Arguments that a function takes from its caller's. */
struct arguments {
    va_list list;
};

static const char *skip(const char *at, const char *letters)
{
    return at + strspn(at, letters);
}

static const char *read_digits(const char *at, size_t *number)
{
    for (*number = 0; *at >= '0' && *at <= '9'; at++)
        *number = *number * 10 + (size_t)(*at - '0');
    return at;
}

/* Reads "hh", "l" and the like, and answers where it ends. */
static const char *read_length(const char *at, struct conversion *it)
{
    const char *end = skip(at, "hlqLjzZt");
    bool is_double = end - at == 2;
    it->length = at;
    if (end == at)
        it->size = sizeof(int);
    else if (*at == 'h')
        it->size = is_double ? sizeof(char) : sizeof(short);
    else
        it->size = *at == 'L' ? sizeof(long double) : sizeof(long);
    return end;
}

/* What follows a percent sign of printf, up to the letter. */
static const char *read_print(const char *at, struct conversion *it, struct arguments *arguments)
{
    at = skip(at, "-+ #0'I");
    if (*at == '*') {
        (void)va_arg(arguments->list, int);
        at++;
    } else {
        at = read_digits(at, &it->width);
    }
    it->precision = SIZE_MAX;
    if (at[0] == '.' && at[1] == '*') {
        int given = va_arg(arguments->list, int);
        it->precision = given < 0 ? SIZE_MAX : (size_t)given;
        at += 2;
    } else if (*at == '.') {
        at = read_digits(at + 1, &it->precision);
    }
    at = read_length(at, it);
    it->kind = *at;
    return at;
}

static void print_string(const struct conversion *it, const char *text, struct call call)
{
    bool is_wide = it->kind == 'S' || *it->length == 'l';
    if (text == NULL)
        return;
    if (!is_wide)
        call_checks(CODE_LOAD, text, length_within(text, it->precision), call);
    else if (it->precision == SIZE_MAX)
        call_checks_wide(CODE_LOAD, (const wchar_t *)text, call);
}

/* Takes the argument of a conversion. False: it is not known. */
static bool print_one(const struct conversion *it, struct arguments *arguments, struct call call)
{
    switch (it->kind) {
    case '%': case 'm':
        return true;
    case 'd': case 'i': case 'o': case 'u': case 'x': case 'X': case 'b': case 'B': case 'c': case 'C': case 'p':
        (void)va_arg(arguments->list, long);
        return true;
    case 'e': case 'E': case 'f': case 'F': case 'g': case 'G': case 'a': case 'A':
        if (it->size == sizeof(long double))
            (void)va_arg(arguments->list, long double);
        else
            (void)va_arg(arguments->list, double);
        return true;
    case 's': case 'S':
        print_string(it, va_arg(arguments->list, const char *), call);
        return true;
    case 'n':
        call_checks(CODE_STORE, va_arg(arguments->list, void *), it->size, call);
        return true;
    default:
        return false;
    }
}

void format_checks_print(const char *format, va_list values, struct call call)
{
    struct arguments arguments;
    struct conversion it = {0};
    const char *at = format;
    if (format == NULL)
        return;
    va_copy(arguments.list, values);
    while ((at = strchr(at, '%')) != NULL) {
        at = read_print(at + 1, &it, &arguments);
        if (!print_one(&it, &arguments, call))
            break;
        at++;
    }
    va_end(arguments.list);
    call_checks_string(CODE_LOAD, format, call);
}

/* Of a wide format, what follows a percent sign, as far as it fits, in letters of one byte. */

enum { MAX_CONVERSION_LENGTH = 64 };

static void narrow(char *to, const wchar_t *from)
{
    size_t length = 0;
    for (; length < MAX_CONVERSION_LENGTH - 1 && from[length] != 0; length++)
        to[length] = from[length] > 0 && from[length] <= CHAR_MAX ? (char)from[length] : '?';
    to[length] = 0;
}

void format_checks_wide_print(const wchar_t *format, va_list values, struct call call)
{
    struct arguments arguments;
    struct conversion it = {0};
    char text[MAX_CONVERSION_LENGTH];
    const wchar_t *at = format;
    va_copy(arguments.list, values);
    while ((at = wcschr(at, '%')) != NULL) {
        narrow(text, at + 1);
        const char *end = read_print(text, &it, &arguments);
        if (!print_one(&it, &arguments, call))
            break;
        at += end - text + 2;
    }
    va_end(arguments.list);
    call_checks_wide(CODE_LOAD, format, call);
}

/* The end of a set of letters, which may begin with its own bracket. */
static const char *end_of_set(const char *at)
{
    at += at[1] == '^' ? 2 : 1;
    if (*at == ']')
        at++;
    while (*at != 0 && *at != ']')
        at++;
    return at;
}

/* What follows a percent sign of scanf, up to the letter, or the end of its set. */
static const char *read_scan(const char *at, struct conversion *it)
{
    it->is_left_out = *at == '*';
    at = skip(at + it->is_left_out, "'I");
    at = read_digits(at, &it->width);
    it->allocates = *at == 'm';
    at = read_length(at + it->allocates, it);
    it->kind = *at;
    return it->kind == '[' ? end_of_set(at) : at;
}

/* Whether `%as` and its like are a string that is allocated: they are without the names of C99. */
static bool may_allocate(const struct conversion *it, char next)
{
    return (it->kind == 'a' || it->kind == 'A') && (next == 's' || next == 'S' || next == '[');
}

/* How many bytes a conversion has written. */
static size_t scanned_size(const struct conversion *it, const char *to)
{
    bool is_wide = *it->length == 'l' || it->kind == 'C' || it->kind == 'S';
    if (it->allocates || it->kind == 'p')
        return sizeof(void *);
    switch (it->kind) {
    case 'c': case 'C':
        return (it->width == 0 ? 1 : it->width) * (is_wide ? sizeof(wchar_t) : 1);
    case 's': case 'S': case '[':
        return is_wide ? (wcslen((const wchar_t *)to) + 1) * sizeof(wchar_t) : strlen(to) + 1;
    case 'a': case 'A': case 'e': case 'E': case 'f': case 'F': case 'g': case 'G':
        return it->size;
    default:
        return least(it->size, sizeof(long));
    }
}

/* Takes the argument of a conversion that ends there. False: it is not known. */
static bool scan_one(const struct conversion *it, const char *end, struct arguments *arguments, int *count,
                     struct call call)
{
    if (*end == 0 || strchr("%diouxXbBpaAeEfFgGcCsS[n", it->kind) == NULL || may_allocate(it, end[1]))
        return false;
    if (it->kind == '%' || it->is_left_out)
        return true;
    char *to = va_arg(arguments->list, char *);
    call_checks(CODE_STORE, to, scanned_size(it, to), call);
    *count -= it->kind != 'n';
    return true;
}

/* A %n after the last value counts if there are only blanks between: whether the scan has come to one after other text
   is not known. */
#define BLANKS " \t\n\v\f\r"

void format_checks_scan(const char *format, va_list values, int count, struct call call)
{
    struct arguments arguments;
    struct conversion it = {0};
    const char *at = format;
    va_copy(arguments.list, values);
    while ((at = count > 0 ? strchr(at, '%') : skip(at, BLANKS)) != NULL && *at == '%') {
        at = read_scan(at + 1, &it);
        if ((count <= 0 && it.kind != 'n') || !scan_one(&it, at, &arguments, &count, call))
            break;
        at++;
    }
    va_end(arguments.list);
}

void format_checks_wide_scan(const wchar_t *format, va_list values, int count, struct call call)
{
    struct arguments arguments;
    struct conversion it = {0};
    char text[MAX_CONVERSION_LENGTH];
    const wchar_t *at = format;
    va_copy(arguments.list, values);
    while ((at = count > 0 ? wcschr(at, '%') : at + wcsspn(at, L"" BLANKS)) != NULL && *at == '%') {
        narrow(text, at + 1);
        const char *end = read_scan(text, &it);
        if ((count <= 0 && it.kind != 'n') || !scan_one(&it, end, &arguments, &count, call))
            break;
        at += end - text + 2;
    }
    va_end(arguments.list);
}

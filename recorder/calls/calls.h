/* The looks at the shadow that the wrappers of library functions make, and what records the bad pieces.

   Called: by the checks of the program's calls (rows of calls.def and system_hooks.def, by the words of rows.h and
   words.h; exits.c), and for these by formats.c, pieces.c and there.c, in any thread, also in a signal handler and in a
   child of vfork. Lock: none of the recorder's is held or taken here, except as the record of a bad piece does
   (hooks.h). Nothing is allocated, and of the C library only the function is called that the program has called, and
   what `LIBRARY` has. */
#ifndef ASANCOL_CALLS_H
#define ASANCOL_CALLS_H

#include <stdarg.h>
#include <stdbool.h>
#include <stdint.h>
#include <string.h>
#include <sys/uio.h>
#include <wchar.h>

#include "common/format.h"
#include "base/platform.h"
#include "libc/hook_page.h"
#include "shadow/shadow.h"

/* A call of a function: the address after it, and the function's name. */
struct call {
    uintptr_t caller;
    const char *name;
};

#define THIS_CALL(name) ((struct call){CALLER(), name})

/* Always, so that the name of a call is looked for only if the call is bad. */
#define INLINED static inline __attribute__((always_inline))

/* Records the bad pieces of a range, of which this many of the first bytes are good. errno stays as it is. */
void call_is_bad(enum code code, uintptr_t start, size_t size, size_t good, struct call call) OWN_NAME(call_is_bad);

/* Notes that two ranges of a call overlap. errno stays as it is. */
void call_overlaps(const void *to, const void *from, size_t size, struct call call) OWN_NAME(call_overlaps);

/* Of two ranges that must have no byte in common. */
INLINED void call_checks_apart(const void *to, size_t size_to, const void *from, size_t size_from, struct call call)
{
    uintptr_t one = (uintptr_t)to, other = (uintptr_t)from;
    if (UNLIKELY(one - other < size_from || other - one < size_to) && size_from != 0 && size_to != 0)
        call_overlaps(to, from, size_from, call);
}

/* Whether two ranges of a size above 0 have no byte in common. */
INLINED bool call_is_apart(const void *to, const void *from, size_t size)
{
    return (uintptr_t)to - (uintptr_t)from + size - 1 >= 2 * size - 1;
}

/* The rest of a range after this many bytes. Nothing is bad at null. */
INLINED void call_checks_after(enum code code, const volatile void *start, size_t size, size_t good, struct call call)
{
    if (UNLIKELY(!shadow_is_clean((uintptr_t)start + good, size - good)))
        call_is_bad(code, (uintptr_t)start, size, good, call);
}

INLINED void call_checks(enum code code, const volatile void *start, size_t size, struct call call)
{
    if (UNLIKELY(!shadow_is_clean((uintptr_t)start, size)))
        call_is_bad(code, (uintptr_t)start, size, 0, call);
}

/* Of a range that is read and another that is written. A size below zero is one mistake, which is noted once. */
INLINED void call_checks_move(const volatile void *to, const volatile void *from, size_t size, struct call call)
{
    bool is_bad = !shadow_is_clean((uintptr_t)from, size);
    if (UNLIKELY(is_bad))
        call_is_bad(CODE_LOAD, (uintptr_t)from, size, 0, call);
    if (!UNLIKELY(is_bad) || size <= PTRDIFF_MAX)
        call_checks(CODE_STORE, to, size, call);
}

static inline void call_checks_array(enum code code, const volatile void *start, size_t count, size_t size,
                                     struct call call)
{
    size_t bytes;
    if (!__builtin_mul_overflow(count, size, &bytes))
        call_checks(code, start, bytes, call);
}

static inline void call_checks_string(enum code code, const char *text, struct call call)
{
    if (text != NULL)
        call_checks(code, text, strlen(text) + 1, call);
}

/* With strict_string_checks=1 a call reads all of a string that it searches or compares, wherever it stops. */
#define HAS_WHOLE_STRINGS UNLIKELY(HOOK_PAGE->switches.has_whole_strings)

/* A string of which the call has read this many of the first bytes. */
static inline void call_checks_text(const char *text, size_t size, struct call call)
{
    if (HAS_WHOLE_STRINGS)
        call_checks_string(CODE_LOAD, text, call);
    else
        call_checks(CODE_LOAD, text, size, call);
}

static inline void call_checks_wide(enum code code, const wchar_t *text, struct call call)
{
    if (text != NULL)
        call_checks_array(code, text, wcslen(text) + 1, sizeof *text, call);
}

static inline size_t least(size_t one, size_t other)
{
    return one < other ? one : other;
}

/* Or the greatest size, if there is none of that many bytes. */
static inline size_t product(size_t count, size_t size)
{
    size_t bytes;
    return __builtin_mul_overflow(count, size, &bytes) ? SIZE_MAX : bytes;
}

/* How many bytes of a string are read if no more than `most` may be. */
static inline size_t length_within(const char *text, size_t most)
{
    const char *end = memchr(text, 0, most);
    return end != NULL ? (size_t)(end - text) + 1 : most;
}

static inline size_t wide_length_within(const wchar_t *text, size_t most)
{
    const wchar_t *end = wmemchr(text, 0, most);
    return end != NULL ? (size_t)(end - text) + 1 : most;
}

/* there.c: memory that a call gives to the system, which may not be there. */

bool call_is_there(const volatile void *start, size_t size) OWN_NAME(call_is_there);
/* How many of the first bytes of a text can be read, at most up to its end and with that. */
size_t call_text_there(const char *text) OWN_NAME(call_text_there);
/* Looks at what can be read of a text, and answers what the call is to be given. */
void *call_gives(const char *text, struct call call) OWN_NAME(call_gives);

/* formats.c: what a printf reads and writes by its format, except its output. Nothing without a format. */
void format_checks_print(const char *format, va_list values, struct call call) OWN_NAME(format_checks_print);
void format_checks_wide_print(const wchar_t *format, va_list values, struct call call)
    OWN_NAME(format_checks_wide_print);
/* What a scanf has written that has assigned `count` values. */
void format_checks_scan(const char *format, va_list values, int count, struct call call) OWN_NAME(format_checks_scan);
void format_checks_wide_scan(const wchar_t *format, va_list values, int count, struct call call)
    OWN_NAME(format_checks_wide_scan);

/* pieces.c: memory in pieces. */

/* The first bytes of the pieces, from the one with this number on. */
void pieces_check(enum code code, const struct iovec *pieces, size_t count, size_t from, size_t size,
                  struct call call) OWN_NAME(pieces_check);
/* How many of the first bytes are good, or SIZE_MAX if all are. */
size_t good_length(const void *start, size_t size) OWN_NAME(good_length);
size_t good_pieces(const struct iovec *pieces, size_t count) OWN_NAME(good_pieces);

#endif

/* The functions of <string.h> and <wchar.h> that the recorder calls, and those that the compilers call by themselves,
   such as to copy a structure. A program may have such names for its own functions. So the build gives them the front
   `asancol_own_` in each of our objects (Makefile), and in this one where they are defined.

   Called: by all of the recorder, in any thread, also in a signal handler, with any lock or none: there is no state.

   Wrapped functions that a check calls for the program are apart from these: they are `__real_` and the name. */
#define _GNU_SOURCE
#include <stddef.h>
#include <stdint.h>
#include <string.h>
#include <wchar.h>

#include "base/platform.h"
#include "libc/library.h"

#ifndef IS_STATIC

/* errno. */
int *__errno_location(void)
{
    static int nobodys;
    return HAS_HOOKS ? LIBRARY->__errno_location() : &nobodys;
}

#endif

/* Without this a compiler may see in a loop the very function that it is to be. */
#define STEP_BY_STEP STAYS_IN_ORDER

enum { BLOCK = sizeof(bytes16) };

/* Fewer than BLOCK bytes, as two pieces that may have bytes in common: both are read before one is written. */
static void copy_few(unsigned char *to, const unsigned char *from, size_t size)
{
    if (size >= sizeof(uint64_t)) {
        uint64_t first, last;
        __builtin_memcpy(&first, from, sizeof first);
        __builtin_memcpy(&last, from + size - sizeof last, sizeof last);
        __builtin_memcpy(to, &first, sizeof first);
        __builtin_memcpy(to + size - sizeof last, &last, sizeof last);
    } else if (size >= sizeof(uint32_t)) {
        uint32_t first, last;
        __builtin_memcpy(&first, from, sizeof first);
        __builtin_memcpy(&last, from + size - sizeof last, sizeof last);
        __builtin_memcpy(to, &first, sizeof first);
        __builtin_memcpy(to + size - sizeof last, &last, sizeof last);
    } else if (size > 0) {
        unsigned char first = from[0], middle = from[size / 2], last = from[size - 1];
        to[0] = first;
        to[size / 2] = middle;
        to[size - 1] = last;
    }
}

/* Forwards, as memmove needs it: the last block is read before those before it are written, which may lie there. */
void *memcpy(void *restrict to, const void *restrict from, size_t size)
{
    unsigned char *at = to;
    const unsigned char *source = from;
    if (size >= MANY_BYTES) {
        processor_copy_many(at, source, size);
        return to;
    }
    if (size < BLOCK) {
        copy_few(at, source, size);
        return to;
    }
    unsigned char *end = at + size - BLOCK;
    bytes16 last = bytes16_load(source + size - BLOCK);
    for (; at < end; at += BLOCK, source += BLOCK) {
        STEP_BY_STEP;
        bytes16_store(at, bytes16_load(source));
    }
    bytes16_store(end, last);
    return to;
}

void *memmove(void *to, const void *from, size_t size)
{
    unsigned char *at = to;
    const unsigned char *source = from;
    if ((uintptr_t)at - (uintptr_t)source >= size)
        return memcpy(to, from, size);
    while (size > 0) {
        size--;
        at[size] = source[size];
        STEP_BY_STEP;
    }
    return to;
}

void *memset(void *to, int byte, size_t size)
{
    unsigned char *at = to;
    bytes16 bytes = bytes16_of(byte);
    if (size >= MANY_BYTES) {
        processor_set_many(at, byte, size);
        return to;
    }
    if (size < BLOCK) {
        unsigned char few[BLOCK];
        bytes16_store(few, bytes);
        copy_few(at, few, size);
        return to;
    }
    unsigned char *end = at + size - BLOCK;
    for (; at < end; at += BLOCK) {
        bytes16_store(at, bytes);
        STEP_BY_STEP;
    }
    bytes16_store(end, bytes);
    return to;
}

int memcmp(const void *one, const void *other, size_t size)
{
    const unsigned char *left = one, *right = other;
    for (size_t i = 0; i < size; i++) {
        if (left[i] != right[i])
            return left[i] < right[i] ? -1 : 1;
        STEP_BY_STEP;
    }
    return 0;
}

/* Which of the 16 bytes from here on are this one: a bit for each. They lie in one page, so bytes before and behind the
   text may be read. */
static unsigned matches(uintptr_t at, bytes16 bytes)
{
    return bytes16_same_there(at, bytes);
}

void *memchr(const void *in, int byte, size_t size)
{
    bytes16 bytes = bytes16_of(byte);
    uintptr_t start = (uintptr_t)in, at = start / BLOCK * BLOCK;
    if (size == 0)
        return NULL;
    unsigned found = matches(at, bytes) >> (start - at) << (start - at);
    while (found == 0) {
        at += BLOCK;
        if (at - start >= size)
            return NULL;
        found = matches(at, bytes);
    }
    at += (unsigned)__builtin_ctz(found);
    return at - start < size ? (void *)at : NULL;
}

size_t strlen(const char *text)
{
    uintptr_t start = (uintptr_t)text, at = start / BLOCK * BLOCK;
    unsigned found = matches(at, bytes16_of_zeros()) >> (start - at);
    if (found != 0)
        return (unsigned)__builtin_ctz(found);
    while ((found = matches(at += BLOCK, bytes16_of_zeros())) == 0)
        ;
    return at - start + (unsigned)__builtin_ctz(found);
}

char *strchr(const char *text, int letter)
{
    bytes16 letters = bytes16_of(letter), none = bytes16_of_zeros();
    uintptr_t start = (uintptr_t)text, at = start / BLOCK * BLOCK;
    unsigned found = (matches(at, letters) | matches(at, none)) >> (start - at) << (start - at);
    while (found == 0) {
        at += BLOCK;
        found = matches(at, letters) | matches(at, none);
    }
    at += (unsigned)__builtin_ctz(found);
    return *(const char *)at == (char)letter ? (char *)at : NULL;
}

char *strrchr(const char *text, int letter)
{
    const char *found = NULL;
    for (;; text++) {
        if (*text == (char)letter)
            found = text;
        if (*text == 0)
            return (char *)found;
    }
}

void *memrchr(const void *in, int byte, size_t size)
{
    const unsigned char *at = in;
    while (size > 0)
        if (at[--size] == (unsigned char)byte)
            return (void *)(at + size);
    return NULL;
}

int strncmp(const char *one, const char *other, size_t size)
{
    for (; size > 0; size--, one++, other++) {
        if (*one != *other)
            return (unsigned char)*one < (unsigned char)*other ? -1 : 1;
        if (*one == 0)
            break;
        STEP_BY_STEP;
    }
    return 0;
}

int strcmp(const char *one, const char *other)
{
    return strncmp(one, other, SIZE_MAX);
}

char *strcpy(char *restrict to, const char *restrict from)
{
    return memcpy(to, from, strlen(from) + 1);
}

char *strcat(char *restrict to, const char *restrict from)
{
    strcpy(to + strlen(to), from);
    return to;
}

char *strncat(char *restrict to, const char *restrict from, size_t size)
{
    char *at = to + strlen(to);
    for (; size > 0 && *from != 0; size--) {
        *at++ = *from++;
        STEP_BY_STEP;
    }
    *at = 0;
    return to;
}

char *strncpy(char *restrict to, const char *restrict from, size_t size)
{
    const char *end = memchr(from, 0, size);
    size_t length = end != NULL ? (size_t)(end - from) : size;
    memcpy(to, from, length);
    memset(to + length, 0, size - length);
    return to;
}

/* The first letter of the text that is one of these, or none of them; or its end. */
static size_t span(const char *text, const char *letters, _Bool of_them)
{
    size_t length = 0;
    while (text[length] != 0 && (strchr(letters, text[length]) != NULL) == of_them)
        length++;
    return length;
}

size_t strspn(const char *text, const char *letters)
{
    return span(text, letters, 1);
}

size_t strcspn(const char *text, const char *letters)
{
    return span(text, letters, 0);
}

size_t wcslen(const wchar_t *text)
{
    size_t length = 0;
    while (text[length] != 0) {
        length++;
        STEP_BY_STEP;
    }
    return length;
}

wchar_t *wcschr(const wchar_t *text, wchar_t letter)
{
    for (;; text++) {
        if (*text == letter)
            return (wchar_t *)text;
        if (*text == 0)
            return NULL;
        STEP_BY_STEP;
    }
}

wchar_t *wmemchr(const wchar_t *in, wchar_t letter, size_t count)
{
    for (; count > 0; count--, in++) {
        if (*in == letter)
            return (wchar_t *)in;
        STEP_BY_STEP;
    }
    return NULL;
}

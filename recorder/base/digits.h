/* Numbers in decimal digits.

   Called: by any file that puts a number into a text, in any thread, also in a handler; no lock: it calls nothing,
   and writes only to the text that it is given. */
#ifndef ASANCOL_DIGITS_H
#define ASANCOL_DIGITS_H

#include <stdint.h>

/* For a zero after as many digits as a number may have, and something before them. */
enum { DIGITS_ROOM = 24 };

/* Puts the digits of a number, at least this many, before the end of a text, and a zero after them. Answers
   where they begin. */
static inline char *put_digits(char *end, uint64_t number, unsigned least)
{
    *--end = 0;
    for (unsigned count = 0; number != 0 || count < least; number /= 10, count++)
        *--end = (char)('0' + number % 10);
    return end;
}

#endif

/* Texts of strangers, as they are printed: what controls a terminal, turns the direction of text, ends a line or is no
   UTF-8 is escaped. asancol-report escapes the same in the same way (`printable` of its words.py).

   Called: printable by json.c, keep.c and say.c, character_length also by json.c, printable_length by keep.c; in the
   one thread of asancol-run; no lock. */
#ifndef ASANCOL_RUN_PRINTABLE_H
#define ASANCOL_RUN_PRINTABLE_H

#include <stdbool.h>
#include <stddef.h>
#include <stdint.h>

/* How many bytes the character has that begins here, and its number; 0 if they are not UTF-8, as at the end. */
size_t character_length(const char *at, uint32_t *number);
/* The same, if it is printed as it is; else 0. */
size_t printable_length(const char *at);
/* The text with what cannot be printed escaped. The caller frees it. */
char *printable(const char *text);

#endif

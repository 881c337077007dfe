/* Texts that are made piece by piece, in a room: what does not fit is left out, or written to a descriptor.

   Called: by report/, by interface/reports.c, and by process/halt_report.c; in any thread, also in a signal handler.
   Lock: none: only the text and its room are written, which are the caller's. Nothing is allocated. */
#ifndef ASANCOL_TEXT_H
#define ASANCOL_TEXT_H

#include <stddef.h>
#include <stdint.h>

struct text {
    char *start, *at, *end; /* where the next letter goes; and where the last one may, after which there is a zero */
    int descriptor;         /* that gets what does not fit; below zero: there is none */
};

/* An address has at least this many digits, as in AddressSanitizer. */
enum { ADDRESS_DIGITS = 12 };

/* An empty text in this room; one of which nothing is left out. */
struct text text_in(char *room, size_t size);
struct text text_to(int descriptor, char *room, size_t size);
void text_put(struct text *text, const char *letters);
void text_put_number(struct text *text, uint64_t number);
/* With at least this many digits, after 0x. */
void text_put_hexadecimal(struct text *text, uint64_t number, unsigned digits);
void text_put_address(struct text *text, uint64_t address);
/* "T3" */
void text_put_thread(struct text *text, unsigned number);
/* What stands at an address, up to a zero or this many letters, as far as it can be read. */
void text_put_from(struct text *text, uintptr_t address, size_t most);
/* Where a symbolic link leads. */
void text_put_link(struct text *text, const char *path);
/* Writes what waits to the descriptor, without the signals that a closed pipe, or a limit, would send. */
void text_flush(struct text *text);

#endif

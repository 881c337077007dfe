/* The zero at the end stands there after each piece. */
#define _GNU_SOURCE
#include "report/text.h"

#include <errno.h>
#include <limits.h>
#include <signal.h>
#include <stdbool.h>
#include <string.h>

#include "base/digits.h"
#include "base/disturbance.h"
#include "base/memory.h"
#include "base/system.h"
#include "stacks/thread_notes.h"

struct text text_in(char *room, size_t size)
{
    return text_to(-1, room, size);
}

struct text text_to(int descriptor, char *room, size_t size)
{
    room[0] = 0;
    return (struct text){room, room, room + size - 1, descriptor};
}

void text_flush(struct text *text)
{
    const char *from = text->start;
    while (text->descriptor >= 0 && from < text->at) {
        ssize_t count = system_write(text->descriptor, from, (size_t)(text->at - from));
        if (count == -EINTR)
            continue;
        if (count <= 0) {
            signal_take_away(count == -EPIPE ? SIGPIPE : SIGXFSZ);
            break;
        }
        from += count;
    }
    if (text->descriptor >= 0)
        *(text->at = text->start) = 0;
}

void text_put(struct text *text, const char *letters)
{
    for (; *letters != 0; letters++) {
        if (text->at == text->end)
            text_flush(text);
        if (text->at == text->end)
            break;
        *text->at++ = *letters;
    }
    *text->at = 0;
}

void text_put_number(struct text *text, uint64_t number)
{
    char digits[DIGITS_ROOM];
    text_put(text, put_digits(digits + sizeof digits, number, 1));
}

void text_put_hexadecimal(struct text *text, uint64_t number, unsigned digits)
{
    char room[DIGITS_ROOM], *at = room + sizeof room;
    *--at = 0;
    for (unsigned count = 0; count < digits || number != 0; count++, number /= 16)
        *--at = "0123456789abcdef"[number % 16];
    text_put(text, "0x");
    text_put(text, at);
}

void text_put_address(struct text *text, uint64_t address)
{
    text_put_hexadecimal(text, address, ADDRESS_DIGITS);
}

void text_put_thread(struct text *text, unsigned number)
{
    text_put(text, "T");
    if (number == THREAD_UNKNOWN)
        text_put(text, "-1");
    else
        text_put_number(text, number);
}

void text_put_from(struct text *text, uintptr_t address, size_t most)
{
    char piece[64];
    for (size_t count = sizeof piece - 1; count == sizeof piece - 1 && most > 0; address += count, most -= count) {
        size_t room = most < sizeof piece - 1 ? most : sizeof piece - 1;
        if (!memory_read_text(address, piece, room + 1))
            break;
        count = strlen(piece);
        text_put(text, piece);
    }
}

void text_put_link(struct text *text, const char *path)
{
    if (text->end - text->at < PATH_MAX - 1)
        text_flush(text);
    ssize_t length = system_readlink(path, text->at, (size_t)(text->end - text->at));
    text->at += length > 0 ? length : 0;
    *text->at = 0;
}

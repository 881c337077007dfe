/* The map of modules, as the system writes it: text, a line for each part.

   Called: maps_take_line by modules.c, side.c, process/unchecked.c and leaks/root_regions.c, maps_is_module by the
   first two, maps_is_same_file by modules.c and process/unchecked.c, and the two of map_head by modules.c: there
   with the stream's lock, except in leaks/; maps_find_note by heap/families.c, process/plain.c and preload_choice.c.
   In any thread, also in a handler. No lock is needed: nothing is kept, and all memory is the caller's. */
#ifndef ASANCOL_MAPS_H
#define ASANCOL_MAPS_H

#include <stdbool.h>
#include <stddef.h>
#include <stdint.h>

struct map_line {
    const char *text, *next;
    const char *file; /* its device, number and name; or null */
    const char *path; /* of the file, up to the end of the line; or null */
    uint64_t start, end;
    bool has_file, is_first; /* and whether it is the first part of that */
    bool is_code;
};

/* The line that begins here. False: there is no more. */
bool maps_take_line(const char *text, struct map_line *line);
/* Whether a file begins here that has code. A file of data is one part, or is no matter. */
bool maps_is_module(const struct map_line *line);
/* Whether two lines are of one file: from the device on they have the same text. */
bool maps_is_same_file(const struct map_line *one, const struct map_line *other);

/* Where a note of this owner and type has its bytes, and how many. */
struct note {
    uint64_t start;
    uint32_t size;
};

/* The first bytes of a module's file, where the headers and notes of most are. */
enum { MAP_HEAD = 2048 };
struct map_head {
    uint64_t start; /* where the file begins */
    bool is_read;   /* else the wanted part is read by itself */
    _Alignas(8) unsigned char bytes[MAP_HEAD];
};

/* Reads a part of the module, from the head if it is there. Another thread may be closing it: so nothing is read
   directly. False: it is not there. */
bool map_head_read(const struct map_head *head, uint64_t from, void *to, size_t size);
/* Finds a note of the module. */
bool map_head_find_note(const struct map_head *head, const char *owner, uint32_t type, struct note *found);
/* The same for one whose head was not read. */
bool maps_find_note(uint64_t start, const char *owner, uint32_t type, struct note *found);

#endif

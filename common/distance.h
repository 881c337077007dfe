/* How far apart two words are: the nearest known word is suggested for an unknown one.

   Called: by settings.c of the recorder, in the thread that starts it, and by asan.c and options.c of asancol-run; no
   lock, and nothing is allocated. */
#ifndef ASANCOL_DISTANCE_H
#define ASANCOL_DISTANCE_H

#include <stddef.h>
#include <string.h>

/* The other word is shorter than this. */
enum { DISTANCE_ROOM = 64 };

/* How many letters have to be put in, left out or changed to make one word of the other. */
static inline size_t edit_distance(const char *one, size_t length, const char *other)
{
    size_t row[DISTANCE_ROOM], width = strlen(other);
    if (width >= DISTANCE_ROOM)
        return (size_t)-1;
    for (size_t j = 0; j <= width; j++)
        row[j] = j;
    for (size_t i = 0; i < length; i++) {
        size_t corner = row[0];
        row[0]++;
        for (size_t j = 0; j < width; j++) {
            size_t least = corner + (one[i] != other[j]);
            least = least < row[j] + 1 ? least : row[j] + 1;
            least = least < row[j + 1] + 1 ? least : row[j + 1] + 1;
            corner = row[j + 1];
            row[j + 1] = least;
        }
    }
    return row[width];
}

#endif

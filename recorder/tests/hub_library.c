/* A library that goes past its global and its block. */
#include <stdlib.h>

int of_the_library[4];

void of_library(int four)
{
    volatile int at = four;
    of_the_library[at] = 1;
    volatile char *block = malloc(16);
    block[at * 4] = 1;
    free((void *)block);
}

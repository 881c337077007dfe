/* Sizes that are mistakes: a huge one, and one that wraps. */
#include <stdlib.h>
#include <string.h>

int main(int count, char **argv)
{
    (void)argv;
    volatile size_t wrapped = (size_t)0 - 1, huge = (size_t)100 << 20;
    char *block = malloc(huge), *small = malloc(8);
    free(block);
    memset(block, 1, count > 1 ? 0 : huge);
    free(small);
    return memchr(small, small[0], wrapped) == NULL;
}

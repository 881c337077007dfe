#include <stdlib.h>

void fault_of_library(void)
{
    char *volatile block = malloc(8);
    ((volatile char *)block)[8] = 1;
    free(block);
}

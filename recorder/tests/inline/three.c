/* One fault each of the stack, the heap and a global. */
#include <stdlib.h>

int numbers[3];

int main(void)
{
    volatile int past = 4;
    int local[4];
    local[past] = 1;
    (void)local;
    char *block = malloc(4);
    block[past] = 1;
    free(block);
    numbers[past - 1] = 1;
    return 0;
}

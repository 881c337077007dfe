/* Functions within functions, which GCC has: variables are reached through frames of callers. */
#include <stdio.h>

#include "bad.h"

APART long call(long (*function)(long), long argument)
{
    return function(argument) + function(argument + 1);
}

APART long outer(int *p, long index)
{
    long numbers[4] = {0}, sum = 0;
    long inner(long at)
    {
        sum += numbers[at];
        numbers[at] = 1;
        return p[at] + numbers[at];
    }
    sum += call(inner, index) * zero;
    return sum * zero + numbers[0];
}

int main(void)
{
    int *block = calloc(2, sizeof *block), *old = freed(8);
    for (int round = 0; round < 3; round++)
        printf("%ld %ld\n", outer(block, 1), outer(old, 3));
    return 0;
}

/* Accesses of variables: past their ends, out of their scopes, of alloca and of arrays whose size varies. */
#include <alloca.h>
#include <stdio.h>
#include <string.h>

#include "bad.h"

static int three[3];
static char name[11];
static struct fields record;

APART long scopes(int index)
{
    long *volatile last = NULL, sum = 0;
    for (int i = 0; i < 3; i++) {
        long numbers[4];
        memset(numbers, 0, sizeof numbers);
        if (last != NULL)
            sum += *last;
        last = &numbers[index];
        sum += *last;
    }
    sum += *last;
    *last = 1;
    return sum;
}

APART long arrays(int index)
{
    int numbers[5] = {1, 2, 3, 4, 5};
    char text[13] = "";
    long sum = numbers[index] + text[index + 8];
    numbers[index] = 3;
    text[index + 8] = 'a';
    return sum + numbers[index] + text[zero + 12] + numbers[zero + 4];
}

APART long dynamic(size_t size, long index)
{
    char *p = alloca(size);
    memset(p, 0, size);
    long sum = p[index];
    sum += p[index];
    p[index + 1] = 2;
    for (int i = 0; i < 2; i++) {
        char varying[size];
        memset(varying, 0, size);
        sum += varying[zero] + varying[index + i];
    }
    return sum + p[index];
}

APART long globals(long index)
{
    long sum = three[index] + name[index + 8];
    three[index] = 1;
    name[index + 8] = 2;
    struct fields *all = &record;
    return sum + all[index - 2].c + all[index - 2].d;
}

APART long of_caller(int *p, long index)
{
    long sum = p[index];
    p[index] = 1;
    return sum + p[index] + p[zero];
}

APART long passes_on(long index)
{
    int numbers[6] = {0};
    return of_caller(numbers, index) + of_caller(numbers, -1 - index % 2) + numbers[0];
}

/* A frame for each depth, each with its redzones. */
APART long deep(int depth, int *above)
{
    int numbers[3] = {depth};
    long sum = above[3];
    if (depth != 0)
        sum += deep(depth - 1, numbers);
    return sum + numbers[zero + 3] + above[zero];
}

int main(void)
{
    long sum = 0;
    for (int round = 0; round < 3; round++) {
        sum += (scopes(3) + scopes(4)) * zero + (arrays(5) + arrays(-1)) * zero;
        sum += (dynamic(10, 9) + dynamic(13, 13) + dynamic(32, 32)) * zero;
        sum += (globals(3) + globals(-1)) * zero + globals(2) * zero;
        int one[3] = {0};
        sum += (passes_on(6) + passes_on(7) + deep(4, one)) * zero;
    }
    printf("%ld\n", sum);
    return 0;
}

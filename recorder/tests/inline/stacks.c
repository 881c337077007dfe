/* Accesses past and before variables of frames: in loops, in calls within calls, in a callback of the library. */
#include <stdlib.h>
#include <string.h>

volatile int sink;

struct record {
    int numbers[5];
    char letters[11];
};

static int compare(const void *one, const void *other)
{
    volatile int both[2] = {*(const int *)one, *(const int *)other};
    return both[0] - both[1];
}

__attribute__((noinline)) static void many_variables(int n)
{
    int a[3];
    char b[5];
    long c[2];
    struct record d;
    memset(&d, 0, sizeof d);
    for (int i = 0; i <= n; i++)
        a[i % 5] = i;
    b[n] = 1;
    b[n - 6] = 2;
    c[n - 3] = 3;
    sink = ((char *)&d)[n + 27];
    sink = a[0] + b[0] + (int)c[0];
}

__attribute__((noinline)) static int recursive(int n)
{
    int a[4];
    a[n & 3] = n;
    if (n > 0)
        sink += recursive(n - 1);
    return a[n == 7 ? 4 : n & 3];
}

int main(void)
{
    volatile int five = 5;
    many_variables(five);
    recursive(12);
    int numbers[20];
    for (int i = 0; i < 20; i++)
        numbers[i] = 20 - i;
    qsort(numbers, 20, sizeof *numbers, compare);
    sink = numbers[five * 4];
    char *block = malloc(16), local[16];
    memcpy(local, block, 16);
    memcpy(block, local, (size_t)five + 12);
    free(block);
    return 0;
}

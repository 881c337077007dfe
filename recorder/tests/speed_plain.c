/* Measured by bench.py: `speed_plain COUNT` has a plain library copy and measure texts. With LIBRARY it is that. */
#include <stddef.h>

long plain_work(char *to, const char *text, size_t size);

#ifdef LIBRARY
#include <string.h>
long plain_work(char *to, const char *text, size_t size)
{
    memcpy(to, text, size);
    return (long)strlen(to) + (strcmp(to, text) > 0);
}
#else
#include <stdio.h>
#include <stdlib.h>
#include <string.h>
int main(int count, char **argv)
{
    char *text = strdup("a string that is as long as many are in programs"), *to = malloc(64);
    long sum = 0, rounds = count > 1 ? atol(argv[1]) : 0;
    volatile size_t size = text != NULL ? strlen(text) + 1 : 0;
    for (long i = 0; text != NULL && to != NULL && i < rounds; i++)
        sum += plain_work(to, text, size);
    printf("%ld\n", sum);
    free(text);
    free(to);
    return 0;
}
#endif

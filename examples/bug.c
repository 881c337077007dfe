#include <stdio.h>
#include <stdlib.h>
#include <string.h>

static int lengths[2];

int main(int count, char **argv)
{
    const char *name = argv[count - 1];
    char *copy = malloc(strlen(name));
    strcpy(copy, name);
    lengths[count] = (int)strlen(name);
    free(copy);
    puts(name);
    return lengths[0];
}

/* Memory and string functions, of which each touches a byte too many. */
#define _GNU_SOURCE
#include <stdio.h>
#include <stdlib.h>
#include <string.h>
#include <strings.h>

volatile size_t length;
volatile int answer;
char *volatile found;

static void memory(char *ten, char *twenty)
{
    volatile size_t eleven = 11;
    memset(ten, 'x', eleven);
    ten[9] = 0;
    memcpy(twenty, ten, eleven);
    memmove(twenty, ten, eleven);
    memcpy(ten, twenty, eleven);
    answer = memcmp(ten, twenty, eleven);
    found = memchr(ten, 'q', eleven);
}

static void strings(char *ten, char *twenty)
{
    volatile size_t eleven = 11, twenty_one = 21;
    found = strcpy(ten, "0123456789");
    ten[9] = 0;
    found = strncpy(ten, "abc", eleven);
    found = strcat(ten, "0123456789");
    ten[9] = 0;
    memset(twenty, 'z', 20);
    length = strlen(twenty);
    length = strnlen(twenty, twenty_one);
    found = strchr(twenty, 'q');
    found = strrchr(twenty, 'q');
    answer = strcmp(twenty, "zzzzzzzzzzzzzzzzzzzzzzzzzz");
    answer = strncmp(twenty, twenty, twenty_one);
}

static void copies(char *twenty)
{
    twenty[19] = 0;
    found = strdup(twenty);
    free(found);
    length = strlen(found);
    found = strndup(twenty, 5);
    found[6] = 1;
    free(found);
    found = strstr(twenty, "zz");
    length = strspn(twenty, "z");
    length = strcspn(twenty, "q");
    answer = strcasecmp(twenty, "ZZ");
}

static void from_the_library(void)
{
    char *line = NULL, *printed = NULL;
    size_t room = 0;
    FILE *file = fopen("/proc/self/comm", "r");
    if (file == NULL || getline(&line, &room, file) < 0 || asprintf(&printed, "%d", 12345) < 0)
        exit(1);
    line[room] = 0;
    printed[6] = 0;
    fclose(file);
    free(line);
    free(printed);
    printed[0] = 1;
}

int main(void)
{
    char *ten = malloc(10), *twenty = malloc(20), local[8];
    memset(ten, 'x', 9);
    ten[9] = 0;
    memset(twenty, 'y', 19);
    twenty[19] = 0;
    memory(ten, twenty);
    strings(ten, twenty);
    copies(twenty);
    volatile int eight = 8;
    memset(local, 0, (size_t)eight + 1);
    length = strlen(local);
    from_the_library();
    free(ten);
    free(twenty);
    memset(ten, 0, 4);
    answer = memcmp(ten, twenty, 3);
    return 0;
}

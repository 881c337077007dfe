/* A program whose plain library does what its word says with a block of 8 bytes: well, or with `bad` too much. */
#define _GNU_SOURCE
#include <dlfcn.h>
#include <signal.h>
#include <stdio.h>
#include <stdlib.h>
#include <string.h>
#include <wchar.h>

char *plain_copy(char *to, const char *from);
char *plain_copy_by_table(char *to, const char *from);
char *plain_copy_elsewhere(char *to, const char *from);
int plain_copy_in_child(char *to, const char *from);
int plain_copy_in_thread(char *to, const char *from);
size_t plain_length(const char *text);
size_t plain_wide_length(const wchar_t *text);
int plain_print(char *to, size_t room, const char *what);
int plain_scan(const char *from, char *to);
long plain_write(const void *from, size_t size);
long plain_write_piece(const void *from, size_t size);
long plain_take(void *to, size_t size);
void plain_sort(void *numbers, size_t count, size_t size);
int plain_table_is_library(void);

static char *block;
static const char *text;

static void handle(int number)
{
    (void)number;
    plain_copy(block, text); /* line 33 */
}

static void by_name(const char *library)
{
    void *opened = dlopen(library, RTLD_NOW | RTLD_LOCAL);
    char *(*copy)(char *, const char *) = opened ? (char *(*)(char *, const char *))dlsym(opened, "plain_copy") : 0;
    copy(block, text); /* line 40 */
    dlclose(opened);
}

int main(int count, char **argv)
{
    const char *what = argv[1];
    int is_bad = count > 2;
    size_t size = is_bad ? 12 : 8;
    text = is_bad ? "too long" : "a text";
    block = malloc(8);
    memset(block, is_bad ? 'a' : 0, 8);
    if (strcmp(what, "copy") == 0)
        plain_copy(block, text);
    else if (strcmp(what, "table") == 0)
        plain_copy_by_table(block, text);
    else if (strcmp(what, "child") == 0)
        return plain_copy_in_child(block, text);
    else if (strcmp(what, "thread") == 0)
        plain_copy_in_thread(block, text);
    else if (strcmp(what, "elsewhere") == 0)
        plain_copy_elsewhere(block, text);
    else if (strcmp(what, "length") == 0)
        plain_length(block);
    else if (strcmp(what, "wide") == 0)
        plain_wide_length((wchar_t *)block);
    else if (strcmp(what, "print") == 0)
        plain_print(block, size, "a longer text");
    else if (strcmp(what, "scan") == 0)
        plain_scan(is_bad ? "too_long" : "a_text", block);
    else if (strcmp(what, "write") == 0)
        plain_write(block, size);
    else if (strcmp(what, "piece") == 0)
        plain_write_piece(block, size);
    else if (strcmp(what, "take") == 0)
        plain_take(block, size);
    else if (strcmp(what, "sort") == 0)
        plain_sort(block, is_bad ? 2 : 1, is_bad ? 4 : 8);
    else if (strcmp(what, "handler") == 0) {
        signal(SIGUSR1, handle);
        raise(SIGUSR1);
    } else if (strcmp(what, "opened") == 0) {
        by_name("./libplain-other.so");
    } else if (strcmp(what, "again") == 0) {
        const char *good = text;
        text = "a text";
        by_name("./libplain-other.so");
        text = good;
        by_name("./libplain-third.so");
    } else if (strcmp(what, "slots") == 0) {
        printf("%d", plain_table_is_library());
    }
    free(block);
    return 0;
}

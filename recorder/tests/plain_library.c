/* A library that is compiled without asancol-cc: what it calls of the C library is checked all the same. */
#define _GNU_SOURCE
#include <dlfcn.h>
#include <pthread.h>
#include <stdio.h>
#include <stdlib.h>
#include <string.h>
#include <sys/socket.h>
#include <sys/uio.h>
#include <sys/wait.h>
#include <unistd.h>
#include <wchar.h>

/* By a table, as a library has one for what its user may replace. */
typedef char *copies(char *to, const char *from);
copies *const plain_table[] = {strcpy, strcat};

char *plain_copy(char *to, const char *from)
{
    return strcpy(to, from);
}

char *plain_copy_by_table(char *to, const char *from)
{
    return plain_table[0](to, from);
}

size_t plain_length(const char *text)
{
    return strlen(text);
}

size_t plain_wide_length(const wchar_t *text)
{
    return wcslen(text);
}

int plain_print(char *to, size_t room, const char *what)
{
    return snprintf(to, room, "%s", what);
}

int plain_scan(const char *from, char *to)
{
    return sscanf(from, "%s", to);
}

long plain_write(const void *from, size_t size)
{
    return write(STDOUT_FILENO, from, size);
}

long plain_write_piece(const void *from, size_t size)
{
    const struct iovec piece = {(void *)from, size};
    return writev(STDOUT_FILENO, &piece, 1);
}

/* Bytes that come over a socket. */
long plain_take(void *to, size_t size)
{
    static const char bytes[64];
    int ends[2];
    if (socketpair(AF_UNIX, SOCK_STREAM, 0, ends) != 0 || send(ends[0], bytes, size, 0) != (ssize_t)size)
        return -1;
    long got = recv(ends[1], to, size / 2, 0) + read(ends[1], (char *)to + size / 2, size - size / 2);
    close(ends[0]);
    close(ends[1]);
    return got;
}

/* The C library calls it: of two numbers it copies the two that lie there. */
int plain_compare(const void *one, const void *other)
{
    int numbers[2], others[2];
    memcpy(numbers, one, sizeof numbers);
    memcpy(others, other, sizeof others);
    return (numbers[0] > others[0]) - (numbers[0] < others[0]);
}

void plain_sort(void *numbers, size_t count, size_t size)
{
    qsort(numbers, count, size, plain_compare);
}

/* The copy is that of a child. */
int plain_copy_in_child(char *to, const char *from)
{
    int status;
    pid_t child = fork();
    if (child == 0) {
        strcpy(to, from);
        exit(0);
    }
    return waitpid(child, &status, 0) == child ? status : -1;
}

static void *copy_of_thread(void *pair)
{
    return strcpy(((char **)pair)[0], ((char **)pair)[1]);
}

int plain_copy_in_thread(char *to, const char *from)
{
    pthread_t thread;
    const char *pair[] = {to, from};
    return pthread_create(&thread, NULL, copy_of_thread, pair) != 0 || pthread_join(thread, NULL) != 0;
}

/* Another library, which this one opens. */
char *plain_copy_elsewhere(char *to, const char *from)
{
    void *opened = dlopen("./libplain-other.so", RTLD_NOW | RTLD_LOCAL);
    copies *copy = opened != NULL ? (copies *)dlsym(opened, "plain_copy") : NULL;
    return copy != NULL ? copy(to, from) : NULL;
}

/* Whether the table leads to what the C library has. */
int plain_table_is_library(void)
{
    return plain_table[0] == (copies *)dlsym(RTLD_DEFAULT, "strcpy");
}

#ifdef EARLY
/* It runs before the program's constructors; the resolver when the library is relocated, before the recorder is
   there. */
__attribute__((constructor)) static void copy_early(void)
{
    char *block = malloc(8);
    strcpy(block, "too long");
    free(block);
}

static size_t resolved(void)
{
    return 7;
}

static size_t (*resolve(void))(void)
{
    return strlen("a text") == 6 ? resolved : NULL;
}

size_t plain_resolved(void) __attribute__((ifunc("resolve")));
#endif

#ifdef OLD
/* In its old version, in which it moves what overlaps. */
__asm__(".symver old_copy, memcpy@GLIBC_2.2.5");
extern void *old_copy(void *, const void *, size_t);
void plain_old_copy(char *text)
{
    old_copy(text + 1, text, 6);
}
#endif

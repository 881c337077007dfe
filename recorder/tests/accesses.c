/* Bad accesses, each of which is one report however many pieces it has. The first word says which: with `in_library`
   the second one, by the shared object. */
#define _GNU_SOURCE
#include <fcntl.h>
#include <pthread.h>
#include <signal.h>
#include <stdio.h>
#include <stdlib.h>
#include <string.h>
#include <sys/uio.h>
#include <unistd.h>

#ifndef OBJECT
#define main_of_accesses main
int in_library(int count, char **argv);
#else
#define main_of_accesses in_library
#endif

#define APART __attribute__((noinline)) static

typedef int vector_16 __attribute__((vector_size(16)));
struct long_ones {
    long numbers[3];
};
struct __attribute__((packed)) odd {
    char before;
    long value;
};

static char text[64] = "twelve bytes";
static char *volatile block;
static volatile size_t size = 13;
static char *volatile from = text;
static void *volatile kept;

APART void copy_memory(void)
{
    memcpy(block, text, size);
}

APART void copy_string(void)
{
    strcpy(block, text);
}

APART void print(void)
{
    snprintf(block, 64, "%s", text);
}

APART void scan(void)
{
    sscanf("twelve-bytes", "%s", block);
}

APART void read_file(void)
{
    int file = open("/dev/zero", O_RDONLY);
    kept = (void *)read(file, block, size);
    close(file);
}

APART void read_stream(void)
{
    FILE *file = fopen("/dev/zero", "r");
    kept = (void *)fread(block, 1, size, file);
    fclose(file);
}

APART void write_file(void)
{
    int file = open("/dev/null", O_WRONLY);
    kept = (void *)write(file, block, size);
    close(file);
}

APART void write_pieces(void)
{
    int file = open("/dev/null", O_WRONLY);
    struct iovec pieces[] = {{text, 4}, {block, size}};
    kept = (void *)writev(file, pieces, 2);
    close(file);
}

APART void compare(void)
{
    memset(block, 'a', 3);
    kept = (void *)(long)memcmp(block, text, size);
}

APART void move_vector(void)
{
    *(vector_16 *)block = (vector_16){1, 2, 3, 4};
}

APART void copy_structure(void)
{
    *(struct long_ones *)block = *(struct long_ones *)from;
}

APART void store_int128(void)
{
    *(__int128 *)block = 1;
}

APART void store_unaligned(void)
{
    ((struct odd *)block)->value = 1;
}

APART void store_byte(void)
{
    block[5] = 1;
}

/* A size of -1 is a mistake, of which the process may die. */
APART void copy_negative(void)
{
    size = (size_t)-1;
    memmove(block, text, size);
}

/* Pieces of one call are bad in two blocks: the first bad byte decides. */
APART void clear_two(void)
{
    memset(block, 0, 120);
}

APART void clear_many(void)
{
    memset(block, 0, 4096);
}

/* The only bad bytes lie far from the start. */
enum { LARGE = 40 << 20 };

APART void clear_large(void)
{
    memset(block, 0, LARGE + 8);
}

APART void free_twice(void)
{
    free(block);
    free(block);
}

APART void resize_freed(void)
{
    char *old = block;
    free(old);
    kept = realloc(old, 20);
}

static const struct way {
    const char *name;
    void (*go)(void);
    size_t room;
} ways[] = {
    {"copy_memory", copy_memory, 5},       {"copy_string", copy_string, 5},       {"print", print, 5},
    {"scan", scan, 5},                     {"read_file", read_file, 5},           {"read_stream", read_stream, 5},
    {"write_file", write_file, 5},         {"write_pieces", write_pieces, 5},     {"compare", compare, 5},
    {"move_vector", move_vector, 1},       {"copy_structure", copy_structure, 1}, {"store_int128", store_int128, 1},
    {"store_unaligned", store_unaligned, 1}, {"store_byte", store_byte, 5},       {"copy_negative", copy_negative, 5},
    {"clear_two", clear_two, 5},           {"clear_many", clear_many, 1000},      {"clear_large", clear_large, LARGE},
    {"free_twice", free_twice, 5},         {"resize_freed", resize_freed, 5},
};

static void go(const struct way *way)
{
    block = malloc(way->room);
    way->go();
}

/* Each of these is one call at one place, also if threads make them at once. */
enum { THREADS = 4, TIMES = 200 };

static void *copy_often(void *unused)
{
    char *mine = malloc(5);
    for (int i = 0; i < TIMES; i++)
        memset(mine, 0, 13);
    return unused;
}

static void go_in_threads(void)
{
    pthread_t threads[THREADS];
    for (int i = 0; i < THREADS; i++)
        pthread_create(&threads[i], NULL, copy_often, NULL);
    for (int i = 0; i < THREADS; i++)
        pthread_join(threads[i], NULL);
}

/* A handler makes its own calls, wherever it comes. */
static volatile long handled;

static void handle(int number)
{
    (void)number;
    handled++;
    memset(block, 1, 15);
}

static void go_with_handlers(void)
{
    char *mine = malloc(5);
    const struct itimerspec often = {{0, 20000}, {0, 20000}};
    timer_t timer;
    block = malloc(5);
    signal(SIGALRM, handle);
    timer_create(CLOCK_MONOTONIC, NULL, &timer);
    timer_settime(timer, 0, &often, NULL);
    long calls = 0;
    while (handled < 50) {
        memset(mine, 0, 13);
        calls++;
    }
    signal(SIGALRM, SIG_IGN);
    printf("%ld %ld\n", calls, handled);
}

static int many(int count, char **argv)
{
    if (strcmp(argv[1], "threads") == 0)
        go_in_threads();
    else if (strcmp(argv[1], "handlers") == 0)
        go_with_handlers();
    else if (strcmp(argv[1], "often") == 0)
        copy_often(NULL);
    else
        return 1;
    return count == 0;
}

int main_of_accesses(int count, char **argv)
{
#ifndef OBJECT
    if (count > 2)
        return in_library(count - 1, argv + 1);
#endif
    for (size_t i = 0; i < sizeof ways / sizeof *ways; i++) {
        if (strcmp(argv[1], ways[i].name) == 0) {
            go(&ways[i]);
            return 0;
        }
    }
    return many(count, argv);
}

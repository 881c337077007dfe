/* A sound program that calls all of malloc.h, by each name that the C library gives it, and obstacks. It is silent and
   ends with 0 where each block holds its own bytes. */
#define _GNU_SOURCE
#include <errno.h>
#include <malloc.h>
#include <obstack.h>
#include <stdint.h>
#include <stdio.h>
#include <stdlib.h>
#include <string.h>

#define obstack_chunk_alloc malloc
#define obstack_chunk_free free

void *__libc_malloc(size_t size);
void __libc_free(void *pointer);
void *__libc_calloc(size_t count, size_t size);
void *__libc_realloc(void *old, size_t size);
void *__libc_memalign(size_t alignment, size_t size);
void *__libc_valloc(size_t size);
void *__libc_pvalloc(size_t size);

static void want(int holds, const char *what)
{
    if (!holds) {
        fprintf(stderr, "not so: %s\n", what);
        exit(9);
    }
}

#define WANT(condition) want(condition, #condition)

enum { BLOCKS = 20 };
static void *blocks[BLOCKS];
static size_t count;

/* A block of at least this size at a multiple of this number. */
static void take(void *block, size_t alignment, size_t size)
{
    WANT(block != NULL && (uintptr_t)block % alignment == 0);
    WANT(malloc_usable_size(block) >= size);
    memset(block, (int)count, size);
    blocks[count++] = block;
}

static void take_all(void)
{
    void *aligned = NULL;
    take(malloc(10), 16, 10);
    take(calloc(3, 10), 16, 30);
    take(realloc(malloc(10), 1000), 16, 1000);
    take(reallocarray(NULL, 10, 100), 16, 1000);
    take(memalign(64, 100), 64, 100);
    take(aligned_alloc(128, 256), 128, 256);
    WANT(posix_memalign(&aligned, 256, 100) == 0);
    take(aligned, 256, 100);
    take(valloc(100), 4096, 100);
    take(pvalloc(100), 4096, 4096);
    take(pvalloc(0), 4096, 4096);
    take(__libc_malloc(10), 16, 10);
    take(__libc_calloc(3, 10), 16, 30);
    take(__libc_realloc(NULL, 100), 16, 100);
    take(__libc_memalign(64, 100), 64, 100);
    take(__libc_valloc(100), 4096, 100);
    take(__libc_pvalloc(100), 4096, 4096);
    take(strdup("text"), 16, 5);
}

static void give_all(void)
{
    for (size_t i = 0; i < count; i++) {
        WANT(*(unsigned char *)blocks[i] == i);
        if (i % 2 == 0)
            free(blocks[i]);
        else
            __libc_free(blocks[i]);
    }
}

/* As the first blocks of all: one of many units before the steps in which memory grows are at their largest, and then
   more units than notes are made for at once. */
static void grow(void)
{
    void *volatile block = malloc(20 << 16); /* volatile, so that no compiler leaves it out */
    WANT(block != NULL);
    for (int i = 0; i < 300; i++) {
        block = malloc(60000);
        WANT(block != NULL);
    }
}

static void settings(void)
{
    WANT(mallopt(M_MMAP_THRESHOLD, 1 << 20) == 1);
    WANT(mallopt(M_TRIM_THRESHOLD, 1 << 20) == 1);
    malloc_trim(0);
}

/* The counted bytes: ten thousand bytes more are at least that. */
static void numbers(void)
{
    size_t before = mallinfo2().uordblks;
    void *volatile block = malloc(10000); /* volatile, so that no compiler leaves it out */
    struct mallinfo2 now = mallinfo2();
    WANT(now.uordblks >= before + 10000 && now.arena + now.hblkhd >= now.uordblks);
#pragma GCC diagnostic push
#pragma GCC diagnostic ignored "-Wdeprecated-declarations"
    WANT((size_t)mallinfo().uordblks == now.uordblks);
#pragma GCC diagnostic pop
    free(block);
}

/* Both write: here into files. */
static void texts(void)
{
    char *text = NULL;
    size_t length = 0;
    FILE *out = open_memstream(&text, &length);
    WANT(malloc_info(0, out) == 0);
    WANT(malloc_info(1, out) == EINVAL);
    fclose(out);
    WANT(strncmp(text, "<malloc version=\"1\">", 20) == 0 && strstr(text, "</malloc>") != NULL);
    free(text);
    out = stderr;
    stderr = tmpfile();
    WANT(stderr != NULL);
    malloc_stats();
    rewind(stderr);
    char line[64] = "";
    WANT(fgets(line, sizeof line, stderr) != NULL && strncmp(line, "Arena 0:", 8) == 0);
    fclose(stderr);
    stderr = out;
}

static void stacks_of_objects(void)
{
    struct obstack stack;
    obstack_init(&stack);
    for (int i = 0; i < 10000; i++)
        obstack_1grow(&stack, (char)('0' + i % 10));
    char *object = obstack_finish(&stack);
    WANT(object[9999] == '9');
    obstack_free(&stack, NULL);
}

int main(void)
{
    grow();
    settings();
    take_all();
    numbers();
    texts();
    stacks_of_objects();
    give_all();
    return 0;
}

/* Faults and near misses, one a run: `faults NAME`. `faults --list` says for each what has to be reported, as the
   driver writes it: kind, width, place in the block, the bad byte where it is another, class. Several reports are
   apart by "; ". After it, what the compiler's own AddressSanitizer says of the first: "same", or why it does not. The
   causes are those of docs/RECORDER.md. */
#define _GNU_SOURCE
#include <malloc.h>
#include <pthread.h>
#include <setjmp.h>
#include <stdint.h>
#include <stdio.h>
#include <stdlib.h>
#include <string.h>
#include <strings.h>
#include <sys/mman.h>

#if defined __has_include
#if __has_include(<sanitizer/asan_interface.h>)
#include <sanitizer/asan_interface.h>
#endif
#endif
#ifndef ASAN_POISON_MEMORY_REGION
void __asan_poison_memory_region(void const volatile *, size_t);
void __asan_unpoison_memory_region(void const volatile *, size_t);
#define ASAN_POISON_MEMORY_REGION __asan_poison_memory_region
#define ASAN_UNPOISON_MEMORY_REGION __asan_unpoison_memory_region
#endif

struct test {
    const char *name;
    void (*run)(void);
    const char *expected;
    const char *beside;
};

#define TEST(name, expected, beside)                                                                                   \
    static void name(void);                                                                                            \
    static const struct test test_##name __attribute__((used, section("tests"))) = {#name, name, expected, beside};    \
    static void name(void)
#define FAULT(name, expected) TEST(name, expected, "same")
#define CLEAN(name) TEST(name, "", "same")

static volatile uint64_t sink;

/* What the compiler then doesn't know. */
static inline void *hide_pointer(void *pointer)
{
    __asm__ volatile("" : "+r"(pointer) : : "memory");
    return pointer;
}
#define hide(pointer) ((__typeof__(pointer))hide_pointer((void *)(pointer)))

static inline size_t hide_size(size_t size)
{
    __asm__ volatile("" : "+r"(size));
    return size;
}

#define LOAD(type, at) (sink = (uint64_t) * (type *)hide(at))
#define STORE(type, at) (*(type *)hide(at) = 1)

static char *block(size_t size)
{
    char *made = hide((char *)malloc(size));
    for (size_t i = 0; i < size; i++)
        made[i] = 'a';
    return made;
}

static void drop(void *pointer)
{
    free(hide(pointer));
}

/* Past the end, and before the start. */

FAULT(load_1_past_the_end, "load 1 +5 heap-buffer-overflow") { char *p = block(5); LOAD(char, p + 5); drop(p); }
FAULT(store_1_past_the_end, "store 1 +5 heap-buffer-overflow") { char *p = block(5); STORE(char, p + 5); drop(p); }
FAULT(load_2_past_the_end, "load 2 +6 heap-buffer-overflow") { char *p = block(6); LOAD(short, p + 6); drop(p); }
FAULT(store_2_past_the_end, "store 2 +6 heap-buffer-overflow") { char *p = block(6); STORE(short, p + 6); drop(p); }
FAULT(load_4_past_the_end, "load 4 +8 heap-buffer-overflow") { char *p = block(8); LOAD(int, p + 8); drop(p); }
FAULT(store_4_past_the_end, "store 4 +8 heap-buffer-overflow") { char *p = block(8); STORE(int, p + 8); drop(p); }
FAULT(load_8_past_the_end, "load 8 +16 heap-buffer-overflow") { char *p = block(16); LOAD(long, p + 16); drop(p); }
FAULT(store_8_past_the_end, "store 8 +16 heap-buffer-overflow") { char *p = block(16); STORE(long, p + 16); drop(p); }
FAULT(store_4_half_past, "store 4 +4 bad +5 heap-buffer-overflow") { char *p = block(5); STORE(int, p + 4); drop(p); }
FAULT(load_8_half_past, "load 8 +8 bad +12 heap-buffer-overflow") { char *p = block(12); LOAD(long, p + 8); drop(p); }
FAULT(load_16_past, "load 8 +16 heap-buffer-overflow; load 8 +24 heap-buffer-overflow")
{
    char *p = block(16);
    sink = (uint64_t)*(unsigned __int128 *)hide(p + 16);
    drop(p);
}
TEST(load_16_half_past, "load 8 +24 heap-buffer-overflow", "pieces")
{
    char *p = block(24);
    sink = (uint64_t)(*(unsigned __int128 *)hide(p + 16) >> 64);
    drop(p);
}
FAULT(load_before, "load 1 -1 heap-buffer-overflow") { char *p = block(8); LOAD(char, p - 1); drop(p); }
FAULT(store_before, "store 4 -4 heap-buffer-overflow") { char *p = block(8); STORE(int, p - 4); drop(p); }
FAULT(store_far_before, "store 8 -16 heap-buffer-overflow") { char *p = block(8); STORE(long, p - 16); drop(p); }
TEST(load_in_the_redzone, "load 1 +39 heap-buffer-overflow", "redzones")
{
    char *p = block(8);
    LOAD(char, p + 39);
    drop(p);
}

/* Where no block ever was. */
#define FAR(name, expected) TEST(name, expected, "class")
FAR(far_past_the_end, "store 4 use-after-poison")
{
    int *p = (void *)block(100 * sizeof *p);
    STORE(int, p + 111);
}
FAR(far_before_the_start, "store 4 use-after-poison")
{
    int *p = (void *)block(100 * sizeof *p);
    STORE(int, p - 50);
}
FAR(far_past_a_large_block, "store 1 use-after-poison") { char *p = block(100000); STORE(char, p + 102000); }
FAR(far_before_a_large_block, "load 1 use-after-poison") { char *p = block(100000); LOAD(char, p - 2000); }
FAR(structure_in_a_small_block, "store 8 +8 heap-buffer-overflow; store 8 +16 heap-buffer-overflow; "
    "store 8 +24 heap-buffer-overflow; store 8 +32 heap-buffer-overflow; store 8 use-after-poison")
{
    struct structure {
        long words[6];
    } *p = (void *)block(8), value = {{1}};
    *p = *hide(&value);
}

FAULT(past_a_large_block, "store 1 +100000 heap-buffer-overflow")
{
    char *p = block(100000);
    STORE(char, p + 100000);
    drop(p);
}
FAULT(before_a_large_block, "load 8 -8 heap-buffer-overflow") { char *p = block(100000); LOAD(long, p - 8); drop(p); }
TEST(empty_block, "load 1 +0 heap-buffer-overflow", "empty blocks") { char *p = block(0); LOAD(char, p); drop(p); }
FAULT(loop_one_too_far, "store 4 +40 heap-buffer-overflow")
{
    int *p = (int *)block(10 * sizeof *p);
    for (size_t i = 0; i <= hide_size(10); i++)
        *(volatile int *)&p[i] = 1;
    drop(p);
}
FAULT(calloc_past, "store 1 +30 heap-buffer-overflow")
{
    char *p = hide((char *)calloc(3, 10));
    STORE(char, p + 30);
    drop(p);
}
FAULT(aligned_past, "store 8 +24 heap-buffer-overflow")
{
    void *p;
    if (posix_memalign(&p, 256, 24) != 0 || (uintptr_t)p % 256 != 0)
        exit(9);
    STORE(long, (char *)p + 24);
    drop(p);
}
FAULT(aligned_before, "load 1 -1 heap-buffer-overflow")
{
    char *p = hide((char *)aligned_alloc(64, 64));
    LOAD(char, p - 1);
    drop(p);
}
FAULT(grown_past, "store 1 +100 heap-buffer-overflow")
{
    char *p = hide((char *)realloc(block(10), 100));
    STORE(char, p + 100);
    drop(p);
}
FAULT(shrunk_past, "store 1 +10 heap-buffer-overflow")
{
    char *p = hide((char *)realloc(block(100), 10));
    STORE(char, p + 10);
    drop(p);
}
FAULT(struct_past, "load 4 +12 heap-buffer-overflow")
{
    struct three { int a, b, c, d; } *p = (struct three *)block(12);
    sink = (uint64_t)hide(p)->d;
    drop(p);
}

/* After the free. */

FAULT(load_after_free, "load 1 +3 heap-use-after-free") { char *p = block(8); drop(p); LOAD(char, p + 3); }
FAULT(store_after_free, "store 4 +4 heap-use-after-free") { char *p = block(8); drop(p); STORE(int, p + 4); }
FAULT(load_after_realloc, "load 8 +0 heap-use-after-free")
{
    char *p = block(8), *moved = hide((char *)realloc(p, 80));
    LOAD(long, p);
    drop(moved);
}
FAULT(load_after_free_of_large, "load 1 +70000 heap-use-after-free")
{
    char *p = block(80000);
    drop(p);
    LOAD(char, p + 70000);
}
FAULT(double_free, "free +0 double-free") { char *p = block(8); drop(p); drop(p); }
FAULT(double_free_of_large, "free +0 double-free") { char *p = block(1 << 20); drop(p); drop(p); }
FAULT(free_twice_with_others_between, "free +0 double-free")
{
    char *p = block(8);
    drop(p);
    for (int i = 0; i < 100; i++)
        drop(block(8));
    drop(p);
}
FAULT(realloc_after_free, "free +0 double-free")
{
    char *p = block(8);
    drop(p);
    p = hide((char *)realloc(hide(p), 16));
    sink = p == NULL;
}
FAULT(free_inside, "free +8 bad-free") { char *p = block(16); drop(p + 8); drop(p); }
FAULT(free_of_stack, "free bad-free") { char local[64]; drop(hide((char *)local) + 16); }
FAULT(free_of_global, "free bad-free") { static char global[64]; drop(hide((char *)global)); }
TEST(free_of_nonsense, "free bad-free", "wild frees") { drop((void *)(uintptr_t)hide_size(0x123450)); }
FAULT(free_past, "free +32 bad-free") { char *p = block(32); drop(p + 32); }
TEST(goes_on, "store 1 +5 heap-buffer-overflow; load 1 +6 heap-buffer-overflow; free +0 double-free", "same")
{
    char *p = block(5);
    STORE(char, p + 5);
    LOAD(char, p + 6);
    drop(p);
    drop(p);
}

/* Functions of the library. */

FAULT(memcpy_reads_past, "load 2 +8 heap-buffer-overflow")
{
    char to[16], *p = block(8);
    memcpy(hide((char *)to), p, hide_size(10));
    drop(p);
}
FAULT(memcpy_writes_past, "store 2 +8 heap-buffer-overflow")
{
    char from[16] = "0123456789", *p = block(8);
    memcpy(p, hide((char *)from), hide_size(10));
    drop(p);
}
FAULT(memmove_after_free, "load 8 +0 heap-use-after-free")
{
    char to[16], *p = block(8);
    drop(p);
    memmove(hide((char *)to), hide(p), hide_size(8));
}
FAULT(memset_past, "store 1 +12 heap-buffer-overflow")
{
    char *p = block(12);
    memset(p, 0, hide_size(13));
    drop(p);
}
FAULT(memcmp_past, "load 8 +0 bad +6 heap-buffer-overflow")
{
    char other[8] = "aaaaaaaa", *p = block(6);
    sink = (uint64_t)memcmp(p, hide((char *)other), hide_size(8));
    drop(p);
}
FAULT(strcpy_past, "store 2 +4 bad +5 heap-buffer-overflow")
{
    char *p = block(5);
    strcpy(p, hide((char *)"Alice"));
    drop(p);
}
FAULT(strncpy_past, "store 8 +0 bad +4 heap-buffer-overflow")
{
    char *p = block(4);
    strncpy(p, hide((char *)"a"), hide_size(8));
    drop(p);
}
FAULT(strcat_past, "store 1 +8 heap-buffer-overflow")
{
    char *p = block(8);
    p[4] = 0;
    strcat(p, hide((char *)"1234"));
    drop(p);
}
FAULT(strlen_past, "load 1 +8 heap-buffer-overflow")
{
    /* The byte after the block is made a zero without a record. */
    char *p = block(8);
    __asm__ volatile("movb $0, 8(%0)" : : "r"(p) : "memory");
    sink = strlen(hide(p));
    drop(p);
}
FAULT(strcmp_after_free, "load 2 +0 heap-use-after-free")
{
    char *p = hide(strdup(hide((char *)"b")));
    drop(p);
    __asm__ volatile("movw $0x62, (%0)" : : "r"(p) : "memory");
    sink = (uint64_t)strcmp(hide(p), hide((char *)"b"));
}
FAULT(strcmp_past_a_long_block, "load 2 +44 bad +45 heap-buffer-overflow")
{
    char *p = block(45), *q = block(47);
    memset(p, 'x', hide_size(45));
    memset(q, 'x', hide_size(46));
    q[46] = 0;
    __asm__ volatile("movb $0, 45(%0)" : : "r"(p) : "memory");
    sink = (uint64_t)strcmp(hide(q), hide(p));
    drop(p);
    drop(q);
}
FAULT(strdup_past, "store 1 +6 heap-buffer-overflow")
{
    char *p = hide(strdup(hide((char *)"Alice")));
    STORE(char, p + 6);
    drop(p);
}
FAULT(line_after_free, "load 1 +2 heap-use-after-free")
{
    char *line = NULL, text[] = "a line\n";
    size_t room = 0;
    FILE *file = fmemopen(text, sizeof text - 1, "r");
    if (file == NULL || getline(&line, &room, file) != 7)
        exit(9);
    fclose(file);
    drop(line);
    LOAD(char, line + 2);
}

/* Poison by hand. */

FAULT(poisoned, "load 1 +16 use-after-poison")
{
    char *p = block(64);
    ASAN_POISON_MEMORY_REGION(p + 16, 16);
    LOAD(char, p + 16);
    drop(p);
}
FAULT(poisoned_tail, "store 8 +24 use-after-poison")
{
    char *p = block(64);
    ASAN_POISON_MEMORY_REGION(p, 64);
    ASAN_UNPOISON_MEMORY_REGION(p, 24);
    STORE(long, p + 16);
    STORE(long, p + 24);
    drop(p);
}
CLEAN(unpoisoned)
{
    char *p = block(64);
    ASAN_POISON_MEMORY_REGION(p, 64);
    ASAN_UNPOISON_MEMORY_REGION(p, 64);
    STORE(long, p + 16);
    drop(p);
}

/* Up to the end of addresses, and past it. */
TEST(poisoned_to_the_end, "", "end of addresses")
{
    void *last = (void *)(uintptr_t)hide_size(((size_t)1 << 47) - 64);
    ASAN_POISON_MEMORY_REGION(last, hide_size(SIZE_MAX));
    ASAN_UNPOISON_MEMORY_REGION(last, hide_size(SIZE_MAX));
    ASAN_POISON_MEMORY_REGION(hide((void *)SIZE_MAX), hide_size(SIZE_MAX));
}

/* Threads. */

static void *free_it(void *pointer)
{
    drop(pointer);
    return NULL;
}

static void *store_past(void *pointer)
{
    STORE(char, (char *)pointer + 8);
    return NULL;
}

static void in_thread(void *run(void *), void *pointer)
{
    pthread_t thread;
    if (pthread_create(&thread, NULL, run, pointer) != 0 || pthread_join(thread, NULL) != 0)
        exit(9);
}

FAULT(freed_by_a_thread, "load 1 +0 heap-use-after-free") { char *p = block(8); in_thread(free_it, p); LOAD(char, p); }
FAULT(thread_stores_past, "store 1 +8 heap-buffer-overflow") { char *p = block(8); in_thread(store_past, p); drop(p); }
FAULT(freed_by_two_threads, "free +0 double-free")
{
    char *p = block(8);
    in_thread(free_it, p);
    in_thread(free_it, p);
}

/* Near misses. */

CLEAN(last_byte) { char *p = block(5); LOAD(char, p + 4); STORE(char, p + 4); drop(p); }
CLEAN(last_words) { char *p = block(16); LOAD(long, p + 8); STORE(int, p + 12); STORE(short, p + 14); drop(p); }
CLEAN(whole_16) { char *p = block(16); sink = (uint64_t)*(unsigned __int128 *)hide(p); drop(p); }
CLEAN(unaligned_inside) { char *p = block(16); LOAD(int, p + 1); LOAD(long, p + 3); drop(p); }
CLEAN(address_past_the_end) { char *p = block(8); sink = (uint64_t)(uintptr_t)hide(p + 8); drop(p); }
CLEAN(memory_functions)
{
    char *p = block(13), *q = block(13);
    memset(p, 1, hide_size(13));
    memcpy(q, p, hide_size(13));
    memmove(q + 1, q, hide_size(12));
    memcpy(q + 13, p + 13, hide_size(0));
    sink = (uint64_t)memcmp(p, q, hide_size(13));
    sink = (uint64_t)(uintptr_t)memchr(p, 9, hide_size(13));
    bzero(p, hide_size(13));
    drop(p);
    drop(q);
}
CLEAN(string_functions)
{
    char *p = block(6), *q = block(12);
    strcpy(p, hide((char *)"Alice"));
    strcpy(q, p);
    strcat(q, hide((char *)", Bob")), sink = strlen(q);
    sink = (uint64_t)(strcmp(p, q) + strncmp(p, q, hide_size(6)) + strcasecmp(p, q));
    sink = (uint64_t)(strchr(q, 'B') - q + (strstr(q, "Bo") - q) + (strrchr(q, 'o') - q));
    sink = strspn(q, "Al") + strcspn(q, ",");
    drop(p);
    drop(q);
}
CLEAN(strings_up_to_the_end_of_a_page)
{
    enum { SIZE = 4096, LONGEST = 20 };
    char *pages = mmap(NULL, 2 * SIZE, PROT_READ | PROT_WRITE, MAP_PRIVATE | MAP_ANONYMOUS, -1, 0);
    char *same = block(LONGEST + 1);
    if (pages == MAP_FAILED || mprotect(pages + SIZE, SIZE, PROT_NONE) != 0)
        exit(9);
    for (size_t length = 0; length <= LONGEST; length++) {
        char *last = pages + SIZE - length - 1;
        memset(last, 'a', hide_size(length));
        last[length] = 0;
        strcpy(same, hide(last));
        if (strcmp(hide(last), hide(same)) != 0 || strcasecmp(hide(same), hide(last)) != 0)
            exit(9);
        same[length / 2] = 'b';
        if (length > 0 && (strcmp(hide(last), hide(same)) >= 0 || strncmp(hide(same), hide(last), hide_size(30)) <= 0))
            exit(9);
    }
    munmap(pages, 2 * SIZE);
    drop(same);
}
CLEAN(no_terminator)
{
    char *p = block(8), *q = block(8);
    sink = strnlen(p, hide_size(8));
    strncpy(q, p, hide_size(8));
    sink = (uint64_t)strncmp(p, q, hide_size(8));
    sink = (uint64_t)(uintptr_t)memchr(p, 'a', hide_size(100));
    drop(strndup(p, hide_size(8)));
    drop(p);
    drop(q);
}
CLEAN(reallocs)
{
    char *p = hide((char *)realloc(NULL, 10));
    for (size_t size = 1; size < 200000; size = size * 3 / 2 + 1) {
        p = hide((char *)realloc(p, size));
        if (p == NULL)
            exit(9);
        memset(p, 7, hide_size(size));
    }
    p = hide((char *)reallocarray(p, 10, 10));
    sink = (uint64_t)p[99];
    sink = (uint64_t)(uintptr_t)realloc(hide(p), hide_size(0));
}
CLEAN(realloc_keeps_bytes)
{
    char *p = block(1000);
    p = hide((char *)realloc(p, 5000));
    for (int i = 0; i < 1000; i++)
        if (p[i] != 'a')
            exit(9);
    drop(p);
}
CLEAN(calloc_is_zero)
{
    for (int i = 0; i < 100; i++) {
        size_t size = 1 + (size_t)(i * i * 17);
        char *p = hide((char *)calloc(size, 1));
        for (size_t j = 0; j < size; j++)
            if (p[j] != 0)
                exit(9);
        memset(p, 1, size);
        drop(p);
    }
}
CLEAN(alignments)
{
    for (size_t alignment = 8; alignment <= 1 << 20; alignment *= 2) {
        void *p = NULL;
        if (posix_memalign(&p, alignment, 100) != 0 || (uintptr_t)p % alignment != 0)
            exit(9);
        memset(p, 1, 100);
        drop(p);
        p = hide(memalign(alignment, 1));
        if ((uintptr_t)p % alignment != 0)
            exit(9);
        drop(p);
    }
    void *p = block(3);
    if ((uintptr_t)p % 16 != 0)
        exit(9);
    drop(p);
}
CLEAN(free_of_null) { drop(NULL); }
CLEAN(empty_blocks)
{
    char *p = block(0), *q = block(0);
    if (p == NULL || p == q)
        exit(9);
    drop(p);
    drop(q);
}
CLEAN(usable_size)
{
    char *p = block(13);
    size_t size = malloc_usable_size(p);
    if (size < 13)
        exit(9);
    memset(p, 1, hide_size(size));
    drop(p);
}
CLEAN(what_libc_allocates)
{
    char *p = hide(strdup(hide((char *)"Alice"))), *line = NULL, text[] = "one\ntwo\n", *printed = NULL;
    size_t room = 0;
    FILE *file = fmemopen(text, sizeof text - 1, "r");
    while (getline(&line, &room, file) > 0)
        sink = (uint64_t)line[0];
    fclose(file);
    if (asprintf(&printed, "%s-%d", p, 7) != 7 || strcmp(printed, "Alice-7") != 0)
        exit(9);
    drop(p);
    drop(line);
    drop(printed);
}
CLEAN(stack_and_globals)
{
    static int global[10];
    int local[10];
    for (size_t i = 0; i < 10; i++)
        hide((int *)global)[i] = hide((int *)local)[i] = (int)i;
    sink = (uint64_t)hide((int *)local)[9];
}
TEST(huge_block, "", "sizes")
{
    size_t size = ((size_t)1 << 28) + 1;
    char *p = hide((char *)malloc(size));
    if (p != NULL) {
        STORE(char, p);
        STORE(char, p + size - 1);
        p = hide((char *)realloc(p, size + 5));
        STORE(char, p + size + 4);
    }
    drop(p);
    drop(block(1 << 20));
}
TEST(impossible_block, "", "sizes")
{
    char *p = hide((char *)malloc(hide_size(SIZE_MAX / 2)));
    char *q = hide((char *)calloc(hide_size(SIZE_MAX / 2), 4));
    char *r = hide((char *)pvalloc(hide_size(SIZE_MAX - 5)));
    if (p != NULL || q != NULL || r != NULL)
        exit(9);
    p = block(8);
    if (hide(reallocarray(p, hide_size(SIZE_MAX / 2), 4)) != NULL)
        exit(9);
    LOAD(char, p + 7);
    drop(p);
}
CLEAN(many_blocks)
{
    static char *blocks[2000];
    unsigned state = 1;
    for (int i = 0; i < 60000; i++) {
        state = state * 1103515245 + 12345;
        char **slot = &blocks[state / 65536 % 2000];
        size_t size = state / 7 % 9 == 0 ? state / 65536 % 30000 : state / 65536 % 300;
        if (*slot != NULL)
            free(*slot);
        *slot = malloc(size + 1);
        (*slot)[0] = (*slot)[size] = 1;
    }
    for (int i = 0; i < 2000; i++)
        free(blocks[i]);
}
CLEAN(jumps)
{
    static jmp_buf place;
    static char *p;
    p = block(8);
    if (setjmp(place) == 0)
        longjmp(place, 1);
    LOAD(char, p + 7);
    drop(p);
}

extern const struct test __start_tests[], __stop_tests[];

int main(int count, char **argv)
{
    const char *name = count > 1 ? argv[1] : "";
    for (const struct test *test = __start_tests; test < __stop_tests; test++) {
        if (strcmp(name, "--list") == 0)
            printf("%s\t%s\t%s\n", test->name, test->expected, test->beside);
        else if (strcmp(name, test->name) == 0)
            return test->run(), 0;
    }
    return strcmp(name, "--list") != 0;
}

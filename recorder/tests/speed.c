/* The programs of the table of speed, one a run: `speed NAME COUNT..`. bench.py measures them, and instructions.py
   counts the second call of one. */
#define _GNU_SOURCE
#include <spawn.h>
#include <stdint.h>
#include <stdio.h>
#include <stdlib.h>
#include <string.h>
#include <sys/wait.h>
#include <unistd.h>

static uint64_t state = 88172645463325252u;

static uint64_t random_number(void)
{
    state ^= state << 13;
    state ^= state >> 7;
    return state ^= state << 17;
}

static long array(long count)
{
    enum { LENGTH = 1000 };
    int *numbers = calloc(LENGTH, sizeof *numbers);
    long sum = 0;
    for (long round = 0; numbers != NULL && round < count / LENGTH; round++)
        for (int i = 0; i < LENGTH; i++)
            sum += numbers[i] ^ round;
    free(numbers);
    return sum;
}

struct node {
    struct node *left, *right;
    uint64_t key;
};

static void insert(struct node **place, uint64_t key)
{
    while (*place != NULL)
        place = key < (*place)->key ? &(*place)->left : &(*place)->right;
    *place = calloc(1, sizeof **place);
    if (*place != NULL)
        (*place)->key = key;
}

static uint64_t sum_and_free(struct node *node)
{
    if (node == NULL)
        return 0;
    uint64_t sum = node->key + sum_and_free(node->left) + sum_and_free(node->right);
    free(node);
    return sum;
}

static long tree(long count)
{
    struct node *root = NULL;
    for (long i = 0; i < count; i++)
        insert(&root, random_number());
    return (long)sum_and_free(root);
}

static void quicksort(int *numbers, long count)
{
    while (count > 1) {
        int pivot = numbers[count / 2];
        long low = 0, high = count - 1;
        while (low <= high) {
            while (numbers[low] < pivot)
                low++;
            while (pivot < numbers[high])
                high--;
            if (low <= high) {
                int moved = numbers[low];
                numbers[low++] = numbers[high];
                numbers[high--] = moved;
            }
        }
        quicksort(numbers + low, count - low);
        count = high + 1;
    }
}

static long sort(long count)
{
    int *numbers = malloc((size_t)count * sizeof *numbers);
    for (long i = 0; numbers != NULL && i < count; i++)
        numbers[i] = (int)random_number();
    if (numbers == NULL)
        return 0;
    quicksort(numbers, count);
    long middle = numbers[count / 2];
    free(numbers);
    return middle;
}

static long blocks(long count)
{
    for (long i = 0; i < count; i++) {
        void *volatile block = malloc(24);
        free(block);
    }
    return count;
}

/* A frame with an array, which has redzones. */
__attribute__((noinline)) static int fill_frame(long seed)
{
    volatile char text[40];
    for (int i = 0; i < 4; i++)
        text[(seed + 7 * i) % 40] = (char)seed;
    return text[seed % 40];
}

static long frames(long count)
{
    long sum = 0;
    for (long i = 0; i < count; i++)
        sum += fill_frame(i);
    return sum;
}

/* Calls that access memory once. */
__attribute__((noinline)) static long bump(long *number)
{
    return ++*number;
}

static long calls(long count)
{
    long *number = calloc(1, sizeof *number), sum = 0;
    for (long i = 0; number != NULL && i < count; i++)
        sum += bump(number);
    free(number);
    return sum;
}

/* memcpy of 64 bytes, and of a page now and then. */
static long copies(long count)
{
    enum { SMALL = 64, LARGE = 4096 };
    char *from = calloc(2, LARGE), *to = from + LARGE;
    long sum = 0;
    for (long i = 0; from != NULL && i < count; i++) {
        volatile size_t size = i % 16 == 0 ? LARGE : SMALL;
        memcpy(to, from, size);
        sum += to[i % SMALL];
    }
    free(from);
    return sum;
}

/* A bad load past each of many blocks, and one of it once it is freed. */
static long faults(long count)
{
    long sum = 0;
    for (long i = 0; i < count; i += 2) {
        char *volatile block = malloc(24);
        if (block == NULL)
            return 0;
        sum += block[24];
        free(block);
        sum += block[0];
    }
    return sum;
}

/* The same of one block that stays. */
static long same_fault(long count)
{
    char *volatile block = malloc(24);
    long sum = 0;
    for (long i = 0; block != NULL && i < count; i++)
        sum += block[24];
    free(block);
    return sum;
}

static long strings(long count)
{
    char *volatile text = strdup("a string that is as long as many are in programs");
    char *volatile other = strdup("a string that is as long as many are in PROGRAMS");
    long sum = 0;
    for (long i = 0; text != NULL && other != NULL && i < count; i++)
        sum += (long)strlen(text) + (strcmp(text, other) > 0);
    free(text);
    free(other);
    return sum;
}

static long fill_and_free(long count, size_t size)
{
    for (long i = 0; i < count; i++) {
        char *volatile block = malloc(size);
        if (block != NULL)
            memset(block, (int)i, size);
        free(block);
    }
    return count;
}

static long forty_kb(long count)
{
    return fill_and_free(count, 40 << 10);
}

static long hundred_kb(long count)
{
    return fill_and_free(count, 100 << 10);
}

/* The megabytes that are resident; 0 if nobody says it. */
static long resident(void)
{
    long pages = 0;
    FILE *file = fopen("/proc/self/statm", "r");
    if (file == NULL)
        return 0;
    if (fscanf(file, "%*d %ld", &pages) != 1)
        pages = 0;
    fclose(file);
    return pages >> 8;
}

/* 200 MB that are allocated and freed, again and again. Returns the resident memory then. */
static long sawtooth(long count)
{
    enum { BLOCKS = 5000, SIZE = 40 << 10 };
    static char *volatile all[BLOCKS];
    for (long round = 0; round < count; round++) {
        for (int i = 0; i < BLOCKS; i++)
            if ((all[i] = malloc(SIZE)) != NULL)
                memset(all[i], i, SIZE);
        for (int i = 0; i < BLOCKS; i++)
            free(all[i]);
    }
    return resident();
}

/* Blocks that the process still has when it ends, and 100 MB in one. */
static long live(long count)
{
    enum { LARGE_BLOCK = 100 << 20 };
    static void **volatile first;
    static char *volatile large;
    for (long i = 0; i < count; i++) {
        void **block = malloc(32);
        if (block == NULL)
            return 0;
        *block = (void *)first;
        first = block;
    }
    large = malloc(LARGE_BLOCK);
    if (large != NULL)
        memset(large, 1, LARGE_BLOCK);
    return first != NULL;
}

#ifndef SIDE
#define SIDE 200
#endif

/* A product of two square matrices, again and again. */
static long matrix(long count)
{
    double(*left)[SIDE] = calloc(SIDE, sizeof *left), (*right)[SIDE] = calloc(SIDE, sizeof *right);
    double(*product)[SIDE] = calloc(SIDE, sizeof *product);
    double sum = 0;
    for (long round = 0; left != NULL && right != NULL && product != NULL && round < count; round++) {
        left[round % SIDE][0] = right[0][round % SIDE] = (double)round;
        for (int i = 0; i < SIDE; i++)
            for (int k = 0; k < SIDE; k++)
                for (int j = 0; j < SIDE; j++)
                    product[i][j] += left[i][k] * right[k][j];
        sum += product[round % SIDE][round % SIDE];
    }
    free(left);
    free(right);
    free(product);
    return (long)sum;
}

/* Lookups in a table of lists. */
static long hash(long count)
{
    enum { LISTS = 1 << 12, NODES = 1 << 14 };
    struct node **lists = calloc(LISTS, sizeof *lists);
    long found = 0;
    for (uint64_t key = 0; lists != NULL && key < NODES; key++) {
        struct node *node = malloc(sizeof *node);
        if (node == NULL)
            return 0;
        *node = (struct node){.left = lists[key % LISTS], .key = key};
        lists[key % LISTS] = node;
    }
    for (long i = 0; lists != NULL && i < count; i++) {
        uint64_t key = random_number() % (2 * NODES);
        struct node *node = lists[key % LISTS];
        while (node != NULL && node->key != key)
            node = node->left;
        found += node != NULL;
    }
    return found;
}

/* The words of a line, each compared with the one before it and copied. */
static long text(long count)
{
    static const char line[] = "the quick brown fox jumps over the lazy lazy dog and runs through a field of barley";
    char words[sizeof line], before[32] = "", *rest;
    long same = 0;
    for (long i = 0; i < count; i++) {
        memcpy(words, line, sizeof line);
        for (char *word = strtok_r(words, " ", &rest); word != NULL; word = strtok_r(NULL, " ", &rest)) {
            same += strcmp(word, before) == 0;
            memcpy(before, word, strlen(word) + 1);
        }
    }
    return same;
}

static long few_blocks(long count)
{
    void **first = NULL;
    for (long i = 0; i < count; i++) {
        void **block = malloc(24);
        if (block == NULL)
            return 0;
        *block = (void *)first;
        first = block;
    }
    while (first != NULL) {
        void **next = (void **)*first;
        free((void *)first);
        first = next;
    }
    return count;
}

/* Waits for a child that `fork` returned, and says whether it ended well. */
static long waited_for(pid_t child)
{
    int status;
    return child > 0 && waitpid(child, &status, 0) == child && status == 0;
}

/* Runs this program again, which has 1,000 blocks. */
static long starts(long count)
{
    char *words[] = {"speed", "few-blocks", "1000", NULL};
    long well = 0;
    for (long i = 0; i < count; i++) {
        pid_t child = 0;
        if (posix_spawn(&child, "/proc/self/exe", NULL, NULL, words, environ) == 0)
            well += waited_for(child);
    }
    return well;
}

/* Children of their own, with a block each. */
static long forks(long count)
{
    long well = 0;
    for (long i = 0; i < count; i++) {
        pid_t child = fork();
        if (child == 0)
            exit(few_blocks(1) != 1);
        well += waited_for(child);
    }
    return well;
}

/* Children that run a program that ten folders of PATH do not have. */
static long execs(long count)
{
    long well = 0;
    setenv("PATH", "/a:/b:/c:/d:/e:/f:/g:/h:/i:/j:/bin", 1);
    for (long i = 0; i < count; i++) {
        pid_t child = fork();
        if (child == 0) {
            execlp("true", "true", (char *)NULL);
            _exit(2);
        }
        well += waited_for(child);
    }
    return well;
}

int main(int count, char **argv)
{
    static const struct {
        const char *name;
        long (*run)(long);
    } programs[] = {{"array", array},
                    {"tree", tree},
                    {"sort", sort},
                    {"blocks", blocks},
                    {"frames", frames},
                    {"calls", calls},
                    {"copies", copies},
                    {"strings", strings},
                    {"40-kb", forty_kb},
                    {"100-kb", hundred_kb},
                    {"sawtooth", sawtooth},
                    {"live", live},
                    {"text", text},
                    {"matrix", matrix},
                    {"hash", hash},
                    {"few-blocks", few_blocks},
                    {"starts", starts},
                    {"forks", forks},
                    {"execs", execs},
                    {"faults", faults},
                    {"same-fault", same_fault}};
    for (size_t i = 0; count >= 3 && i < sizeof programs / sizeof *programs; i++) {
        if (strcmp(argv[1], programs[i].name) != 0)
            continue;
        for (int j = 2; j < count; j++)
            printf("%ld\n", programs[i].run(atol(argv[j])));
        return 0;
    }
    return 2;
}

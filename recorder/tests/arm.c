/* Bugs for another processor (arm.py): each is named by the argument, and its line has the word. None is a call at the
   end of its function, which a jump may stand for. */
#include <pthread.h>
#include <signal.h>
#include <stdio.h>
#include <stdlib.h>
#include <string.h>
#include <sys/wait.h>
#include <unistd.h>

static volatile size_t ten = 10;
static char global[10];
static char *volatile kept;

/* It runs before the constructor that GCC has for `global`. */
static __attribute__((constructor)) void early(int count, char **argv)
{
    if (count > 1 && strcmp(argv[1], "early") == 0)
        ((volatile char *)global)[ten] = 1; /* early */
}

static void number_of(int value)
{
    static volatile int number;
    number = value;
}

static void heap(void)
{
    char *block = malloc(10);
    ((volatile char *)block)[ten] = 1; /* heap */
    free(block);
}

static void below(void)
{
    char *block = malloc(10);
    number_of(block[-(long)(ten / 10)]); /* below */
    free(block);
}

static void freed(void)
{
    kept = malloc(10);
    free(kept);
    ((volatile char *)kept)[3] = 1; /* freed */
}

static void twice(void)
{
    kept = malloc(10);
    free(kept);
    free(kept); /* twice */
    kept = NULL;
}

static void bad(void)
{
    kept = malloc(10);
    free(kept + ten / 5); /* bad */
    kept = NULL;
}

static void stack(void)
{
    volatile char local[10];
    memset((char *)local, 0, sizeof local);
    local[ten] = 1; /* stack */
}

static void variable(void)
{
    ((volatile char *)global)[ten] = 1; /* variable */
}

static void scope(void)
{
    {
        char inner[10] = "inner";
        kept = inner;
    }
    number_of(kept[2]); /* scope */
}

static void copies(void)
{
    kept = malloc(10);
    memcpy(kept, "0123456789ab", ten + 1); /* copies */
    free(kept);
}

static void prints(void)
{
    kept = malloc(10);
    snprintf(kept, ten + 5, "%d and %s", 123456, "more"); /* prints */
    free(kept);
}

static void compares(void)
{
    kept = malloc(10);
    memset(kept, 'a', 10);
    number_of(strncmp(kept, "aaaaaaaaaaaaaaa", ten + 4)); /* compares */
    free(kept);
}

static void *in_thread(void *block)
{
    ((volatile char *)block)[ten] = 1; /* thread */
    return NULL;
}

static void thread(void)
{
    pthread_t other;
    char *block = malloc(10);
    if (pthread_create(&other, NULL, in_thread, block) == 0)
        pthread_join(other, NULL);
    free(block);
}

static void child(void)
{
    char *block = malloc(10);
    if (fork() == 0) {
        ((volatile char *)block)[ten] = 1; /* child */
        exit(0);
    }
    wait(NULL);
    free(block);
}

static void on_signal(int number)
{
    ((volatile char *)kept)[ten + (size_t)number * 0] = 1; /* handler */
}

static void handler(void)
{
    kept = malloc(10);
    signal(SIGUSR1, on_signal);
    raise(SIGUSR1);
    free(kept);
}

static __attribute__((noinline)) char *returned(void)
{
    char local[10] = "local";
    kept = local;
    return kept;
}

static void returns(void)
{
    number_of(returned()[2]); /* returns */
}

static void leak(void)
{
    kept = malloc(10);
    kept = NULL;
}

static void null(void)
{
    char *nowhere = (char *)(ten - 10);
    *(volatile char *)nowhere = 1; /* null */
}

/* Threads and children that allocate, and none does wrong. */
static void *allocate(void *unused)
{
    char *blocks[50];
    for (int i = 0; i < 50; i++)
        blocks[i] = malloc((size_t)i * 7 + 1);
    for (int i = 0; i < 50; i++)
        free(blocks[i]);
    return unused;
}

static void good(void)
{
    for (int i = 0; i < 20; i++) {
        pthread_t threads[4];
        for (int j = 0; j < 4; j++)
            pthread_create(&threads[j], NULL, allocate, NULL);
        for (int j = 0; j < 4; j++)
            pthread_join(threads[j], NULL);
        if (i % 10 == 0 && fork() == 0) {
            allocate(NULL);
            exit(0);
        }
    }
    while (wait(NULL) > 0)
        ;
    static char wide[10000];
    char *volatile low = wide + 1000, *volatile high = wide + 9000;
    number_of((int)(high - low)); /* both are of one global */
}

static const struct bug {
    const char *name;
    void (*run)(void);
} bugs[] = {{"heap", heap}, {"below", below}, {"freed", freed}, {"twice", twice}, {"bad", bad}, {"stack", stack},
            {"variable", variable}, {"scope", scope}, {"copies", copies}, {"prints", prints}, {"compares", compares},
            {"thread", thread}, {"child", child}, {"handler", handler}, {"returns", returns}, {"leak", leak},
            {"null", null}, {"good", good}};

int main(int count, char **argv)
{
    for (size_t i = 0; count > 1 && i < sizeof bugs / sizeof *bugs; i++)
        if (strcmp(bugs[i].name, argv[1]) == 0)
            bugs[i].run();
    return 0;
}

/* One fault a run, for ASANCOL_HALT: `halts NAME`. Without a fault it ends with status 0. */
#define _GNU_SOURCE
#include <pthread.h>
#include <sanitizer/asan_interface.h>
#include <stdio.h>
#include <stdlib.h>
#include <string.h>
#include <sys/wait.h>
#include <unistd.h>

static volatile int sink, eight = 8;
volatile char global[8];

static char *hide(void *pointer)
{
    __asm__ volatile("" : "+r"(pointer) : : "memory");
    return pointer;
}

static void nothing(void)
{
    char *block = hide(malloc(8));
    block[7] = 1;
    free(block);
}

static void heap(void)
{
    hide(malloc(8))[eight] = 1;
}

static void freed(void)
{
    char *block = hide(malloc(8));
    free(block);
    sink = hide(block)[3];
}

static void freed_long_ago(void)
{
    char *block = hide(malloc(8));
    free(block);
    for (int i = 0; i < 20000; i++)
        free(hide(malloc(16)));
    sink = hide(block)[3];
}

static void twice(void)
{
    char *block = hide(malloc(8));
    free(block);
    free(hide(block));
}

static void inside(void)
{
    free(hide(malloc(64)) + 16);
}

static void reallocated(void)
{
    char *block = hide(malloc(8));
    free(block);
    sink = realloc(hide(block), 20) != NULL;
}

static void stack(void)
{
    volatile char local[8];
    local[eight] = 1;
    sink = local[0];
}

static void of_global(void)
{
    global[eight] = 1;
}

static void by_function(void)
{
    memset(hide(malloc(8)), 1, (size_t)eight + 1);
}

static void poisoned(void)
{
    char *block = hide(malloc(64));
    __asan_poison_memory_region(block + 16, 8);
    block[16] = 1;
}

/* A child of vfork that faults ends, and its parent still halts at its own fault. */
static void of_vfork(void)
{
    int status = 0;
    pid_t started = vfork();
    if (started == 0) {
        heap();
        _exit(0);
    }
    waitpid(started, &status, 0);
    if (WIFSIGNALED(status))
        heap();
}

/* A fault in a thread that is to be cancelled. */
static void *fault_when_cancelled(void *unused)
{
    pthread_setcancelstate(PTHREAD_CANCEL_DISABLE, NULL);
    pthread_cancel(pthread_self());
    pthread_setcancelstate(PTHREAD_CANCEL_ENABLE, NULL);
    heap();
    return unused;
}

static void cancelled(void)
{
    pthread_t thread;
    if (pthread_create(&thread, NULL, fault_when_cancelled, NULL) != 0)
        exit(9);
    pthread_join(thread, NULL);
}

static void child(void)
{
    int status = 0;
    if (fork() == 0) {
        heap();
        _exit(0);
    }
    wait(&status);
    exit(WIFSIGNALED(status) && WTERMSIG(status) == SIGABRT ? 7 : 9);
}

static void say_death(void)
{
    static const char text[] = "the callback\n";
    if (write(STDOUT_FILENO, text, sizeof text - 1) < 0)
        _exit(9);
}

static void with_callback(void)
{
    __sanitizer_set_death_callback(say_death);
    heap();
}

static void with_old_callback(void)
{
    __asan_set_death_callback(say_death);
    heap();
}

static pthread_barrier_t all_there;

static void *fault_at_once(void *unused)
{
    pthread_barrier_wait(&all_there);
    heap();
    return unused;
}

static void *fault_and_exit(void *unused)
{
    fault_at_once(unused);
    exit(0);
}

static void in_threads(void *run(void *))
{
    enum { THREADS = 8 };
    pthread_t started[THREADS];
    pthread_barrier_init(&all_there, NULL, THREADS);
    for (int i = 0; i < THREADS; i++)
        if (pthread_create(&started[i], NULL, run, NULL) != 0)
            exit(9);
    for (int i = 0; i < THREADS; i++)
        pthread_join(started[i], NULL);
}

static void threads(void)
{
    in_threads(fault_at_once);
}

static void threads_that_exit(void)
{
    in_threads(fault_and_exit);
}

static void after_many(void)
{
    for (int i = 0; i < 300; i++)
        free(hide(malloc(8)));
    heap();
}

int main(int count, char **argv)
{
    static const struct {
        const char *name;
        void (*run)(void);
    } runs[] = {
        {"nothing", nothing},           {"heap", heap},
        {"freed", freed},               {"freed_long_ago", freed_long_ago},
        {"twice", twice},               {"inside", inside},
        {"reallocated", reallocated},   {"stack", stack},
        {"global", of_global},          {"by_function", by_function},
        {"poisoned", poisoned},         {"child", child},
        {"with_callback", with_callback}, {"with_old_callback", with_old_callback},
        {"threads", threads},           {"threads_that_exit", threads_that_exit},
        {"after_many", after_many},
        {"of_vfork", of_vfork},         {"cancelled", cancelled},
    };
    for (size_t i = 0; i < sizeof runs / sizeof *runs; i++)
        if (count > 1 && strcmp(argv[1], runs[i].name) == 0)
            return runs[i].run(), 0;
    return 99;
}

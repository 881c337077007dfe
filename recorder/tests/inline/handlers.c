/* Faults in a handler on another stack, in a thread that a constructor starts, and in coroutines on mapped stacks:
   at -O0 eight of them. */
#define _GNU_SOURCE
#include <pthread.h>
#include <signal.h>
#include <stdlib.h>
#include <sys/mman.h>
#include <ucontext.h>

volatile int four = 4, sink;

static void *start_early(void *unused)
{
    volatile int local[4];
    local[four] = 1;
    (void)local;
    char *block = malloc(5);
    block[four + 1] = 1;
    free(block);
    return unused;
}

__attribute__((constructor)) static void before_main(void)
{
    pthread_t thread;
    if (pthread_create(&thread, NULL, start_early, NULL) != 0)
        abort();
    pthread_join(thread, NULL);
}

static void handle(int number)
{
    int local[4];
    local[four] = number;
    char *block = malloc(5);
    block[four + 1] = 1;
    free(block);
    sink = local[four - 1];
}

static ucontext_t chief, coroutine;

static void run_coroutine(void)
{
    int local[4];
    for (int i = 0; i < 3; i++) {
        local[four] = i;
        (void)local;
        swapcontext(&coroutine, &chief);
    }
}

enum { STACK = 1 << 16 };

static void *map_stack(void)
{
    return mmap(NULL, STACK, PROT_READ | PROT_WRITE, MAP_PRIVATE | MAP_ANONYMOUS, -1, 0);
}

int main(void)
{
    stack_t other = {.ss_sp = map_stack(), .ss_size = STACK};
    sigaltstack(&other, NULL);
    struct sigaction action = {.sa_handler = handle, .sa_flags = SA_ONSTACK};
    sigaction(SIGUSR1, &action, NULL);
    raise(SIGUSR1);
    for (int i = 0; i < 2; i++) {
        getcontext(&coroutine);
        coroutine.uc_stack.ss_sp = map_stack();
        coroutine.uc_stack.ss_size = STACK;
        coroutine.uc_link = &chief;
        makecontext(&coroutine, run_coroutine, 0);
        swapcontext(&chief, &coroutine);
        swapcontext(&chief, &coroutine);
        munmap(coroutine.uc_stack.ss_sp, STACK);
    }
    return 0;
}

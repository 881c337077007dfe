/* Scopes that end, alloca, arrays of variable length, and frames that are left by a jump: out of calls, and out of
   signal handlers on a stack of their own, while a timer's handler allocates. Six faults, and no more. */
#define _GNU_SOURCE
#include <alloca.h>
#include <setjmp.h>
#include <signal.h>
#include <stdlib.h>
#include <string.h>
#include <sys/time.h>

volatile int sink;
static jmp_buf back;
static sigjmp_buf back_from_handler;

__attribute__((noinline)) static void jump_from_deep(int n)
{
    char text[50];
    memset(text, n, sizeof text);
    if (n == 0)
        longjmp(back, 1);
    jump_from_deep(n - 1);
    sink = text[n % 50];
}

/* Its frame lies where those were that were left. */
__attribute__((noinline)) static void use_stack(int n)
{
    char text[300];
    for (int i = 0; i < 300; i++)
        text[i] = (char)n;
    sink = text[n % 300];
}

static void allocate_in_handler(int number)
{
    char text[64];
    memset(text, number, sizeof text);
    sink = text[number % 64];
    char *block = malloc(30);
    if (block != NULL)
        block[29] = 1;
    free(block);
}

static void jump_from_handler(int number)
{
    allocate_in_handler(number);
    siglongjmp(back_from_handler, 1);
}

__attribute__((noinline)) static void use_after_scope(void)
{
    int *pointer;
    {
        int inner[4] = {1, 2, 3, 4};
        pointer = inner;
        sink = inner[1];
    }
    sink = pointer[1];
}

__attribute__((noinline)) static void variable_lengths(int n)
{
    char array[n];
    memset(array, 0, (size_t)n);
    volatile int past = n;
    array[past] = 1;
    char *more = alloca((size_t)n);
    more[0] = 1;
    more[past] = 1;
}

__attribute__((noinline)) static void growing_arrays(int n)
{
    for (int i = 1; i < n; i++) {
        char array[i];
        array[i - 1] = 1;
        sink = array[i - 1];
    }
}

static void jumps(void)
{
    for (int i = 0; i < 50; i++) {
        if (!setjmp(back))
            jump_from_deep(i);
        use_stack(i);
    }
    stack_t other = {.ss_sp = malloc(1 << 16), .ss_size = 1 << 16};
    sigaltstack(&other, NULL);
    struct sigaction action = {.sa_handler = jump_from_handler, .sa_flags = SA_ONSTACK};
    sigaction(SIGUSR1, &action, NULL);
    for (int i = 0; i < 50; i++) {
        if (!sigsetjmp(back_from_handler, 1))
            raise(SIGUSR1);
        use_stack(i);
    }
}

static void timer(void)
{
    struct sigaction action = {.sa_handler = allocate_in_handler, .sa_flags = SA_RESTART};
    struct itimerval often = {{0, 200}, {0, 200}}, never = {{0, 0}, {0, 0}};
    sigaction(SIGALRM, &action, NULL);
    setitimer(ITIMER_REAL, &often, NULL);
    for (int i = 0; i < 100000; i++) {
        char *block = malloc((size_t)(i % 100 + 1));
        block[i % 100] = 1;
        use_stack(i % 3);
        free(block);
    }
    setitimer(ITIMER_REAL, &never, NULL);
}

int main(void)
{
    jumps();
    timer();
    use_after_scope();
    variable_lengths(13);
    variable_lengths(40);
    growing_arrays(60);
    use_stack(5);
    char *block = malloc(10);
    block[10] = 1;
    free(block);
    return 0;
}

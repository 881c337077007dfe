/* Frames that are left without their returns, in ways that no call of the compilers' announces: `left NAME`. Sound,
   except `in_block`, which has a fault in a frame in a block, and two behind the block; and those after a vfork,
   which have one in a frame that goes on. */
#define _GNU_SOURCE
#include <pthread.h>
#include <setjmp.h>
#include <signal.h>
#include <stdlib.h>
#include <string.h>
#include <sys/mman.h>
#include <sys/resource.h>
#include <sys/wait.h>
#include <ucontext.h>
#include <unistd.h>

static volatile int sink, four = 4;

/* Its frame lies where those were that were left. */
__attribute__((noinline)) static void use_stack(void)
{
    volatile char text[5000];
    for (size_t i = 0; i < sizeof text; i++)
        text[i] = 1;
    sink = text[four];
}

__attribute__((noinline)) static void exec_from_frames(void)
{
    volatile char one[64], other[200];
    char *argv[] = {"true", NULL};
    one[0] = other[0] = 1;
    sink = one[0] + other[0];
    execv("/bin/true", argv);
    _exit(1);
}

static void by_vfork(void)
{
    int status;
    pid_t child = vfork();
    if (child == 0)
        exec_from_frames();
    use_stack();
    waitpid(child, &status, 0);
}

/* A fault in a frame that has called vfork, after the child is gone. */
__attribute__((noinline)) static void fault_after(void leave(void))
{
    char text[30];
    volatile char *letters = text;
    int status;
    letters[0] = 1;
    pid_t child = vfork();
    if (child == 0)
        leave();
    waitpid(child, &status, 0);
    use_stack();
    sink = letters[30 * (four - 3)];
}

__attribute__((noinline)) static void exit_from_frames(void)
{
    volatile char text[200];
    text[0] = 1;
    sink = text[0];
    _exit(0);
}

/* Its frames lie below those that execs which fail have left. */
__attribute__((noinline)) static void exec_in_vain(void)
{
    volatile char text[200];
    char *argv[] = {"none", NULL};
    text[0] = 1;
    sink = text[0];
    execv("/none", argv);
    execl("/none", "none", (char *)NULL);
    exit_from_frames();
}

static void vfork_again(void)
{
    int status;
    pid_t child = vfork();
    if (child == 0)
        kill(getpid(), SIGKILL);
    waitpid(child, &status, 0);
    exec_from_frames();
}

static void after_exec(void)
{
    fault_after(exec_from_frames);
}

static void after_exit(void)
{
    fault_after(exit_from_frames);
}

static void after_exec_in_vain(void)
{
    fault_after(exec_in_vain);
}

static void after_nested(void)
{
    fault_after(vfork_again);
}

static void *in_thread(void *unused)
{
    fault_after(exec_from_frames);
    return unused;
}

static void after_exec_in_thread(void)
{
    pthread_t thread;
    if (pthread_create(&thread, NULL, in_thread, NULL) == 0)
        pthread_join(thread, NULL);
}

static void handle(int number)
{
    (void)number;
    fault_after(exec_from_frames);
}

/* On the thread's own stack, and on that of handlers. */
static void after_exec_in_handler(void)
{
    static char stack[1 << 16];
    stack_t other = {.ss_sp = stack, .ss_size = sizeof stack};
    struct sigaction action = {.sa_handler = handle};
    sigaction(SIGUSR1, &action, NULL);
    raise(SIGUSR1);
    sigaltstack(&other, NULL);
    action.sa_flags = SA_ONSTACK;
    sigaction(SIGUSR1, &action, NULL);
    raise(SIGUSR1);
}

/* left_object.c: checked code in a shared object. */
void fault_in_object(void leave(void));

static void after_exec_in_object(void)
{
    fault_in_object(exec_from_frames);
    use_stack();
}

/* library.c: plain code that calls back and jumps. */
void jump_over(void callback(void), jmp_buf to);

static jmp_buf back;

__attribute__((noinline)) static void with_frames(void)
{
    volatile char text[300];
    text[0] = 1;
    sink = text[0];
}

static void by_library(void)
{
    for (int i = 0; i < 10; i++)
        if (!setjmp(back))
            jump_over(with_frames, back);
    use_stack();
}

static ucontext_t chief, coroutine;
enum { STACK = 1 << 16 };

static void leave_in_the_middle(void)
{
    volatile char text[100];
    text[0] = 1;
    swapcontext(&coroutine, &chief);
    sink = text[0];
}

static void start_coroutine(void *stack, void run(void))
{
    getcontext(&coroutine);
    coroutine.uc_stack.ss_sp = stack;
    coroutine.uc_stack.ss_size = STACK;
    coroutine.uc_link = &chief;
    makecontext(&coroutine, run, 0);
    swapcontext(&chief, &coroutine);
}

static void *map(void)
{
    return mmap(NULL, STACK, PROT_READ | PROT_WRITE, MAP_PRIVATE | MAP_ANONYMOUS, -1, 0);
}

static void by_mapping(void)
{
    for (int i = 0; i < 3; i++) {
        char *stack = map();
        start_coroutine(stack, leave_in_the_middle);
        munmap(stack, STACK);
        char *again = map();
        for (int at = 0; at < STACK; at++)
            again[at] = 1;
        munmap(again, STACK);
    }
}

__attribute__((noinline)) static void recurse(int depth)
{
    volatile char text[1000];
    text[four] = 1;
    if (depth == 0)
        longjmp(back, 1);
    recurse(depth - 1);
    sink = text[four];
}

static void by_deep_jump(void)
{
    struct rlimit limit = {64 << 20, RLIM_INFINITY};
    setrlimit(RLIMIT_STACK, &limit);
    if (!setjmp(back))
        recurse(20000);
    use_stack();
}

__attribute__((noinline)) static void jump(void)
{
    volatile char text[100];
    text[0] = 1;
    sink = text[0];
    longjmp(back, 1);
}

static void fault_and_jump(void)
{
    volatile int local[4];
    local[four] = 1;
    sink = local[0];
    if (!setjmp(back))
        jump();
}

static void in_block(void)
{
    char *freed = malloc(40), *stack = malloc(STACK), *later = malloc(40);
    free(freed);
    start_coroutine(stack, fault_and_jump);
    ((volatile char *)later)[40] = 1;
    sink = ((volatile char *)freed)[3];
    free(stack);
}

/* A child's trace has the parent's blocks, and not the redzones of a stack in one of them as poison. */
static void forked(void)
{
    char *stack = malloc(STACK);
    start_coroutine(stack, leave_in_the_middle);
    if (fork() == 0) {
        memset(stack, 0, STACK);
        _exit(0);
    }
    wait(NULL);
}

int main(int count, char **argv)
{
    static const struct {
        const char *name;
        void (*run)(void);
    } runs[] = {
        {"by_vfork", by_vfork},         {"by_library", by_library}, {"by_mapping", by_mapping},
        {"by_deep_jump", by_deep_jump}, {"in_block", in_block},     {"forked", forked},
        {"after_exec", after_exec},     {"after_exit", after_exit}, {"after_exec_in_vain", after_exec_in_vain},
        {"after_nested", after_nested}, {"after_exec_in_thread", after_exec_in_thread},
        {"after_exec_in_handler", after_exec_in_handler},           {"after_exec_in_object", after_exec_in_object},
    };
    for (size_t i = 0; i < sizeof runs / sizeof *runs; i++)
        if (count > 1 && strcmp(argv[1], runs[i].name) == 0)
            return runs[i].run(), 0;
    return 99;
}

/* Stacks that the program has for itself: `switches NAME WHERE`. In each run frames are left on such a stack, as the
   name says, and then the memory is used as an ordinary array. WHERE is l, s, h or m: the stack is an array in a frame,
   or a static one, a block, or a mapping. Nothing is wrong, but in those whose name begins with `fault`. */
#define _GNU_SOURCE
#include <pthread.h>
#include <sanitizer/asan_interface.h>
#include <setjmp.h>
#include <signal.h>
#include <stdlib.h>
#include <string.h>
#include <sys/mman.h>
#include <ucontext.h>
#include <unistd.h>

enum { STACK = 1 << 16 };
static volatile int sink, four = 4;
static ucontext_t chief, coroutine, other;
static jmp_buf back;
static void *builtin_back[5];
static char *memory;

/* All of the array is its owner's. */
__attribute__((noinline)) static void use_array(void)
{
    for (size_t i = 0; i < STACK; i++)
        ((volatile char *)memory)[i] = 1;
    memset(memory, 2, STACK);
}

/* Its frame lies where those were that were left. */
__attribute__((noinline)) static void use_stack(void)
{
    volatile char text[5000];
    for (size_t i = 0; i < sizeof text; i++)
        text[i] = 1;
    sink = text[four];
}

static void make(ucontext_t *it, char *stack, size_t size, void run(void))
{
    getcontext(it);
    it->uc_stack.ss_sp = stack;
    it->uc_stack.ss_size = size;
    it->uc_link = &chief;
    makecontext(it, run, 0);
}

static void start(void run(void))
{
    make(&coroutine, memory, STACK, run);
    swapcontext(&chief, &coroutine);
}

__attribute__((noinline)) static void deep(int depth, void last(void))
{
    volatile char text[100];
    text[depth] = 1;
    if (depth == 0)
        last();
    else
        deep(depth - 1, last);
    sink = text[depth];
}

static void yields(void)
{
    swapcontext(&coroutine, &chief);
}

static void run_yields(void)
{
    volatile char text[100];
    for (int i = 0; i < 3; i++) {
        text[i] = 1;
        deep(5, yields);
    }
    sink = text[1];
}

static void ends(void)
{
    start(run_yields);
    for (int i = 0; i < 3; i++)
        swapcontext(&chief, &coroutine);
}

static void abandons(void)
{
    start(run_yields);
}

static void abandons_and_starts_again(void)
{
    for (int i = 0; i < 3; i++) {
        start(run_yields);
        use_array();
    }
}

static void go_to_chief(void)
{
    setcontext(&chief);
}

static void run_sets(void)
{
    deep(3, go_to_chief);
}

static void sets_context(void)
{
    start(run_sets);
}

/* setcontext as a jump to a frame of the same stack. */
static ucontext_t here;
static volatile int times;

static void go_here(void)
{
    setcontext(&here);
}

__attribute__((noinline)) static void jump_by_context(void)
{
    times = 0;
    getcontext(&here);
    if (times++ < 3)
        deep(10, go_here);
}

static void jumps_by_context(void)
{
    jump_by_context();
    use_stack();
    start(jump_by_context);
    use_stack();
}

static void jump_back(void)
{
    longjmp(back, 1);
}

static void run_jump_out(void)
{
    deep(3, jump_back);
}

static void start_jump_out(void)
{
    start(run_jump_out);
}

static void jumps_out(void)
{
    if (!setjmp(back))
        deep(4, start_jump_out);
    use_stack();
}

static void run_jump_within(void)
{
    volatile char text[50];
    text[0] = 1;
    if (!setjmp(back))
        deep(4, jump_back);
    use_stack();
    yields();
    sink = text[0];
}

static void jumps_within(void)
{
    start(run_jump_within);
    swapcontext(&chief, &coroutine);
}

/* From one coroutine into the other, which has swapped out. */
static jmp_buf in_first;

static void run_first(void)
{
    if (!setjmp(in_first))
        deep(3, yields);
    use_stack();
}

static void jump_to_first(void)
{
    longjmp(in_first, 1);
}

static void run_second(void)
{
    deep(3, jump_to_first);
}

static void jumps_between(void)
{
    make(&coroutine, memory, STACK / 2, run_first);
    make(&other, memory + STACK / 2, STACK / 2, run_second);
    swapcontext(&chief, &coroutine);
    swapcontext(&chief, &other);
}

/* One coroutine starts another, and goes on by its end. */
static void run_inner(void)
{
    deep(3, yields);
}

static void run_outer(void)
{
    volatile char text[100];
    text[0] = 1;
    make(&other, memory, STACK / 2, run_inner);
    other.uc_link = &coroutine;
    swapcontext(&coroutine, &other);
    sink = text[0];
}

static void nests(void)
{
    make(&coroutine, memory + STACK / 2, STACK / 2, run_outer);
    swapcontext(&chief, &coroutine);
    swapcontext(&chief, &other);
}

/* Signal handlers. */
static void by_builtin(void)
{
    __builtin_longjmp(builtin_back, 1);
}

static void by_underscore(void)
{
    _longjmp(back, 1);
}

static void by_signal(void)
{
    siglongjmp(back, 1);
}

static void nothing(void)
{
}

static void (*volatile leave)(void);

static void handle(int number)
{
    (void)number;
    deep(4, leave);
}

static void raise_deep(void)
{
    raise(SIGUSR1);
}

static void set_handler(int flags)
{
    stack_t stack = {.ss_sp = memory, .ss_size = STACK};
    sigaltstack(&stack, NULL);
    struct sigaction action = {.sa_handler = handle, .sa_flags = SA_ONSTACK | SA_NODEFER | flags};
    sigaction(SIGUSR1, &action, NULL);
}

static void drop_handler(void)
{
    stack_t none = {.ss_flags = SS_DISABLE};
    signal(SIGUSR1, SIG_IGN);
    sigaltstack(&none, NULL);
}

static void handles(void)
{
    set_handler(0);
    leave = nothing;
    deep(4, raise_deep);
    drop_handler();
}

__attribute__((noinline)) static void handler_jumps(void out(void))
{
    leave = out;
    for (int i = 0; i < 3; i++) {
        if (!sigsetjmp(back, 1))
            deep(4, raise_deep);
        use_stack();
    }
}

static void handler_jumps_out(void)
{
    set_handler(0);
    handler_jumps(by_underscore);
    handler_jumps(by_signal);
    handler_jumps(jump_back);
    drop_handler();
}

__attribute__((noinline)) static void jump_by_builtin(void)
{
    if (!__builtin_setjmp(builtin_back))
        deep(4, raise_deep);
}

static void handler_jumps_by_builtin(void)
{
    set_handler(0);
    leave = by_builtin;
    jump_by_builtin();
    use_stack();
    drop_handler();
}

static void run_raise(void)
{
    volatile char text[50];
    text[0] = 1;
    if (!sigsetjmp(back, 1))
        deep(2, raise_deep);
    use_stack();
    sink = text[0];
}

/* A handler on one half jumps to a coroutine on the other. */
static void handler_jumps_to_coroutine(void)
{
    stack_t stack = {.ss_sp = memory, .ss_size = STACK / 2};
    set_handler(0);
    sigaltstack(&stack, NULL);
    leave = by_signal;
    make(&coroutine, memory + STACK / 2, STACK / 2, run_raise);
    swapcontext(&chief, &coroutine);
    drop_handler();
}

/* Threads. */
static void leave_thread(void)
{
    pthread_exit(NULL);
}

static void wait_for_end(void)
{
    pause();
}

static void *run_thread(void *last)
{
    if (last != NULL)
        deep(3, (void (*)(void))last);
    return NULL;
}

static void thread(void last(void), int cancels)
{
    pthread_attr_t with;
    pthread_t started;
    pthread_attr_init(&with);
    pthread_attr_setstack(&with, memory, STACK);
    if (pthread_create(&started, &with, run_thread, (void *)last) != 0)
        abort();
    if (cancels)
        pthread_cancel(started);
    pthread_join(started, NULL);
}

static void thread_returns(void)
{
    thread(NULL, 0);
}

static void thread_exits(void)
{
    thread(leave_thread, 0);
}

static void thread_is_cancelled(void)
{
    thread(wait_for_end, 1);
}

/* A switch of the program's own, in assembly: saves the stack pointer, and takes another. */
void switch_to(void **save, void *to);
__asm__(".text\n.globl switch_to\n.type switch_to,@function\nswitch_to:\n"
        "\tpush %rbp\n\tpush %rbx\n\tpush %r12\n\tpush %r13\n\tpush %r14\n\tpush %r15\n"
        "\tmov %rsp, (%rdi)\n\tmov %rsi, %rsp\n"
        "\tpop %r15\n\tpop %r14\n\tpop %r13\n\tpop %r12\n\tpop %rbx\n\tpop %rbp\n\tret\n.size switch_to,.-switch_to\n");
static void *main_stack, *own_stack;

static void switch_back(void)
{
    switch_to(&own_stack, main_stack);
}

static void run_own(void)
{
    volatile char text[100];
    for (int i = 0; i < 3; i++) {
        text[i] = 1;
        deep(5, switch_back);
    }
    sink = text[0];
    switch_back();
    abort();
}

static void start_own(void run(void))
{
    void **top = (void **)(memory + STACK) - 9;
    memset(top - 7, 0, 7 * sizeof *top);
    top[-1] = (void *)run;
    switch_to(&main_stack, top - 7);
}

/* Nobody sees that the frame is left for good, so the program has to say it. */
static void switches_by_itself(void)
{
    start_own(run_own);
    for (int i = 0; i < 3; i++)
        switch_to(&main_stack, own_stack);
    __asan_unpoison_memory_region(memory, STACK);
}

/* Faults, each at a frame that goes on. */
__attribute__((noinline)) static void put(volatile int *array, int at)
{
    array[at] = 1;
}

static void run_fault(void)
{
    int local[4];
    put(local, four);
    deep(3, yields);
    put(local, four);
}

static void fault_in_coroutine(void)
{
    start(run_fault);
    swapcontext(&chief, &coroutine);
}

static void put_past(void)
{
    int local[4];
    put(local, four);
}

static void fault_in_handler(void)
{
    set_handler(0);
    leave = put_past;
    deep(4, raise_deep);
    drop_handler();
}

static void fault_in_thread(void)
{
    thread(put_past, 0);
}

static void fault_in_chief(void)
{
    int local[4];
    start(run_yields);
    put(local, four);
}

static void fault_after_jump_in_coroutine(void)
{
    int local[4];
    start(run_jump_within);
    put(local, four);
}

static void fault_in_own_switch(void)
{
    int local[4];
    start_own(run_own);
    put(local, four);
    __asan_unpoison_memory_region(memory, STACK);
}

/* Redzones of its frame, and a variable whose scope has ended. */
static void run_own_fault(void)
{
    int local[4], *volatile kept;
    deep(3, switch_back);
    put(local, four);
    {
        int inner[4];
        kept = inner;
        put(inner, 0);
    }
    put(kept, 0);
    switch_back();
    abort();
}

static void fault_in_own_coroutine(void)
{
    start_own(run_own_fault);
    switch_to(&main_stack, own_stack);
    __asan_unpoison_memory_region(memory, STACK);
}

static const struct {
    const char *name;
    void (*run)(void);
} runs[] = {
#define RUN(name) {#name, name}
    RUN(ends), RUN(abandons), RUN(abandons_and_starts_again), RUN(sets_context), RUN(jumps_by_context), RUN(jumps_out),
    RUN(jumps_within), RUN(jumps_between), RUN(nests), RUN(handles), RUN(handler_jumps_out),
    RUN(handler_jumps_by_builtin), RUN(handler_jumps_to_coroutine), RUN(thread_returns), RUN(thread_exits),
    RUN(thread_is_cancelled), RUN(switches_by_itself), RUN(fault_in_coroutine), RUN(fault_in_handler),
    RUN(fault_in_thread), RUN(fault_in_chief), RUN(fault_after_jump_in_coroutine), RUN(fault_in_own_switch),
    RUN(fault_in_own_coroutine),
};

__attribute__((noinline)) static void run_with_array(void run(void))
{
    _Alignas(4096) char array[STACK];
    memory = array;
    run();
    use_array();
    sink = array[four];
}

static void run_with(void run(void), char where)
{
    static _Alignas(4096) char array[STACK];
    if (where == 'l') {
        run_with_array(run);
        return;
    }
    memory = where == 's' ? array : where == 'h' ? malloc(STACK)
             : mmap(NULL, STACK, PROT_READ | PROT_WRITE, MAP_PRIVATE | MAP_ANONYMOUS, -1, 0);
    run();
    use_array();
    use_stack();
    if (where == 'h')
        free(memory);
    if (where == 'm')
        munmap(memory, STACK);
}

int main(int count, char **argv)
{
    for (size_t i = 0; i < sizeof runs / sizeof *runs; i++)
        if (count == 3 && strcmp(argv[1], runs[i].name) == 0)
            return run_with(runs[i].run, argv[2][0]), 0;
    for (size_t i = 0; i < sizeof runs / sizeof *runs && count == 1; i++)
        if (write(1, runs[i].name, strlen(runs[i].name)) < 0 || write(1, "\n", 1) < 0)
            return 98;
    return count == 1 ? 0 : 99;
}

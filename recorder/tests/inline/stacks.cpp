/* Stacks that are not the thread's own: `stacks NAME WHERE`. On such a stack frames are left by exceptions, jumps and
   calls that do not return, or it is left and gone on with. After that each frame that goes on has its redzones, as
   has memory beside the stack: `faults_NAME` has the faults that its comment says. Frames that come later where others
   were left report nothing. WHERE is s, h or m: the stack is a static array, a block, or a mapping. */
#include <cstdlib>
#include <cstring>
#include <csetjmp>
#include <pthread.h>
#include <sanitizer/asan_interface.h>
#include <sched.h>
#include <csignal>
#include <sys/mman.h>
#include <sys/wait.h>
#include <ucontext.h>

enum { STACK = 1 << 17 };
static volatile int sink, four = 4;
static ucontext_t chief, coroutine;
static char *stack, *poisoned; /* the latter may lie between such a stack and the thread's own */
static jmp_buf to_chief, to_coroutine, inside;
/* What lies around a static stack, and one more global. */
char before_stack[64], static_stack[STACK] __attribute__((aligned(16))), behind_stack[64], other[50];

#define NOT_INLINE __attribute__((noinline))

NOT_INLINE static void put(volatile char *array, int at)
{
    array[at] = 1;
}

/* Its frame lies where those were that were left. */
NOT_INLINE static void use_stack()
{
    volatile char text[3000], more[300];
    for (size_t i = 0; i < sizeof text; i++)
        text[i] = 1;
    for (size_t i = 0; i < sizeof more; i++)
        more[i] = text[i];
    sink = more[four];
}

NOT_INLINE static void deep(int depth, void last())
{
    volatile char text[40];
    text[depth] = 1;
    if (depth == 0)
        last();
    else
        deep(depth - 1, last);
    sink = text[depth];
}

static void throws()
{
    throw 1;
}
static void jumps()
{
    longjmp(inside, 1);
}

struct guard {
    ~guard()
    {
        use_stack();
    }
};

NOT_INLINE static void throw_and_catch()
{
    volatile char text[30];
    text[0] = 1;
    try {
        guard with;
        deep(5, throws);
    } catch (int) {
        use_stack();
    }
    use_stack();
    sink = text[0];
}

NOT_INLINE static void jump_within()
{
    volatile char text[30];
    text[0] = 1;
    if (!setjmp(inside))
        deep(5, jumps);
    use_stack();
    sink = text[0];
}

/* A variable whose scope has ended when a jump leads back there. */
NOT_INLINE static void jump_to_scope()
{
    for (volatile int times = 0; times < 1;) {
        char text[30], *volatile kept = text;
        if (setjmp(inside)) {
            memset(text, 1, sizeof text);
            times = times + 1;
            put(kept, 3);
            continue;
        }
        put(kept, 4);
        break;
    }
    static volatile int again;
    if (again++ % 2 == 0)
        deep(3, jumps);
    use_stack();
}

static void leave_frames()
{
    throw_and_catch();
    jump_within();
}

/* Contexts. A fault in a frame of the coroutine, before and after it has left some. */
static void make(void run())
{
    getcontext(&coroutine);
    coroutine.uc_stack.ss_sp = stack;
    coroutine.uc_stack.ss_size = STACK;
    coroutine.uc_link = &chief;
    makecontext(&coroutine, run, 0);
    swapcontext(&chief, &coroutine);
}

static void run_leaves()
{
    volatile char text[32];
    put(text, 32);
    leave_frames();
    jump_to_scope();
    swapcontext(&coroutine, &chief);
    put(text, 32);
}

static void faults_in_context()
{
    make(run_leaves);
    swapcontext(&chief, &coroutine);
}

/* What lies beside the stack, after that. */
static void look_beside()
{
    put(other, 50);
    put(poisoned, 5);
    if (stack != static_stack)
        return;
    put(before_stack, 64);
    put(behind_stack, 64);
}

static void faults_beside_context()
{
    make(run_leaves);
    look_beside();
}

/* A coroutine that is left and gone on with by jumps: three faults in it. */
static void run_jumps()
{
    volatile char text[32];
    text[0] = 1;
    for (int i = 0; i < 3; i++)
        if (!_setjmp(to_coroutine)) {
            volatile char more[50];
            more[0] = 1;
            leave_frames();
            _longjmp(to_chief, 1);
        } else {
            put(text, 32);
        }
    for (;;)
        if (!_setjmp(to_coroutine))
            _longjmp(to_chief, 1);
}

NOT_INLINE static void go_on()
{
    volatile char text[100];
    text[0] = 1;
    if (!_setjmp(to_chief))
        _longjmp(to_coroutine, 1);
    use_stack();
    sink = text[0];
}

NOT_INLINE static void start_jumps()
{
    if (!_setjmp(to_chief))
        make(run_jumps);
    use_stack();
}

static void faults_between_jumps()
{
    start_jumps();
    for (int i = 0; i < 6; i++)
        go_on();
    look_beside();
}

/* Left for good by a jump: the memory is an array again. */
static void use_array()
{
    for (int i = 0; i < STACK; i++)
        ((volatile char *)stack)[i] = 1;
    memset(stack, 2, STACK);
}

static void left_by_jump()
{
    start_jumps();
    use_array();
}

/* Jumps of the compilers' own, on such a stack and off it. */
static void *builtin_inside[5];
static void builtin_jumps()
{
    __builtin_longjmp(builtin_inside, 1);
}

NOT_INLINE static void jump_by_builtin()
{
    if (!__builtin_setjmp(builtin_inside))
        deep(5, builtin_jumps);
    use_stack();
}

static void run_builtin()
{
    for (int i = 0; i < 3; i++)
        jump_by_builtin();
}

static void left_by_builtin()
{
    make(run_builtin);
    look_beside();
}

/* Stacks that the program goes to by itself. */
extern "C" void switch_to(void **save, void *to);
__asm__(".text\n.globl switch_to\n.type switch_to,@function\nswitch_to:\n"
        "\tpush %rbp\n\tpush %rbx\n\tpush %r12\n\tpush %r13\n\tpush %r14\n\tpush %r15\n"
        "\tmov %rsp, (%rdi)\n\tmov %rsi, %rsp\n"
        "\tpop %r15\n\tpop %r14\n\tpop %r13\n\tpop %r12\n\tpop %rbx\n\tpop %rbp\n\tret\n.size switch_to,.-switch_to\n");
static void *main_stack, *own_stack;

static void switch_back()
{
    switch_to(&own_stack, main_stack);
}

static void start_own(void run())
{
    void **top = (void **)(stack + STACK) - 9;
    memset(top - 7, 0, 7 * sizeof *top);
    top[-1] = (void *)run;
    switch_to(&main_stack, top - 7);
}

/* A fault in a frame that has left others, two times, and what lies beside. */
static void run_own()
{
    volatile char text[32];
    text[0] = 1;
    leave_frames();
    put(text, 32);
    switch_back();
    leave_frames();
    put(text, 32);
    switch_back();
}

static void faults_on_own()
{
    start_own(run_own);
    use_stack();
    switch_to(&main_stack, own_stack);
    look_beside();
    ASAN_UNPOISON_MEMORY_REGION(stack, STACK);
}

static void run_own_builtin()
{
    run_builtin();
    switch_back();
}

static void left_by_builtin_on_own()
{
    start_own(run_own_builtin);
    look_beside();
    ASAN_UNPOISON_MEMORY_REGION(stack, STACK);
}

/* A jump out of it, to the frame that has begun it, which has a fault. */
static void run_jump_out()
{
    volatile char text[32];
    text[0] = 1;
    deep(4, [] { longjmp(to_chief, 1); });
    sink = text[0];
}

static void faults_after_jump_out()
{
    volatile char text[32];
    text[0] = 1;
    if (!setjmp(to_chief))
        start_own(run_jump_out);
    use_stack();
    look_beside();
    ASAN_UNPOISON_MEMORY_REGION(stack, STACK);
}

/* What another thread has on its stack, behind such a stack. */
static pthread_barrier_t barrier;
static void *wait_with_array(void *place)
{
    char text[32];
    *(char **)place = text;
    put(text, 0);
    pthread_barrier_wait(&barrier);
    pthread_barrier_wait(&barrier);
    return nullptr;
}

static void faults_of_others()
{
    char *theirs;
    pthread_t thread;
    pthread_barrier_init(&barrier, nullptr, 2);
    pthread_create(&thread, nullptr, wait_with_array, &theirs);
    pthread_barrier_wait(&barrier);
    start_own(run_own);
    put(theirs, 32);
    pthread_barrier_wait(&barrier);
    pthread_join(thread, nullptr);
    ASAN_UNPOISON_MEMORY_REGION(stack, STACK);
}

/* Handlers on such a stack, which the system forgets while one runs there: each leaves frames by a jump. */
static void handle(int)
{
    volatile char text[60];
    text[0] = 1;
    deep(3, [] { siglongjmp(inside, 1); });
    sink = text[0];
}

static void raises()
{
    raise(SIGUSR1);
}

static void set_handler(int flags)
{
    stack_t it = {};
    it.ss_sp = stack;
    it.ss_size = STACK;
    it.ss_flags = flags;
    sigaltstack(&it, nullptr);
    struct sigaction action = {};
    action.sa_handler = handle;
    action.sa_flags = SA_ONSTACK | SA_NODEFER;
    sigaction(SIGUSR1, &action, nullptr);
}

static void handles(int flags)
{
    for (int i = 0; i < 3; i++) {
        set_handler(flags);
        if (!sigsetjmp(inside, 1))
            deep(5 - i, raises);
        use_stack();
    }
    stack_t none = {};
    none.ss_flags = SS_DISABLE;
    sigaltstack(&none, nullptr);
    look_beside();
    use_array();
}

static void faults_after_handler()
{
    handles(0);
}
static void faults_after_disarmed()
{
    handles(1 << 31);
}

/* A child that shares the memory throws. */
static int child(void *)
{
    throw_and_catch();
    return 0;
}

static void faults_after_child()
{
    int pid = clone(child, stack + STACK, CLONE_VM | SIGCHLD, nullptr);
    waitpid(pid, nullptr, 0);
    look_beside();
}

/* Many coroutines that wait at once, one of them deep: a fault in each after it has gone on. */
enum { MANY = 1500, SMALL = 1 << 14 };
static ucontext_t many[MANY];
static int now;

static void run_one()
{
    volatile char text[32], large[9000];
    int number = now;
    large[0] = text[0] = 1;
    swapcontext(&many[number], &chief);
    put(text, 32);
    for (;;)
        swapcontext(&many[number], &chief);
}

static void faults_in_many()
{
    char *room = (char *)mmap(nullptr, (size_t)MANY * SMALL, PROT_READ | PROT_WRITE, MAP_PRIVATE | MAP_ANONYMOUS, -1,
                              0);
    for (now = 0; now < MANY; now++) {
        getcontext(&many[now]);
        many[now].uc_stack.ss_sp = room + (size_t)now * SMALL;
        many[now].uc_stack.ss_size = SMALL;
        makecontext(&many[now], run_one, 0);
        swapcontext(&chief, &many[now]);
    }
    for (int i = 0; i < MANY; i++)
        swapcontext(&chief, &many[i]);
}

static const struct {
    const char *name;
    void (*run)();
} runs[] = {
#define RUN(name)                                                                                                      \
    {                                                                                                                  \
#name, name                                                                                                    \
    }
    RUN(faults_in_context),      RUN(faults_beside_context), RUN(faults_between_jumps), RUN(left_by_jump),
    RUN(faults_on_own),          RUN(faults_after_jump_out), RUN(faults_of_others),     RUN(faults_after_handler),
    RUN(faults_after_disarmed),  RUN(faults_after_child),    RUN(faults_in_many),       RUN(left_by_builtin),
    RUN(left_by_builtin_on_own),
};

int main(int count, char **argv)
{
    char where = count > 2 ? argv[2][0] : 's';
    poisoned = (char *)mmap(nullptr, 4096, PROT_READ | PROT_WRITE, MAP_PRIVATE | MAP_ANONYMOUS, -1, 0);
    ASAN_POISON_MEMORY_REGION(poisoned, 64);
    stack = where == 's'   ? static_stack
            : where == 'h' ? (char *)malloc(STACK)
                           : (char *)mmap(nullptr, STACK, PROT_READ | PROT_WRITE, MAP_PRIVATE | MAP_ANONYMOUS, -1, 0);
    for (const auto &it : runs)
        if (count > 1 && strcmp(argv[1], it.name) == 0) {
            it.run();
            return 0;
        }
    return 99;
}

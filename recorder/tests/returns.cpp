// What goes on with frames of functions that return, or are left: each case by its name. A case that has a fault says
// so by its end, and the others are clean.
#include <pthread.h>
#include <csetjmp>
#include <csignal>
#include <cstdio>
#include <cstdlib>
#include <cstring>
#include <stdexcept>
#include <sys/wait.h>
#include <ucontext.h>
#include <unistd.h>

#define APART __attribute__((noinline))

static char *volatile kept;
static int *volatile number;
static volatile long sum;
static jmp_buf target;

APART static void keep(char *text) { kept = text; }

APART static void touch(char *bytes, int count)
{
    for (int i = 0; i < count; i++) {
        bytes[i] = (char)i;
        sum += bytes[i];
    }
}

// Faults.

APART static void text(int value)
{
    char buffer[24];
    snprintf(buffer, sizeof buffer, "n %d", value);
    keep(buffer);
}

APART static void single()
{
    int value = 5;
    number = &value;
}

APART static void large()
{
    char buffer[9000];
    memset(buffer, 1, sizeof buffer);
    keep(buffer);
}

APART static void huge()
{
    char buffer[70000];
    memset(buffer, 1, sizeof buffer);
    keep(buffer);
}

APART static void left(bool throws)
{
    char buffer[24], more[100];
    touch(more, 100);
    touch(buffer, 24);
    keep(buffer);
    if (throws)
        throw std::runtime_error("left");
    longjmp(target, 1);
}

// Its frame is of the size of that one: there is one only if those that were left were given back.
APART static void as_large()
{
    char buffer[24], more[100];
    touch(more, 100);
    touch(buffer, 24);
    keep(buffer);
}

// Frames abandoned below its own are given back.
APART static void next()
{
    char buffer[8];
    touch(buffer, 8);
}

static void load() { sum += kept[2]; }
static void past_its_end() { char buffer[24]; touch(buffer, 24); keep(buffer); sum += kept[24 + (sum & 0)]; }

static void after_a_jump()
{
    if (setjmp(target) == 0)
        left(false);
    next();
    load();
}

static void after_a_throw()
{
    try {
        left(true);
    } catch (std::exception &) {
    }
    next();
    load();
}

static void *in_a_thread(void *) { text(1); return nullptr; }

static void of_a_thread()
{
    pthread_t thread;
    pthread_create(&thread, nullptr, in_a_thread, nullptr);
    pthread_join(thread, nullptr);
    load();
}

static void in_a_child()
{
    text(1);
    int status = 0;
    pid_t child = fork();
    if (child == 0) {
        load();
        _exit(0);
    }
    waitpid(child, &status, 0);
}

static void at_a_signal(int) { text(1); }

static void of_a_handler()
{
    signal(SIGUSR1, at_a_signal);
    raise(SIGUSR1);
    load();
}

// No faults.

APART static void deep(int depth, int how)
{
    char buffer[40];
    touch(buffer, 40);
    if (depth == 0 && how == 1)
        longjmp(target, 1);
    if (depth == 0 && how == 2)
        throw std::runtime_error("deep");
    if (depth == 0)
        return;
    deep(depth - 1, how);
    touch(buffer, 40);
}

// A frame that stays, so that what a sweep would take wrongly is seen.
APART static void among_others(int depth, int how)
{
    char mine[33];
    touch(mine, 33);
    if (setjmp(target) == 0) {
        try {
            deep(depth, how);
        } catch (std::exception &error) {
            char other[50];
            touch(other, 50);
        }
    }
    touch(mine, 33);
}

static void jumps() { for (int i = 0; i < 3000; i++) among_others(i % 100, 1); }
static void throws() { for (int i = 0; i < 3000; i++) among_others(i % 60, 2); }

static void at_an_alarm(int)
{
    char buffer[100];
    touch(buffer, 100);
    deep(5, 0);
}

static void handlers()
{
    signal(SIGALRM, at_an_alarm);
    ualarm(500, 500);
    for (int i = 0; i < 2000; i++)
        deep(200, 0);
    ualarm(0, 0);
}

static sigjmp_buf out;

static void leave_handler(int)
{
    char buffer[100];
    touch(buffer, 100);
    siglongjmp(out, 1);
}

// More often than there are frames of a class.
static void left_handlers()
{
    static char room[1 << 16];
    stack_t stack = {};
    stack.ss_sp = room;
    stack.ss_size = sizeof room;
    sigaltstack(&stack, nullptr);
    struct sigaction action = {};
    action.sa_handler = leave_handler;
    action.sa_flags = SA_ONSTACK | SA_NODEFER;
    sigaction(SIGUSR1, &action, nullptr);
    for (int i = 0; i < 20000; i++)
        if (sigsetjmp(out, 1) == 0)
            raise(SIGUSR1);
        else
            next();
    as_large();
    load();
}

// More throws than there are frames, each past a frame that lies higher than the next one that is taken.
APART static void wide()
{
    char buffer[48], more[4000];
    touch(buffer, 48);
    touch(more, 10);
}

static void left_often()
{
    for (int i = 0; i < 40000; i++) {
        try {
            left(true);
        } catch (std::exception &) {
        }
        wide();
    }
    as_large();
    load();
}

static void *of_many(void *)
{
    for (int i = 0; i < 200; i++) {
        char buffer[64];
        touch(buffer, 64);
        deep(i % 50, 0);
        try {
            deep(i % 30, 2);
        } catch (std::exception &) {
            char other[70];
            touch(other, 70);
        }
    }
    return nullptr;
}

static void threads()
{
    pthread_t all[8];
    for (int i = 0; i < 5; i++) {
        for (auto &it : all)
            pthread_create(&it, nullptr, of_many, nullptr);
        for (auto &it : all)
            pthread_join(it, nullptr);
    }
}

static void forks()
{
    for (int i = 0; i < 20; i++) {
        char buffer[200];
        int status = 0;
        touch(buffer, 200);
        pid_t child = fork();
        if (child == 0) {
            deep(100, 0);
            _exit(0);
        }
        waitpid(child, &status, 0);
        touch(buffer, 200);
    }
}

static long resident()
{
    long pages = 0;
    FILE *file = fopen("/proc/self/statm", "r");
    if (file == nullptr || fscanf(file, "%*d %ld", &pages) != 1)
        return 0;
    fclose(file);
    return pages * 4096;
}

// Each uses some memory of all classes, which the next one has again.
APART static void many_sizes(int depth)
{
    char small[40], middle[900], large_one[9000];
    touch(small, 40);
    touch(middle, 900);
    touch(large_one, 9);
    if (depth > 0)
        many_sizes(depth - 1);
    touch(small, 40);
}

static void *short_thread(void *) { many_sizes(2); return nullptr; }

static void short_threads()
{
    long before = 0;
    for (int i = 0; i < 10000; i++) {
        pthread_t thread;
        if (pthread_create(&thread, nullptr, short_thread, nullptr) != 0)
            abort();
        pthread_join(thread, nullptr);
        if (i == 100)
            before = resident();
    }
    if (resident() > before + (8 << 20))
        printf("grown by %ld\n", resident() - before);
    of_a_thread();
}

// More frames of a class than there are, and then again as usual.
static void used_up()
{
    deep(12000, 0);
    deep(100, 0);
    text(1);
    load();
}

// How many KB of a fake stack are in memory.
static long resident_frames()
{
    unsigned long start, end;
    long size, sum_of_all = 0;
    bool is_there = false;
    char line[1000];
    FILE *file = fopen("/proc/self/smaps", "r");
    while (file != nullptr && fgets(line, sizeof line, file) != nullptr) {
        if (sscanf(line, "%lx-%lx ", &start, &end) == 2)
            is_there = start >= 0x510000000000 && end <= 0x518000000000;
        if (is_there && sscanf(line, "Rss: %ld", &size) == 1)
            sum_of_all += size;
    }
    fclose(file);
    return sum_of_all;
}

static pthread_barrier_t all_there, measured;

static void *deep_thread(void *)
{
    deep(9000, 0);
    many_sizes(60);
    pthread_barrier_wait(&all_there);
    pthread_barrier_wait(&measured);
    return nullptr;
}

// Threads that use much leave most of it to the system, and what they leave is found.
static void given_back()
{
    pthread_t all[8];
    pthread_barrier_init(&all_there, nullptr, 9);
    pthread_barrier_init(&measured, nullptr, 9);
    for (auto &it : all)
        pthread_create(&it, nullptr, deep_thread, nullptr);
    pthread_barrier_wait(&all_there);
    long most = resident_frames();
    pthread_barrier_wait(&measured);
    for (auto &it : all)
        pthread_join(it, nullptr);
    long least = resident_frames();
    if (most < 8 * 1024 || least > most / 4)
        printf("%ld KB, and then %ld\n", most, least);
}

static ucontext_t first, other;

APART static void half(int step)
{
    char buffer[64];
    touch(buffer, 64);
    swapcontext(&other, &first);
    touch(buffer, 64);
    sum += step;
}

static void coroutine()
{
    for (int i = 0;; i++) {
        char mine[100];
        touch(mine, 100);
        half(i);
        touch(mine, 100);
    }
}

static void start_coroutine(char *stack, size_t size)
{
    getcontext(&other);
    other.uc_stack.ss_sp = stack;
    other.uc_stack.ss_size = size;
    other.uc_link = &first;
    makecontext(&other, coroutine, 0);
}

static void switch_often()
{
    for (int i = 0; i < 300; i++) {
        char mine[64];
        touch(mine, 64);
        swapcontext(&first, &other);
        touch(mine, 64);
        among_others(i % 20, 1 + i % 2);
    }
}

static void coroutines()
{
    char *stack = (char *)malloc(1 << 17);
    for (int i = 0; i < 20; i++) {
        start_coroutine(stack, 1 << 17);
        switch_often();
    }
    free(stack);
}

static void throwing_coroutine()
{
    for (;;) {
        char mine[100];
        touch(mine, 100);
        try {
            left(true);
        } catch (std::exception &) {
        }
        wide();
        swapcontext(&other, &first);
        touch(mine, 100);
    }
}

// More throws on its stack than there are frames.
static void coroutine_throws()
{
    char *stack = (char *)malloc(1 << 17);
    getcontext(&other);
    other.uc_stack.ss_sp = stack;
    other.uc_stack.ss_size = 1 << 17;
    other.uc_link = &first;
    makecontext(&other, throwing_coroutine, 0);
    for (int i = 0; i < 20000; i++)
        swapcontext(&first, &other);
    free(stack);
    as_large();
    load();
}

// On a part of the thread's own stack.
static void inner_coroutine()
{
    char stack[1 << 17];
    start_coroutine(stack, sizeof stack);
    switch_often();
}

// One that is left for good, and has frames, as often as there are some of them.
static void left_coroutines()
{
    char *stack = (char *)malloc(1 << 17);
    for (int i = 0; i < 20000; i++) {
        start_coroutine(stack, 1 << 17);
        swapcontext(&first, &other);
    }
    free(stack);
    as_large();
    load();
}

extern "C" void *__asan_get_current_fake_stack(void);
extern "C" void *__asan_addr_is_in_fake_stack(void *stack, void *address, void **start, void **end);

static void *ask_elsewhere(void *address)
{
    return __asan_addr_is_in_fake_stack(__asan_get_current_fake_stack(), address, nullptr, nullptr);
}

// As a collector of garbage asks, which follows the addresses of a stack.
static void asked()
{
    char buffer[24], other[1];
    void *stack = __asan_get_current_fake_stack(), *start = nullptr, *end = nullptr, *elsewhere = other;
    touch(buffer, 24);
    char *real = (char *)__asan_addr_is_in_fake_stack(stack, buffer, &start, &end);
    char *own = (char *)__builtin_frame_address(0);
    bool is_found = stack != nullptr && real != nullptr && real < own && own - real < 10000
                    && start <= buffer && end > buffer;
    text(1);
    bool is_over = __asan_addr_is_in_fake_stack(stack, kept, &start, &end) == nullptr;
    bool is_none = __asan_addr_is_in_fake_stack(stack, own, &start, &end) == nullptr;
    is_none = is_none && __asan_addr_is_in_fake_stack(nullptr, buffer, &start, &end) == nullptr;
    pthread_t thread;
    pthread_create(&thread, nullptr, ask_elsewhere, buffer);
    pthread_join(thread, &elsewhere);
    if (!is_found || !is_over || !is_none || elsewhere != nullptr)
        printf("%d %d %d %p\n", is_found, is_over, is_none, elsewhere);
}

static const struct {
    const char *name;
    void (*run)();
} cases[] = {
    {"text", [] { text(3); load(); }},
    {"string", [] { text(3); sum += (long)strlen(kept); }},
    {"printed", [] { text(3); printf("%s\n", kept); }},
    {"single", [] { single(); *number = 3; }},
    {"large", [] { large(); sum += kept[100]; }},
    {"huge", [] { huge(); load(); }},
    {"past_its_end", past_its_end},
    {"after_a_jump", after_a_jump},
    {"after_a_throw", after_a_throw},
    {"of_a_thread", of_a_thread},
    {"in_a_child", in_a_child},
    {"of_a_handler", of_a_handler},
    {"jumps", jumps},
    {"throws", throws},
    {"handlers", handlers},
    {"left_handlers", left_handlers},
    {"left_often", left_often},
    {"threads", threads},
    {"forks", forks},
    {"short_threads", short_threads},
    {"used_up", used_up},
    {"given_back", given_back},
    {"coroutines", coroutines},
    {"inner_coroutine", inner_coroutine},
    {"coroutine_throws", coroutine_throws},
    {"left_coroutines", left_coroutines},
    {"asked", asked},
};

int main(int count, char **argv)
{
    for (auto &it : cases)
        if (count > 1 && strcmp(argv[1], it.name) == 0)
            it.run();
    return 0;
}

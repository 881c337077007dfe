// Threads under load, in a tenth of a second: they pass blocks to each other, start other threads, throw and jump,
// while a timer's handler allocates in whichever thread it finds. One of them still runs when the process ends. There
// are 30 faults: 12 past a block, 6 of a block that was freed, 6 past an array on the stack, and 6 double frees.
#include <atomic>
#include <csetjmp>
#include <csignal>
#include <cstdlib>
#include <cstring>
#include <map>
#include <pthread.h>
#include <string>
#include <sys/time.h>
#include <thread>
#include <vector>

enum { WORKERS = 6, ROUNDS = 400, BOXES = 16 };

static std::atomic<char *> boxes[BOXES];
static std::atomic<int> sum;
static volatile int four = 4;

static char *hide(void *pointer)
{
    __asm__ volatile("" : "+r"(pointer) : : "memory");
    return static_cast<char *>(pointer);
}

static void past_a_block()
{
    char *block = hide(std::malloc(4));
    *const_cast<volatile char *>(block + four) = 1;
    std::free(block);
}

static void freed_block()
{
    char *block = hide(std::malloc(24));
    std::free(block);
    sum += *const_cast<volatile char *>(hide(block) + four);
}

static void past_an_array()
{
    volatile char local[4];
    local[four] = 1;
    sum += local[0];
}

static void freed_twice()
{
    char *block = hide(std::malloc(24));
    std::free(block);
    std::free(hide(block));
}

__attribute__((noinline)) static void use_frame(int n)
{
    volatile char text[60];
    for (int i = 0; i < 60; i++)
        text[i] = static_cast<char>(n);
    sum += text[n % 60];
}

static void exchange(int n)
{
    std::size_t size = static_cast<std::size_t>(1 + n % 300);
    char *block = hide(std::malloc(size));
    std::memset(block, n, size);
    char *other = boxes[n % BOXES].exchange(block);
    if (other != nullptr)
        sum += other[0];
    std::free(other);
}

__attribute__((noinline)) static void throw_from_deep(int n)
{
    volatile char text[32];
    text[n % 32] = 1;
    if (n == 0)
        throw std::string("a text that does not fit into the object itself");
    throw_from_deep(n - 1);
    sum += text[n % 32];
}

__attribute__((noinline)) static void jump_from_deep(std::jmp_buf &back, int n)
{
    volatile char text[32];
    text[n % 32] = 1;
    if (n == 0)
        std::longjmp(back, 1);
    jump_from_deep(back, n - 1);
    sum += text[n % 32];
}

__attribute__((noinline)) static void jump(int n)
{
    std::jmp_buf back;
    if (setjmp(back) == 0)
        jump_from_deep(back, n % 10);
}

static void leave_frames(int n)
{
    try {
        throw_from_deep(n % 10);
    } catch (const std::string &text) {
        sum += static_cast<int>(text.size());
    }
    jump(n);
    use_frame(n);
}

static void *end_at_once(void *)
{
    past_a_block();
    use_frame(3);
    pthread_exit(nullptr);
}

static void work(int id)
{
    std::map<int, std::string> table;
    for (int i = 0; i < ROUNDS; i++) {
        exchange(id * ROUNDS + i);
        use_frame(i);
        table[i % 20] = "number " + std::to_string(i) + " of a table";
        if (i % 20 == 0)
            leave_frames(i);
        if (i % 100 == 50)
            std::thread(exchange, i).join();
    }
    past_a_block();
    freed_block();
    past_an_array();
    freed_twice();
    pthread_t last;
    if (pthread_create(&last, nullptr, end_at_once, nullptr) != 0)
        std::abort();
    pthread_join(last, nullptr);
}

static void on_tick(int number)
{
    char *block = static_cast<char *>(std::malloc(30));
    if (block != nullptr)
        block[29] = static_cast<char>(number);
    std::free(block);
    use_frame(number);
}

static void tick(long microseconds)
{
    struct itimerval often = {{0, microseconds}, {0, microseconds}};
    setitimer(ITIMER_REAL, &often, nullptr);
}

static void never_end()
{
    for (int i = 0;; i++) {
        exchange(i);
        use_frame(i % 50);
    }
}

int main()
{
    struct sigaction action = {};
    action.sa_handler = on_tick;
    action.sa_flags = SA_RESTART;
    sigaction(SIGALRM, &action, nullptr);
    tick(500);
    std::vector<std::thread> threads;
    for (int i = 0; i < WORKERS; i++)
        threads.emplace_back(work, i);
    std::thread(never_end).detach();
    for (std::thread &thread : threads)
        thread.join();
    tick(0);
    return 0;
}

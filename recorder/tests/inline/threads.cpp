// Threads that pass blocks and throw, one that starts before main, and some that end by pthread_exit: with 22 faults
// at -O0.
#include <atomic>
#include <cstdlib>
#include <map>
#include <mutex>
#include <pthread.h>
#include <string>
#include <thread>
#include <vector>

static std::mutex mutex;
static std::vector<char *> pool;
static std::atomic<int> sum;

struct Early {
    std::thread thread;
    Early() : thread([] {
        for (int i = 0; i < 2000; i++) {
            char *block = static_cast<char *>(std::malloc(20));
            block[i % 20] = 1;
            sum += block[i % 20];
            std::free(block);
        }
    })
    {
    }
};

static Early early;

__attribute__((noinline)) static void use_frame(int n)
{
    volatile char text[40];
    for (int i = 0; i < 40; i++)
        text[i] = static_cast<char>(n);
    sum += text[n % 40];
}

static void exchange(char *block, int n)
{
    std::lock_guard<std::mutex> guard(mutex);
    pool.push_back(block);
    if (pool.size() <= 50)
        return;
    char *other = pool[static_cast<size_t>(n) % pool.size()];
    pool.erase(pool.begin() + n % static_cast<long>(pool.size()));
    sum += other[0];
    other[1] = 2;
    std::free(other);
}

static void sound(int id)
{
    std::map<int, std::string> table;
    for (int i = 0; i < 3000; i++) {
        char *block = static_cast<char *>(std::malloc(static_cast<size_t>(16 + i % 100)));
        block[0] = static_cast<char>(id);
        block[15 + i % 100] = 1;
        use_frame(i);
        exchange(block, i);
        table[i % 50] = std::to_string(i);
        if (i % 500 == 0) {
            try {
                throw i;
            } catch (int) {
            }
        }
    }
}

static void *faulty(void *)
{
    char *block = static_cast<char *>(std::malloc(8));
    block[8] = 1;
    std::free(block);
    volatile char local[4];
    volatile int four = 4;
    local[four] = 1;
    (void)local;
    pthread_exit(nullptr);
}

int main()
{
    std::vector<std::thread> threads;
    for (int i = 0; i < 6; i++)
        threads.emplace_back(sound, i);
    for (std::thread &thread : threads)
        thread.join();
    for (int i = 0; i < 10; i++) {
        pthread_t thread;
        if (pthread_create(&thread, nullptr, faulty, nullptr) != 0)
            return 9;
        pthread_join(thread, nullptr);
    }
    std::thread([] {
        volatile int *numbers = new int[3];
        numbers[3] = 1;
        delete[] numbers;
        numbers[0] = 2;
    }).join();
    early.thread.join();
    for (char *block : pool)
        std::free(block);
    return 0;
}

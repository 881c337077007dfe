/* C++: exceptions, operators new, thread-local objects, and the order in which objects end. */
#include <atomic>
#include <csetjmp>
#include <csignal>
#include <cstdint>
#include <exception>
#include <fstream>
#include <functional>
#include <future>
#include <iostream>
#include <map>
#include <memory>
#include <new>
#include <sstream>
#include <stdexcept>
#include <string>
#include <thread>
#include <typeinfo>
#include <vector>

#include <sys/wait.h>

#include "alone.h"

namespace
{

struct Speaker {
    const char *name;
    explicit Speaker(const char *it) : name(it)
    {
        say("begin %s", name);
    }
    Speaker(const Speaker &) = delete;
    Speaker &operator=(const Speaker &) = delete;
    ~Speaker()
    {
        say("end %s", name);
    }
};

void ends_as(const char *what, const std::function<void()> &run)
{
    pid_t child = fork();
    if (child == 0) {
        run();
        exit(100);
    }
    say_end(what, child);
}

[[gnu::noinline]] void throws(int depth)
{
    Speaker here("frame");
    if (depth == 0)
        throw std::runtime_error("deep");
    throws(depth - 1);
}

SITUATION(exceptions)
{
    try {
        throws(3);
    } catch (const std::exception &it) {
        say("%s %s", it.what(), typeid(it).name());
    }
    try {
        try {
            throw 5;
        } catch (int it) {
            say("%d, uncaught %d", it, std::uncaught_exceptions());
            throw;
        }
    } catch (...) {
        std::exception_ptr kept = std::current_exception();
        try {
            std::rethrow_exception(kept);
        } catch (int it) {
            say("again %d", it);
        }
    }
    for (int i = 0; i < 1000; i++) {
        try {
            std::vector<int>(3).at(7 + (size_t)i);
        } catch (const std::out_of_range &) {
        }
    }
    try {
        std::throw_with_nested(std::logic_error("outer"));
    } catch (const std::logic_error &it) {
        say("%s", it.what());
    }
}

SITUATION(exceptions_not_caught)
{
    ends_as("int", [] { throw 5; });
    ends_as("runtime_error", [] { throw std::runtime_error("not caught"); });
    ends_as("noexcept", []() noexcept { throws(0); });
    ends_as("terminate", [] { std::terminate(); });
    ends_as("handler", [] {
        std::set_terminate([] {
            say("terminate handler");
            _exit(3);
        });
        throw 5;
    });
    ends_as("returning handler", [] {
        std::set_terminate([] { say("terminate handler"); });
        throw 5;
    });
    ends_as("joinable thread", [] { std::thread unjoined([] {}); });
    ends_as("in a thread", [] { std::thread([] { throw 6; }).join(); });
    ends_as("rethrow", [] { throw; });
    ends_as("in atexit", [] {
        atexit([] { throw 7; });
        exit(0);
    });
}

SITUATION(exceptions_in_threads)
{
    std::thread([] {
        try {
            throws(1);
        } catch (const std::exception &it) {
            say("%s", it.what());
        }
    }).join();
    auto later = std::async(std::launch::async, []() -> int { throw std::logic_error("later"); });
    try {
        later.get();
    } catch (const std::logic_error &it) {
        say("%s", it.what());
    }
}

int compare_and_throw(const void *, const void *)
{
    throw 8;
}

SITUATION(exceptions_through_c)
{
    int numbers[] = {3, 1, 2};
    try {
        Speaker here("beside qsort");
        qsort(numbers, 3, sizeof *numbers, compare_and_throw);
    } catch (int it) {
        say("%d", it);
    }
}

int handled;

SITUATION(new_handlers)
{
    volatile size_t huge = (size_t)1 << 62;
    std::set_new_handler([] {
        say("new handler %d", ++handled);
        if (handled == 3)
            std::set_new_handler(nullptr);
    });
    try {
        hide(::operator new(huge));
    } catch (const std::bad_alloc &it) {
        say("%s", it.what());
    }
    say("%d", hide(::operator new(huge, std::nothrow)) == nullptr);
    volatile long negative = -5;
    try {
        hide(new int[(size_t)negative]);
    } catch (const std::bad_array_new_length &it) {
        say("%s", it.what());
    }
    try {
        std::vector<char> many(huge);
    } catch (const std::exception &it) {
        say("%s", it.what());
    }
    void *nothing = ::operator new(0);
    say("%d", nothing != nullptr);
    ::operator delete(nothing);
    struct alignas(256) Wide {
        char bytes[256];
    };
    Wide *wide = new Wide;
    say("%d", (int)((uintptr_t)wide % 256));
    delete wide;
}

Speaker &local_object()
{
    thread_local Speaker object("thread-local");
    return object;
}

Speaker &static_object()
{
    static Speaker object("static");
    return object;
}

SITUATION(ends_of_objects)
{
    Speaker not_ended("on the stack of an exit");
    local_object();
    static_object();
    std::thread([] {
        local_object();
        Speaker here("on the stack of a thread");
    }).join();
    exit(3);
}

SITUATION(ends_of_objects_at_quick_exit)
{
    local_object();
    static_object();
    std::quick_exit(4);
}

SITUATION(ends_of_objects_of_other_threads)
{
    static std::atomic<bool> has_begun{false};
    std::thread([] {
        local_object();
        has_begun = true;
        for (;;)
            pause();
    }).detach();
    while (!has_begun)
        usleep(100);
    static_object();
}

void *runs_to_its_exit(void *it)
{
    Speaker here("beside pthread_exit");
    local_object();
    try {
        pthread_exit(it);
    } catch (...) {
        say("unwound");
        throw;
    }
}

void *runs_to_its_cancellation(void *it)
{
    Speaker here("beside a cancellation");
    pause();
    return it;
}

SITUATION(ends_of_threads)
{
    TELL(pthread_join(begin(runs_to_its_exit, nullptr), nullptr));
    pthread_t other = begin(runs_to_its_cancellation, nullptr);
    usleep(5000);
    int error = pthread_cancel(other);
    TELL(pthread_join(other, nullptr));
    say("%d", error);
}

struct Base {
    virtual ~Base() = default;
};
struct Derived : Base {
};

SITUATION(types)
{
    std::unique_ptr<Base> it(new Derived);
    say("%d %s", dynamic_cast<Derived *>(it.get()) != nullptr, typeid(*it.get()).name());
    Base *volatile none = nullptr;
    try {
        say("%s", typeid(*none).name());
    } catch (const std::bad_typeid &what) {
        say("%s", what.what());
    }
    try {
        Base plain;
        dynamic_cast<Derived &>(plain);
    } catch (const std::bad_cast &what) {
        say("%s", what.what());
    }
}

SITUATION(streams)
{
    std::cout << "one " << 5 << ' ' << 1.5 << std::endl;
    printf("two\n");
    std::cerr << "to error\n";
    std::clog << "to the log\n";
    std::cout << "three\n";
    std::ofstream("file") << "text";
    std::ifstream missing("nonexistent");
    say("%d", missing.good());
    std::ostringstream text;
    text << std::hex << 255;
    say("%s", text.str().c_str());
    int number = 0;
    say("%d", (bool)(std::cin >> number));
    std::cout.sync_with_stdio(false);
    std::cout << "not flushed";
}

SITUATION(locales_of_plus)
{
    try {
        std::locale missing("xx_YY");
    } catch (const std::runtime_error &it) {
        say("%s", it.what());
    }
    say("%s", std::locale().name().c_str());
    say("%s", std::locale("").name().c_str());
}

SITUATION(threads_of_plus)
{
    std::atomic<int> sum{0};
    std::vector<std::thread> all;
    for (int i = 0; i < 10; i++)
        all.emplace_back([&sum, i] { sum += i; });
    for (auto &it : all)
        it.join();
    say("%d", sum.load());
    say("%d", std::thread::hardware_concurrency() > 0);
    std::promise<int> promise;
    std::thread giver([&promise] { promise.set_value(6); });
    say("%d", promise.get_future().get());
    giver.join();
    try {
        std::thread().join();
    } catch (const std::system_error &it) {
        say("%s", it.what());
    }
}

#if defined __GNUC__ && !defined __clang__
#pragma GCC optimize("non-call-exceptions")
#endif

void throws_in_handler(int)
{
    sigset_t all;
    sigemptyset(&all);
    sigprocmask(SIG_SETMASK, &all, nullptr);
    throw 11;
}

SITUATION(exceptions_from_handlers)
{
    signal(SIGUSR1, throws_in_handler);
    for (int i = 0; i < 3; i++) {
        try {
            Speaker here("beside a signal");
            raise(SIGUSR1);
        } catch (int it) {
            say("%d", it);
        }
    }
}

__attribute__((init_priority(150))) std::string early = "early";
std::string normally = early + " and later";
std::map<int, std::string> table = {{1, "one"}, {2, "two"}};

SITUATION(objects_at_start)
{
    say("%s, %s, %zu", early.c_str(), normally.c_str(), table.size());
}

} // namespace

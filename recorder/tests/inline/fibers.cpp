/* Fibers of C++: `fibers NAME`. Each is sound except the faults that its comment says, all of them in frames that go
   on. The stack is a static array, and is one again at the end. */
#include <cstdlib>
#include <cstring>
#include <exception>
#include <stdexcept>
#include <string>
#include <sanitizer/common_interface_defs.h>
#include <signal.h>
#include <ucontext.h>
#if __cpp_impl_coroutine
#include <coroutine>
#endif
#ifdef OF_BOOST
#include <boost/context/fiber.hpp>
#include <boost/context/protected_fixedsize_stack.hpp>
#endif

enum { STACK = 1 << 16 };
alignas(4096) static char memory[STACK];
static volatile int four = 4, sink;
static ucontext_t chief, coroutine;

__attribute__((noinline)) static void put(volatile int *array, int at)
{
    array[at] = 1;
}

__attribute__((noinline)) static void use_stack()
{
    volatile char text[5000];
    for (size_t i = 0; i < sizeof text; i++)
        text[i] = 1;
    sink = text[four];
}

__attribute__((noinline)) static void throw_deep(int depth)
{
    volatile char text[100];
    text[depth] = 1;
    if (depth == 0)
        throw std::runtime_error("thrown");
    throw_deep(depth - 1);
    sink = text[0];
}

__attribute__((noinline)) static void throw_and_catch()
{
    try {
        throw_deep(5);
    } catch (std::exception &error) {
        sink = error.what()[0];
    }
    use_stack();
}

static void start(void run())
{
    getcontext(&coroutine);
    coroutine.uc_stack.ss_sp = memory;
    coroutine.uc_stack.ss_size = STACK;
    coroutine.uc_link = &chief;
    makecontext(&coroutine, run, 0);
    swapcontext(&chief, &coroutine);
}

/* Exceptions in a context. A fault in the frame that has started it. */
static void run_throws()
{
    for (int i = 0; i < 3; i++) {
        volatile char text[100];
        text[0] = 1;
        throw_and_catch();
        swapcontext(&coroutine, &chief);
        sink = text[0];
    }
}

static void throws()
{
    int local[4];
    start(run_throws);
    swapcontext(&chief, &coroutine);
    put(local, four);
}

/* An exception that is given from a context to the one that has started it. */
static std::exception_ptr given;

static void run_gives()
{
    try {
        throw_deep(5);
    } catch (...) {
        given = std::current_exception();
    }
}

static void gives()
{
    start(run_gives);
    try {
        std::rethrow_exception(given);
    } catch (std::exception &error) {
        sink = error.what()[0];
    }
    use_stack();
}

/* An exception out of a handler on this memory. */
static void handle(int)
{
    throw_deep(3);
}

__attribute__((noinline)) static void raise_deep(int depth)
{
    void (*volatile caught)(int) = reinterpret_cast<void (*)(int)>(raise);
    volatile char text[100];
    text[depth] = 1;
    if (depth == 0)
        caught(SIGUSR1);
    else
        raise_deep(depth - 1);
    sink = text[0];
}

static void handler_throws()
{
    stack_t stack = {}, none = {};
    stack.ss_sp = memory;
    stack.ss_size = STACK;
    none.ss_flags = SS_DISABLE;
    sigaltstack(&stack, nullptr);
    struct sigaction action = {};
    action.sa_handler = handle;
    action.sa_flags = SA_ONSTACK | SA_NODEFER;
    sigaction(SIGUSR1, &action, nullptr);
    for (int i = 0; i < 3; i++) {
        try {
            raise_deep(4);
        } catch (std::exception &error) {
            sink = error.what()[0];
        }
        use_stack();
    }
    sigaltstack(&none, nullptr);
}

/* A switch in assembly, which says where it goes as it does for AddressSanitizer. Two faults before and after a switch
   in the fiber, and one in the frame that has started it. */
extern "C" void switch_to(void **save, void *to);
__asm__(".text\n.globl switch_to\n.type switch_to,@function\nswitch_to:\n"
        "\tpush %rbp\n\tpush %rbx\n\tpush %r12\n\tpush %r13\n\tpush %r14\n\tpush %r15\n"
        "\tmov %rsp, (%rdi)\n\tmov %rsi, %rsp\n"
        "\tpop %r15\n\tpop %r14\n\tpop %r13\n\tpop %r12\n\tpop %rbx\n\tpop %rbp\n\tret\n.size switch_to,.-switch_to\n");
static void *main_stack, *fiber_stack;
static const void *main_bottom;
static size_t main_size;

__attribute__((noinline)) static void fiber_back(bool ends)
{
    void *save;
    __sanitizer_start_switch_fiber(ends ? nullptr : &save, main_bottom, main_size);
    switch_to(&fiber_stack, main_stack);
    __sanitizer_finish_switch_fiber(save, nullptr, nullptr);
}

static void run_fiber()
{
    int local[4];
    __sanitizer_finish_switch_fiber(nullptr, &main_bottom, &main_size);
    put(local, four);
    fiber_back(false);
    put(local, four);
    throw_and_catch();
    fiber_back(true);
    abort();
}

__attribute__((noinline)) static void fiber_on()
{
    const void *bottom;
    size_t size;
    void *save;
    __sanitizer_start_switch_fiber(&save, memory, STACK);
    switch_to(&main_stack, fiber_stack);
    __sanitizer_finish_switch_fiber(save, &bottom, &size);
    if (save != nullptr || bottom != memory || size != STACK)
        abort();
}

static void says_its_switches()
{
    int local[4];
    void **top = reinterpret_cast<void **>(memory + STACK) - 9;
    memset(top - 7, 0, 7 * sizeof *top);
    top[-1] = reinterpret_cast<void *>(run_fiber);
    fiber_stack = top - 7;
    fiber_on();
    use_stack();
    fiber_on();
    const char *here = reinterpret_cast<const char *>(local), *bottom = static_cast<const char *>(main_bottom);
    if (here < bottom || here >= bottom + main_size)
        abort();
    put(local, four);
}

/* A coroutine, whose frame is a block: a fault in it after it was destroyed. */
static void generates()
{
#if __cpp_impl_coroutine
    struct generator {
        struct promise_type {
            int value = 0;
            generator get_return_object() { return {std::coroutine_handle<promise_type>::from_promise(*this)}; }
            std::suspend_always initial_suspend() { return {}; }
            std::suspend_always final_suspend() noexcept { return {}; }
            std::suspend_always yield_value(int given) { value = given; return {}; }
            void return_void() {}
            void unhandled_exception() { std::terminate(); }
        };
        std::coroutine_handle<promise_type> handle;
    };
    auto count = [](int to) -> generator {
        int kept[8] = {};
        for (int i = 0; i < to; i++) {
            kept[i % 8] = i;
            throw_and_catch();
            co_yield kept[i % 8];
        }
    };
    generator it = count(20);
    for (int i = 0; i < 10; i++) {
        it.handle.resume();
        use_stack();
        sink = it.handle.promise().value;
    }
    int *value = &it.handle.promise().value;
    it.handle.destroy();
    put(value, 0);
#endif
}

/* Boost.Context, with two kinds of stacks: each time a fault in the fiber, before the first exception there, and one in
   the frame that has started it. The fiber is unwound when it is dropped. */
#ifdef OF_BOOST
namespace context = boost::context;

struct in_memory {
    typedef context::stack_traits traits_type;
    context::stack_context allocate()
    {
        context::stack_context made;
        made.sp = memory + STACK;
        made.size = STACK;
        return made;
    }
    void deallocate(context::stack_context &) noexcept {}
};

template <typename stack> static void of_boost_with(stack allocator)
{
    context::fiber it{std::allocator_arg, allocator, [](context::fiber &&from) {
        for (;;) {
            int local[4];
            put(local, four);
            throw_and_catch();
            from = std::move(from).resume();
            local[0] = 1;
            sink = local[0];
        }
        return std::move(from);
    }};
    int local[4];
    it = std::move(it).resume();
    it = std::move(it).resume();
    put(local, four);
}

static void of_boost()
{
    of_boost_with(in_memory());
    of_boost_with(context::protected_fixedsize_stack(STACK));
}
#endif

int main(int, char **argv)
{
    std::string name = argv[1];
    if (name == "throws") throws();
    if (name == "gives") gives();
    if (name == "handler_throws") handler_throws();
    if (name == "says_its_switches") says_its_switches();
    if (name == "generates") generates();
#ifdef OF_BOOST
    if (name == "of_boost") of_boost();
#endif
    use_stack();
    for (char &byte : memory)
        *const_cast<volatile char *>(&byte) = 1;
    return 0;
}

// Exceptions and destructors across bad accesses, also out of a callback; containers, and coroutines.
#include <cstdio>
#include <map>
#include <memory>
#include <string>
#include <vector>

#include "bad.h"

#if __cplusplus >= 202002L && __has_include(<coroutine>)
#include <coroutine>
#define HAS_COROUTINES 1
#endif

struct touching {
    int *at;
    ~touching()
    {
        *at += 1;
    }
};

APART long throws(int *p, int value)
{
    long sum = *p;
    touching it{p};
    try {
        sum += *p;
        touching inner{p};
        if (value)
            throw value;
        sum += p[1];
    } catch (int thrown) {
        sum += *p + thrown;
    }
    return sum + *p;
}

APART long deep(int *p, int depth)
{
    if (depth == 0)
        throw 1L;
    char local[16] = {0};
    local[depth & 15] = 1;
    long sum = *p + deep(p, depth - 1);
    return sum + local[depth & 15] + *p;
}

static volatile bool is_throwing;

static void on_report(const char *)
{
    if (is_throwing) {
        is_throwing = false;
        throw 2.5;
    }
}

// The callback comes from the access, which the compiler does not know to throw: so the call is by a pointer.
APART long access(int *p, int *q)
{
    long sum = *p;
    *q = 1;
    return sum + *q;
}

static long (*volatile access_unknown)(int *, int *) = access;

static long out_of_callback(int *p, int *q)
{
    volatile long sum = 5;
    is_throwing = true;
    try {
        touching it{q};
        sum = sum + access_unknown(p, q) * zero + 100;
    } catch (double thrown) {
        sum = sum + long(thrown * 2);
    }
    is_throwing = false;
    return sum;
}

struct base {
    virtual ~base() = default;
    virtual long number() const
    {
        return kept;
    }
    long kept = 3;
};

struct derived : base {
    long number() const override
    {
        return kept + more;
    }
    long more = 4;
};

APART long virtually(const base *p)
{
    return p->kept + p->kept;
}

APART long members(derived *p)
{
    long sum = p->more;
    p->kept = 1;
    return sum + p->kept + p->more;
}

static long containers()
{
    std::vector<int> numbers{1, 2, 3};
    numbers.reserve(8);
    long sum = numbers.data()[3];
    int *before = numbers.data();
    for (int i = 0; i < 9; i++)
        numbers.push_back(i);
    sum += before[0] + before[1];
    std::string text = "a string that is not short at all";
    const char *start = text.c_str();
    text += text;
    sum += start[0] + start[1];
    std::map<int, int> table{{1, 2}};
    int *value = &table[1];
    table.clear();
    sum += *value + *value;
    auto pointer = std::make_unique<derived>();
    derived *alone = pointer.get();
    sum += alone->number();
    pointer.reset();
    return sum + virtually(alone) + members(alone);
}

APART long by_lambda(int *p)
{
    auto add = [p, &count = p[0]](long more) { return count + p[1] + more; };
    return add(1) + add(p[0]);
}

#ifdef HAS_COROUTINES
struct task {
    struct promise_type {
        long value = 0;
        task get_return_object()
        {
            return {std::coroutine_handle<promise_type>::from_promise(*this)};
        }
        std::suspend_never initial_suspend() noexcept
        {
            return {};
        }
        std::suspend_always final_suspend() noexcept
        {
            return {};
        }
        std::suspend_always yield_value(long number) noexcept
        {
            value = number;
            return {};
        }
        void return_void()
        {
        }
        void unhandled_exception()
        {
        }
    };
    std::coroutine_handle<promise_type> handle;
};

static task steps(int *p)
{
    for (int i = 0; i < 3; i++) {
        int local[2] = {i, i};
        co_yield p[i] + local[zero];
        p[i] = 1;
    }
}

static long coroutines(int *p)
{
    task it = steps(p);
    long sum = 0;
    while (!it.handle.done()) {
        sum += it.handle.promise().value;
        it.handle.resume();
    }
    it.handle.destroy();
    return sum;
}
#else
static long coroutines(int *)
{
    return 0;
}
#endif

int main()
{
    long sum = 0;
    int *one = new int(1), *old = static_cast<int *>(freed(4));
    __asan_set_error_report_callback(on_report);
    for (int round = 0; round < 3; round++) {
        for (int value = 0; value < 2; value++)
            sum += (throws(one, value) + throws(one + 1, value) + throws(old, value)) * zero;
        try {
            sum += deep(one + 1, 3);
        } catch (long thrown) {
            sum += thrown;
        }
        std::printf("%ld %ld\n", out_of_callback(one + 1, one), out_of_callback(one, old));
        sum += (containers() + by_lambda(one) + by_lambda(old) + coroutines(one)) * zero;
    }
    std::printf("%ld\n", sum);
    return 0;
}

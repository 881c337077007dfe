// Faults of C++, one a run: `new NAME`.
#include <cstdio>
#include <cstring>
#include <memory>
#include <new>
#include <stdexcept>
#include <string>
#include <vector>

template <class T> static T *hide(T *pointer)
{
    __asm__ volatile("" : "+r"(pointer) : : "memory");
    return pointer;
}

struct Shape {
    virtual ~Shape() {}
    long side = 1;
};

static volatile long sink;

static void past_new()
{
    int *p = hide(new int[4]);
    *(volatile int *)(p + 4) = 1;
    delete[] p;
}

static void after_delete()
{
    Shape *p = hide(new Shape);
    delete p;
    sink = *(volatile long *)&hide(p)->side;
}

static void twice()
{
    int *p = new int;
    delete hide(p);
    delete hide(p);
}

static void past_a_vector()
{
    std::vector<char> v(10, 'a');
    sink = *(volatile char *)(hide(v.data()) + 10);
}

static void after_growth()
{
    std::vector<long> v(4, 1);
    volatile long *first = hide(v.data());
    v.resize(1000);
    sink = first[1];
}

static void past_a_string()
{
    std::string s(40, 'a');
    sink = *(volatile char *)(hide(s.data()) + s.capacity() + 1);
}

static void past_an_aligned_new()
{
    char *p = static_cast<char *>(hide(::operator new(10, std::align_val_t(64))));
    p[10] = 1;
    ::operator delete(p, std::align_val_t(64));
}

static void past_an_aligned_array()
{
    char *p = hide(new (std::align_val_t(128), std::nothrow) char[10]);
    p[10] = 1;
    ::operator delete[](p, std::align_val_t(128), std::nothrow);
}

static void clean()
{
    std::vector<std::string> words;
    for (int i = 0; i < 100; i++)
        words.push_back(std::string((size_t)i, 'x') + "y");
    try {
        throw std::runtime_error("thrown");
    } catch (const std::exception &e) {
        words.push_back(e.what());
    }
    std::unique_ptr<Shape[]> shapes(new Shape[10]);
    struct alignas(128) Wide { char bytes[128]; };
    std::unique_ptr<Wide> wide(new Wide);
    if ((size_t)wide.get() % 128 != 0 || hide(new (std::nothrow) char[(size_t)1 << 46]) != nullptr)
        throw 1;
    try {
        sink = (long)(size_t)hide(new char[(size_t)1 << 46]);
        throw 1;
    } catch (const std::bad_alloc &) {
    }
    try {
        sink = (long)(size_t)hide(::operator new((size_t)1 << 46, std::align_val_t(64)));
        throw 1;
    } catch (const std::bad_alloc &) {
    }
}

int main(int count, char **argv)
{
    std::string name = count > 1 ? argv[1] : "";
    if (name == "past_new")
        past_new();
    else if (name == "after_delete")
        after_delete();
    else if (name == "twice")
        twice();
    else if (name == "past_a_vector")
        past_a_vector();
    else if (name == "after_growth")
        after_growth();
    else if (name == "past_a_string")
        past_a_string();
    else if (name == "past_an_aligned_new")
        past_an_aligned_new();
    else if (name == "past_an_aligned_array")
        past_an_aligned_array();
    else
        clean();
}

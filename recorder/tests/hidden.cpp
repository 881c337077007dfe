// What hidden.c has, in C++: the library compares by functions that compilers replace, and holds complex numbers. Each
// bug is one line. With `good` nothing was freed, and all blocks are large.
#include <algorithm>
#include <complex>
#include <cstdio>
#include <cstdlib>
#include <cstring>
#include <numeric>
#include <string_view>

using complex = std::complex<double>;

static bool is_good;
static volatile double sink;

static void *block(size_t size, size_t freed = 0)
{
    size_t all = is_good ? 2048 : size + freed;
    void *made = calloc(1, all);
    if (freed != 0 && !is_good)
        free(made);
    asm volatile("" : "+r"(made) : : "memory");
    return made;
}

static std::string_view dangling() { return {static_cast<char *>(block(0, 8)), 8}; }
struct Key { char bytes[16]; };
static bool operator==(const Key &one, const Key &other) { return memcmp(&one, &other, sizeof one) == 0; }

#define BUG(name) static __attribute__((noinline)) void do_##name()
BUG(starts) { std::string_view v = dangling(); sink = v.substr(0, 2) == "ab"; }
BUG(same_text) { std::string_view v = dangling(); sink = v.substr(0, 4) == std::string_view("abcd", 4); }
BUG(compared) { std::string_view v = dangling(); sink = v.compare(0, 3, "abc"); }
BUG(same_bytes) { auto *q = static_cast<char *>(block(7)); char r[8] = {}; sink = std::equal(q, q + 8, r); }
BUG(same_key) { auto *key = static_cast<Key *>(block(8)); sink = *key == Key(); }
BUG(real) { auto *q = static_cast<complex *>(block(128)); sink = q[8].real(); }
BUG(norm) { auto *q = static_cast<complex *>(block(128)); sink = std::norm(q[8]); }
BUG(set_imaginary) { auto *q = static_cast<complex *>(block(136)); q[8].imag(1); }
BUG(added) { auto *q = static_cast<complex *>(block(64)); sink = std::accumulate(q, q + 5, complex()).real(); }
BUG(set) { auto *q = static_cast<complex *>(block(64)); for (int i = 0; i <= 4; i++) q[i] = complex(i, 1); }

int main(int count, char **argv)
{
    static void (*const bugs[])() = {do_starts, do_same_text, do_compared, do_same_bytes, do_same_key, do_real, do_norm,
                                     do_set_imaginary, do_added, do_set};
    is_good = count > 1 && strcmp(argv[1], "good") == 0;
    for (auto bug : bugs)
        bug();
}

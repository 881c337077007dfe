// Faults of C++ programs, one a run: `hub NAME`.
#include <cstddef>
#include <cstring>
#include <sstream>
#include <string>
#include <vector>

namespace names
{
volatile int numbers[3];
}

static volatile int kept[2];

[[gnu::noinline]] static int *make()
{
    int *volatile p = new int[4];
    return p;
}

[[gnu::noinline]] static void give_back(int *p)
{
    delete[] p;
}

static void past_new()
{
    int *volatile p = make();
    p[4] = 1;
    give_back(p);
}

static void after_delete()
{
    int *volatile p = make();
    give_back(p);
    p[1] = 1;
}

[[gnu::noinline]] static void of_namespace()
{
    volatile int three = 3;
    names::numbers[three] = 1;
    kept[three - 1] = 1;
}

[[gnu::noinline]] static void on_stack()
{
    volatile int array[4];
    volatile int four = 4;
    array[four] = 1;
}

// What the library of C++ allocates.

[[gnu::noinline]] static void put(const char *p, long offset)
{
    const_cast<volatile char *>(p)[offset] = 1;
}

[[gnu::noinline]] static std::string make_text(std::size_t length)
{
    std::string text("a");
    text.append(length, 'b');
    return text;
}

static void uses_text()
{
    std::string made = make_text(100);
    put(made.data(), -1);
}

[[gnu::noinline]] static std::string make_words()
{
    std::ostringstream stream;
    stream << "some words that are longer than most" << 5;
    return stream.str();
}

static void uses_words()
{
    std::string made = make_words();
    put(made.data(), -1);
}

[[gnu::noinline]] static std::vector<long> make_numbers(long count)
{
    std::vector<long> numbers;
    for (long i = 0; i < count; i++)
        numbers.push_back(i);
    return numbers;
}

static void uses_numbers()
{
    std::vector<long> made = make_numbers(100);
    put(reinterpret_cast<const char *>(made.data()), -1);
}

int main(int, char **argv)
{
    if (std::strcmp(argv[1], "text") == 0)
        uses_text();
    if (std::strcmp(argv[1], "words") == 0)
        uses_words();
    if (std::strcmp(argv[1], "numbers") == 0)
        uses_numbers();
    if (std::strcmp(argv[1], "past_new") == 0)
        past_new();
    if (std::strcmp(argv[1], "after_delete") == 0)
        after_delete();
    if (std::strcmp(argv[1], "of_namespace") == 0)
        of_namespace();
    if (std::strcmp(argv[1], "on_stack") == 0)
        on_stack();
    return kept[0];
}

// new and delete, containers, strings, exceptions, virtual functions.
#include <cstdio>
#include <cstring>
#include <map>
#include <memory>
#include <stdexcept>
#include <string>
#include <vector>

static volatile int ten = 10, three = 3, sink;

struct Base {
    virtual ~Base() {}
    virtual int answer() { return 1; }
    int number = 0;
};

struct Derived : Base {
    int answer() override { return 2; }
    long numbers[3] = {1, 2, 3};
};

__attribute__((noinline)) static int throws(int n)
{
    char text[32];
    std::memset(text, n, sizeof text);
    if (n > 2)
        throw std::runtime_error("thrown");
    return text[n];
}

__attribute__((noinline)) static int throws_from_deep(int n)
{
    char text[64];
    std::memset(text, n, sizeof text);
    return n == 0 ? throws(3) : throws_from_deep(n - 1) + text[n];
}

static void new_and_delete()
{
    int *numbers = new int[10];
    numbers[ten] = 1;
    numbers[ten - 11] = 2;
    delete[] numbers;
    sink = numbers[2];
    Base *base = new Derived;
    sink = base->answer();
    sink = static_cast<int>(static_cast<Derived *>(base)->numbers[three]);
    delete base;
    sink = base->number;
    std::unique_ptr<long> owner(new long(5));
    long *left = owner.get();
    owner.reset();
    sink = static_cast<int>(*left);
}

static void containers()
{
    std::string *text = new std::string("a string that is too long to lie in the object itself");
    const char *letters = text->c_str();
    delete text;
    sink = letters[0];
    std::vector<int> numbers(5);
    int *first = numbers.data();
    sink = first[ten - 5];
    numbers.push_back(1);
    numbers.push_back(2);
    sink = first[0];
    std::map<int, std::string> table;
    for (int i = 0; i < 100; i++)
        table[i] = std::to_string(i);
    table.erase(5);
}

// The frames that an exception leaves have redzones where later frames lie.
static int exceptions()
{
    int caught = 0;
    for (int i = 0; i < 20; i++) {
        try {
            throws_from_deep(i);
        } catch (std::exception &) {
            caught++;
        }
    }
    try {
        std::vector<int>(5).at(1000);
    } catch (std::out_of_range &) {
        caught++;
    }
    char later[100];
    for (int i = 0; i < 100; i++)
        later[i] = static_cast<char>(i);
    sink = later[ten];
    sink = later[ten * 10];
    return caught;
}

int main()
{
    new_and_delete();
    containers();
    return exceptions() == 21 ? 0 : 9;
}

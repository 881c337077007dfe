// Faults inside the library of C++, in strings and streams, one a run: `strings NAME`. `strings --list` names them.
#include <cstdio>
#include <cstring>
#include <fstream>
#include <iostream>
#include <map>
#include <sstream>
#include <string>
#include <string_view>

struct test {
    const char *name;
    void (*run)();
};

static char *block;          // of 8 bytes, without a null
static char *short_block;    // of 4 bytes
static volatile size_t sink;

static std::string &gone()
{
    auto *made = new std::string("a string that is long enough for the heap");
    delete made;
    return *made;
}

static std::string_view dangling()
{
    std::string name = "a name that is long enough for the heap";
    return name;
}

static void append(const std::string &with)
{
    std::string made = "x";
    made += with;
    __asm__ volatile("" : : "r"(made.data()) : "memory"); // as if its letters were used: a copy of no use is left out
    sink = made.size();
}

static void copy_out()
{
    std::string("hello world").copy(short_block, 10);
    sink = (unsigned char)short_block[0];
}

static void keep(std::string made)
{
    static std::map<std::string, int> kept;
    kept[made] = 1;
}

static void use_after_delete()
{
    auto *stream = new std::ostringstream;
    delete stream;
    *stream << 1;
}

static const test tests[] = {
    {"construct", [] { append(std::string(block, 20)); }},
    {"append", [] { append(std::string("x").append(block, 20)); }},
    {"assign", [] { append(std::string("x").assign(block, 20)); }},
    {"add", [] { append(std::string("x") += block); }},
    {"set", [] { std::string s; s = block; append(s); }},
    {"copy", copy_out},
    {"insert", [] { append(std::string("x").insert(0, block, 20)); }},
    {"replace", [] { append(std::string("x").replace(0, 1, block, 20)); }},
    {"equal", [] { sink = std::string("x") == block; }},
    {"copy_of_gone", [] { append(std::string(gone())); }},
    {"add_gone", [] { append(gone()); }},
    {"dangling", [] { append(std::string(dangling())); }},
    {"kept", [] { keep(std::string(dangling())); }},
    {"write", [] { std::ostringstream s; s.write(block, 20); sink = s.str().size(); }},
    {"put", [] { std::ostringstream s; s << block; sink = s.str().size(); }},
    {"put_gone", [] { std::ostringstream s; s << gone(); sink = s.str().size(); }},
    {"read", [] { std::istringstream("hello world, more").read(short_block, 10); }},
    {"get", [] { std::istringstream("hello world, more").get(short_block, 10); }},
    {"readsome", [] { std::istringstream("hello world, more").readsome(short_block, 10); }},
    {"cout", [] { std::cout << block; }},
    {"cerr", [] { std::cerr << block; }},
    {"write_file", [] { std::ofstream("/dev/null").write(block, 20); }},
    {"read_file", [] { std::ifstream("/proc/self/maps").read(short_block, 10); }},
    {"use_after_delete", use_after_delete},
};

int main(int, char **argv)
{
    block = static_cast<char *>(std::memset(new char[8], 'a', 8));
    short_block = new char[4];
    for (const test &it : tests)
        if (std::strcmp(argv[1], "--list") == 0)
            std::puts(it.name);
        else if (std::strcmp(argv[1], it.name) == 0)
            it.run();
    return 0;
}

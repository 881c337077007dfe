// Stores past a global by constructors and destructors of all kinds. ORDER names the one that does so. The file with
// -DLATER has the global of a file that is linked after it.
#include <cstdlib>
#include <cstring>

extern char later[5];

#ifdef LATER
char later[5];
#else
char here[5];
static const char *const literal = "abc";
static volatile char sink;

static int hide(int number)
{
    __asm__ volatile("" : "+r"(number));
    return number;
}

static bool is_asked(const char *name)
{
    const char *asked = std::getenv("ORDER");
    return asked != nullptr && std::strcmp(asked, name) == 0;
}

static int store(const char *name, char *at)
{
    if (is_asked(name))
        at[hide(5)] = 1;
    return 1;
}

struct Stored {
    explicit Stored(const char *made, const char *gone) : gone(gone) { store(made, here); }
    ~Stored() { store(gone, here); }
    const char *gone;
};

static int initialised = store("initialiser", here) + store("later_file", later);
static Stored first __attribute__((init_priority(200)))("priority_200", "end_of_priority_200");
static Stored object("object", "end_of_object");
static int past_literal = is_asked("literal") ? (sink = literal[hide(4)], 1) : 0;
__attribute__((constructor)) static void usual() { store("constructor", here); }
__attribute__((constructor(101))) static void early() { store("constructor_101", here); }
__attribute__((destructor)) static void usual_end() { store("destructor", here); }
__attribute__((destructor(101))) static void late_end() { store("destructor_101", here); }
__attribute__((destructor(65000))) static void early_end() { store("destructor_65000", here); }
static void at_exit() { store("atexit", here); }
static int registered = std::atexit(at_exit);

extern "C" char *first_of_globals()
{
    return here + initialised * 0 + past_literal * 0 + registered * 0;
}
#endif

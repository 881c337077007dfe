/* One mistake a run, for the text of AddressSanitizer: `asan_text NAME`. */
#include <cstdlib>
#include <cstring>
#include <pthread.h>

static int numbers[10];
static volatile int zero;
static char *volatile kept;
static int *volatile of_scope;

static char *block(size_t size) { return static_cast<char *>(malloc(size)); }

static int read_after(volatile int *from, int at) { return from[at]; }

static void after() { read_after(reinterpret_cast<int *>(block(16)), 4); }

static void before() { block(12)[-3 + zero] = 1; }

static void freed() {
    char *it = new char[10];
    delete[] it;
    static_cast<volatile char *>(it)[4] = 1;
}

static void twice() {
    char *it = block(8);
    free(it);
    free(it);
}

static void inside() {
    char *it = block(8);
    free(it + 4 + zero);
}

static void array() {
    int local[4] = {1, 2, 3, 4};
    read_after(local, 4);
}

static void global() { read_after(numbers, 11); }

static void copy() {
    kept = block(5);
    strcpy(kept, static_cast<const char *>("0123456789") + zero);
}

static void scope() {
    {
        int local = 3;
        of_scope = &local;
    }
    *of_scope = 4;
}

static void *frees(void *it) {
    free(it);
    return nullptr;
}

static void thread() {
    pthread_t other;
    char *it = block(3);
    pthread_create(&other, nullptr, frees, it);
    pthread_join(other, nullptr);
    static_cast<volatile char *>(it)[1] = 1;
}

static void null() { *reinterpret_cast<volatile int *>(static_cast<size_t>(zero)) = 1; }

static void division() { zero = 7 / zero; }

static void lost() {
    kept = block(7);
    kept = new char[9];
    kept = nullptr;
}

static void overlap() {
    kept = block(8);
    memcpy(kept + zero, kept + 2, 4 + static_cast<size_t>(zero));
}

static void family() {
    int *it = new int;
    free(it);
}

struct small { char bytes[4]; };
struct large { char bytes[40]; };

static void type() { delete reinterpret_cast<large *>(new small); }

static const struct {
    const char *name;
    void (*make)();
} mistakes[] = {{"after", after}, {"before", before}, {"freed", freed}, {"twice", twice}, {"inside", inside},
                {"array", array}, {"global", global}, {"copy", copy}, {"scope", scope}, {"thread", thread},
                {"null", null}, {"division", division}, {"lost", lost}, {"overlap", overlap}, {"family", family},
                {"type", type}};

int main(int, char **arguments) {
    for (auto &it : mistakes)
        if (strcmp(it.name, arguments[1]) == 0)
            it.make();
    return 0;
}

/* One error, drawn by its arguments: `writers KIND SIZE AT WIDTH`. The report that the process is told of goes to
   writers.told, and what describes the address to writers.said. */
#include <alloca.h>
#include <cstdio>
#include <cstdlib>
#include <cstring>
#include <sanitizer/asan_interface.h>
#include <sanitizer/common_interface_defs.h>

static long size, at, width;
static char *volatile kept;
static volatile char sink;
extern char early;

static void put_text(const char *text) {
    FILE *file = fopen("writers.told", "w");
    fputs(text, file);
    fclose(file);
    __sanitizer_set_report_path("writers.said");
    __asan_describe_address(__asan_get_report_address());
    __sanitizer_set_report_path("stderr");
}

static __attribute__((noinline)) void touch(char *from) {
    char *there = from + at;
    switch (width) {
    case 1: sink = *there; break;
    case 2: *reinterpret_cast<volatile short *>(there) = 1; break;
    case 4: *reinterpret_cast<volatile int *>(there) = 1; break;
    default: sink = static_cast<char>(*reinterpret_cast<volatile long *>(there));
    }
}

static char *block() { return static_cast<char *>(malloc(static_cast<size_t>(size))); }

static void heap() { touch(block()); }

static void freed() {
    char *it = block();
    free(it);
    touch(it);
}

static void array() {
    char *it = new char[static_cast<size_t>(size)];
    delete[] it;
    touch(it);
}

static void object() {
    long *it = new long;
    delete it;
    touch(reinterpret_cast<char *>(it));
}

static void retired() {
    char *it = block();
    free(it);
    for (int i = 0; i < 40000; i++)
        free(kept = block());
    touch(it);
}

static void twice() {
    char *it = block();
    free(it);
    free(it);
}

static void inside() { free(block() + at); }

static void stray() {
    char local[16];
    kept = local;
    free(kept + at % 16);
}

static void stack() {
    char first[8], local[16], last[24];
    memset(first, 1, sizeof first);
    memset(last, 1, sizeof last);
    kept = first;
    kept = last;
    touch(local);
}

static void scope() {
    char *it;
    {
        char local[16] = "";
        it = local;
        kept = it;
    }
    touch(it);
}

static void dynamic() {
    char *it = static_cast<char *>(alloca(static_cast<size_t>(size)));
    kept = it;
    touch(it);
}

static char table[24];
static void global() { touch(table); }

static void poison() {
    char *it = block();
    __asan_poison_memory_region(it, static_cast<size_t>(size));
    touch(it);
}

static void container() {
    char *it = block();
    __sanitizer_annotate_contiguous_container(it, it + size / 8 * 8, it + size / 8 * 8, it + 8);
    touch(it);
}

static void copy() {
    char *it = block();
    memset(it + at, 1, static_cast<size_t>(width) + static_cast<size_t>(size));
}

static void text() {
    char *it = block();
    memset(it, 'a', static_cast<size_t>(size));
    sink = static_cast<char>(strlen(it));
}

static void negative() {
    char *it = block();
    memset(it, 1, static_cast<size_t>(-size));
}

static void order() { sink = early; }

static const struct {
    const char *name;
    void (*make)();
} errors[] = {{"heap", heap}, {"freed", freed}, {"array", array}, {"object", object}, {"retired", retired},
              {"twice", twice}, {"inside", inside}, {"stray", stray}, {"stack", stack}, {"scope", scope},
              {"dynamic", dynamic}, {"global", global}, {"poison", poison}, {"container", container}, {"copy", copy},
              {"text", text}, {"negative", negative}};

/* While the globals of this file get their values. */
struct first {
    first() {
        char words[256] = "";
        FILE *file = fopen("/proc/self/cmdline", "r");
        size_t length = fread(words, 1, sizeof words - 1, file), word = 0;
        fclose(file);
        __asan_set_error_report_callback(put_text);
        for (size_t i = 0; i < length; i += strlen(words + i) + 1, word++) {
            is_order |= word == 1 && strcmp(words + i, "order") == 0;
            long number = atol(words + i);
            (word == 2 ? size : word == 3 ? at : width) = number;
        }
        if (is_order)
            order();
    }
    bool is_order = false;
};

static first it;

int main(int, char **arguments) {
    for (auto &it : errors)
        if (strcmp(it.name, arguments[1]) == 0)
            it.make();
    return 0;
}

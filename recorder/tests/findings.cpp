// What the recorder finds by itself, one a run: `findings NAME`. The line of each is the one that ends with its name.
#include <cstdio>
#include <cstdlib>
#include <cstring>
#include <cwchar>
#include <malloc.h>
#include <map>
#include <memory>
#include <new>
#ifndef BRIEF
#include <regex>
#endif
#include <sanitizer/common_interface_defs.h>
#include <sstream>
#include <string>
#include <sys/resource.h>
#include <vector>

extern "C" size_t __sanitizer_get_allocated_size(const volatile void *start); // not in a header of GCC

template <class T> static T *hide(T *pointer)
{
    __asm__ volatile("" : "+r"(pointer) : : "memory");
    return pointer;
}

static size_t large(size_t size)
{
    __asm__ volatile("" : "+r"(size));
    return size;
}

struct Base {
    ~Base() {}
    int number = 1;
};
struct Derived : Base {
    long numbers[4] = {};
};
struct alignas(64) Aligned {
    char bytes[64];
};
using Alignment = std::align_val_t;
static char text[64];
static wchar_t wide[64];
static void *volatile kept;

static void fill()
{
    strcpy(text, "abcdefghijklmnopqrstuvwxyz");
    wcscpy(wide, L"abcdefghijklmnopqrstuvwxyz");
}

static void clean()
{
#ifndef BRIEF // it takes half a minute to compile with checks at -O3
    std::string letters(100, 'x');
    std::ostringstream out;
    out << letters << 3.5;
    std::map<std::string, std::vector<int>> lists;
    for (int i = 0; i < 100; i++)
        lists[std::to_string(i) + out.str()].push_back(i);
    std::regex expression("a+b*");
    printf("%d\n", std::regex_search("xaab", expression));
    std::unique_ptr<int[]> array(new int[5]);
    auto shared = std::make_shared<Derived>();
    auto room = std::get_temporary_buffer<int>(100);
    std::return_temporary_buffer(room.first);
    delete hide(new Aligned);
    delete[] hide(new Aligned[3]);
    ::operator delete(hide(::operator new(0)));
    ::operator delete(hide(::operator new(10, Alignment(64))), Alignment(64));
    ::operator delete(hide(::operator new(10, Alignment(4))));
    ::operator delete(hide(::operator new(10)), 10, Alignment(2));
    ::operator delete[](hide(::operator new[](10, std::nothrow)), std::nothrow);
    ::operator delete[](hide(::operator new[](10, Alignment(4096), std::nothrow)), Alignment(4096), std::nothrow);
    std::vector<Aligned>(100).resize(1000);
    std::make_shared<Aligned>()->bytes[0] = 1;
    kept = realloc(malloc(3), 5);
    free(kept);
    free(strdup("x"));
    free(aligned_alloc(64, 128));
    free(aligned_alloc(64, large(0)));
    delete hide(static_cast<Base *>(nullptr));
    free(nullptr);
    memcpy(hide(text), text, large(8));
    memcpy(hide(text), text + 8, large(8));
    memmove(hide(text), text + 1, large(8));
    kept = nullptr;
    printf("%zu\n", malloc_usable_size(kept));
#endif
}

static void limit()
{
    rlimit most = {64 << 20, 64 << 20};
    setrlimit(RLIMIT_DATA, &most);
}

static char room[64];

static const struct {
    const char *name;
    void (*run)();
} cases[] = {
    {"container_end",
     [] { __sanitizer_annotate_contiguous_container(room, room + 64, room + 64, room + 65); }}, // container_end
    {"container_start",
     [] { __sanitizer_annotate_contiguous_container(room + 8, room + 64, room, room + 64); }}, // container_start
    {"container_good", [] { __sanitizer_annotate_contiguous_container(room, room + 64, room + 64, room + 64); }},
    {"allocated_size", [] { printf("%zu\n", __sanitizer_get_allocated_size(hide(room))); }}, // allocated_size
    {"allocated_size_good", [] { printf("%zu\n", __sanitizer_get_allocated_size(nullptr)); }},
    {"new_too_big", [] { try { kept = new char[large((size_t)1 << 46)]; } catch (std::bad_alloc &) {} }}, // new_too_big
    {"nothrow_too_big", [] { kept = new (std::nothrow) char[large((size_t)1 << 46)]; }}, // nothrow_too_big
    {"no_memory", [] { limit(); kept = malloc(large((size_t)1 << 30)); }}, // no_memory
    {"clean", clean},
    {"malloc_delete", [] { delete hide((char *)malloc(10)); }},        // malloc_delete
    {"malloc_delete_array", [] { delete[] hide((char *)malloc(10)); }}, // malloc_delete_array
    {"calloc_delete", [] { delete hide((char *)calloc(1, 10)); }},      // calloc_delete
    {"strdup_delete", [] { delete hide(strdup("x")); }},                // strdup_delete
    {"new_free", [] { free(hide(new char)); }},                         // new_free
    {"new_delete_array", [] { delete[] hide(new char); }},              // new_delete_array
    {"array_delete", [] { delete hide(new char[10]); }},                // array_delete
    {"array_free", [] { free(hide(new char[10])); }},                   // array_free
    {"array_realloc", [] { kept = realloc(hide(new char[10]), 20); }},  // array_realloc
    {"aligned_free", [] { free(hide(new Aligned)); }},                  // aligned_free
    {"nothrow_free", [] { free(hide(new (std::nothrow) int)); }},       // nothrow_free
    {"sized", [] { ::operator delete(hide(new Derived), sizeof(Base)); }}, // sized
    {"sized_aligned", [] { ::operator delete(hide(new Aligned), 32, std::align_val_t(64)); }}, // sized_aligned
    {"aligned_plain", [] { ::operator delete(hide(::operator new(10, Alignment(64)))); }}, // aligned_plain
    {"plain_aligned", [] { ::operator delete(hide(::operator new(10)), Alignment(64)); }}, // plain_aligned
    {"as_plain", [] { delete hide((long *)new Aligned); }},             // as_plain
    {"by_plain", [] { delete hide((Aligned *)new char[64]); }},         // by_plain
    {"other_alignment",
     [] { ::operator delete(hide(::operator new(10, Alignment(64))), Alignment(32)); }}, // other_alignment
    {"other_large",
     [] { ::operator delete(hide(::operator new(10, Alignment(1024))), Alignment(2048)); }}, // other_large
    {"other_array",
     [] { ::operator delete[](hide(::operator new[](10, Alignment(64))), Alignment(128)); }}, // other_array
    {"other_both", [] { ::operator delete(hide(::operator new(10, Alignment(64))), 20, Alignment(32)); }}, // other_both
    {"other_nothrow",
     [] { ::operator delete(hide(::operator new(10, Alignment(64), std::nothrow)), std::nothrow); }}, // other_nothrow
    {"memcpy", [] { memcpy(hide(text) + 2, text, large(10)); }},        // memcpy
    {"mempcpy", [] { kept = mempcpy(hide(text) + 2, text, large(10)); }}, // mempcpy
    {"strcpy", [] { strcpy(hide(text), hide(text) + 3); }},             // strcpy
    {"stpcpy", [] { kept = stpcpy(hide(text), hide(text) + 3); }},      // stpcpy
    {"strcat", [] { strcat(hide(text), hide(text) + 3); }},             // strcat
    {"strncpy", [] { strncpy(hide(text), hide(text) + 3, large(10)); }}, // strncpy
    {"strncat", [] { strncat(hide(text), hide(text) + 20, large(9)); }}, // strncat
    {"strncat_before", [] { strncat(hide(text), hide(text) + 1, large(3)); }}, // strncat_before
    {"strcat_nothing", [] { strcat(hide(text), hide(text) + 26); }},
    {"strncat_none", [] { strncat(hide(text), hide(text) + 1, large(0)); }},
    {"strcat_beside", [] { strcat(hide(text) + 10, (char *)memcpy(hide(text) + 40, "xyz", 4)); }},
    {"wcsncat_before", [] { wcsncat(hide(wide), hide(wide) + 1, large(3)); }}, // wcsncat_before
    {"wcscat_nothing", [] { wcscat(hide(wide), hide(wide) + 26); }},
    {"wcscpy", [] { wcscpy(hide(wide), hide(wide) + 3); }},             // wcscpy
    {"wmemcpy", [] { wmemcpy(hide(wide), hide(wide) + 3, large(10)); }}, // wmemcpy
    {"calloc_overflow", [] { kept = calloc(large(-1) / 2, large(3)); }}, // calloc_overflow
    {"array_overflow", [] { kept = reallocarray(nullptr, large(-1) / 2, large(3)); }}, // array_overflow
    {"pvalloc_overflow", [] { kept = pvalloc(large(-5)); }},            // pvalloc_overflow
    {"aligned_alloc", [] { kept = aligned_alloc(large(7), 14); }},      // aligned_alloc
    {"aligned_alloc_size", [] { kept = aligned_alloc(64, large(10)); }}, // aligned_alloc_size
    {"posix_memalign",
     [] { kept = nullptr; if (posix_memalign((void **)&kept, large(2), 16) == 0) abort(); }}, // posix_memalign
    {"memalign", [] { kept = memalign(large(7), 16); }},                // memalign
    {"too_big", [] { kept = malloc(large(((size_t)1 << 40) + 1)); }},         // too_big
    {"usable_of_freed",
     [] { kept = malloc(4); free(kept); printf("%zu\n", malloc_usable_size(kept)); }}, // usable_of_freed
};

int main(int, char **argv)
{
    fill();
    for (auto &it : cases)
        if (strcmp(it.name, argv[1]) == 0)
            it.run();
}

"""What a program finds by name, by dlsym: the recorder's allocator in the place of the C library's, which does not know
its blocks; and the function that it has by this name itself."""

from support import expect, placed, write
from testing.programs import run

# By the handle of the C library, and behind the program itself.
PLACES = """#define _GNU_SOURCE
#include <dlfcn.h>
#include <malloc.h>
#include <pthread.h>
#include <stdio.h>
#include <stdlib.h>
#include <string.h>
#include <unistd.h>
typedef void *sizes(size_t, size_t);
static void *in_thread(void *unused) { return unused; }
#define FIND(name) __typeof__(&name) next_##name = (__typeof__(&name))dlsym(places[i], #name); same += \\
    next_##name == name
int main(int argc, char **argv)
{
    void *places[] = {RTLD_NEXT, dlopen("libc.so.6", RTLD_NOW), RTLD_DEFAULT}, *p;
    int same = 0;
    for (int i = 0; i < 3; i++) {
        FIND(malloc); FIND(free); FIND(calloc); FIND(realloc); FIND(reallocarray); FIND(aligned_alloc); FIND(memalign);
        FIND(posix_memalign); FIND(valloc); FIND(pvalloc); FIND(malloc_usable_size); FIND(pthread_create);
        FIND(memcpy); FIND(strcpy); FIND(read); FIND(getenv); FIND(strlen); FIND(snprintf);
        sizes *versioned = (sizes *)dlvsym(places[i], "calloc", "GLIBC_2.2.5");
        void *(*below)(size_t) = (void *(*)(size_t))dlsym(places[i], "__libc_malloc");
        next_free(malloc(30)); free(next_malloc(30)); free(next_calloc(3, 4)); free(next_realloc(malloc(3), 8));
        free(next_reallocarray(malloc(3), 8, 8)); free(next_aligned_alloc(16, 32)); free(next_memalign(16, 20));
        free(next_valloc(8)); free(next_pvalloc(8)); free(versioned(2, 2)); free(below(3));
        if (next_posix_memalign(&p, 64, 7) || next_malloc_usable_size(p) != malloc_usable_size(p)) return 1;
        free(p);
        pthread_t thread;
        if (next_pthread_create(&thread, 0, in_thread, 0) || pthread_join(thread, 0)) return 2;
        if (argc > 1) {
            char *volatile q = next_malloc(4);
            next_memcpy(q, argv[1], 5);
            free(q);
        }
    }
    printf("%d %s\\n", same, dlsym(RTLD_NEXT, "none_such") || !dlerror() ? "found" : "not found");
    return 0;
}
"""

# An allocator of a program over the next one. With a malloc alone the rest is the recorder's.
WRAPS = """#define _GNU_SOURCE
#include <dlfcn.h>
#include <stdlib.h>
#include <string.h>
static long count;
void *malloc(size_t size)
{
    static void *(*next)(size_t);
    if (!next) next = (void *(*)(size_t))dlsym(RTLD_NEXT, "malloc");
    count++;
    return next(size);
}
#ifdef WHOLE
void free(void *p) { ((void (*)(void *))dlsym(RTLD_NEXT, "free"))(p); }
void *calloc(size_t n, size_t m) { return ((void *(*)(size_t, size_t))dlsym(RTLD_NEXT, "calloc"))(n, m); }
void *realloc(void *p, size_t n) { return ((void *(*)(void *, size_t))dlsym(RTLD_NEXT, "realloc"))(p, n); }
#endif
int main(int argc, char **argv)
{
    char *volatile p = strdup("abc"), *volatile q = realloc(malloc(5), 9);
    free(p);
    q[argc > 1 ? 9 : 8] = *argv[0];
    free(q);
    free(calloc(3, 3));
    return count < 2;
}
"""


def check_places(suite, folder, compiler):
    write(folder, places_c=PLACES)
    compiler.c(folder, ["places.c"], f"{folder}/places", "-w", "-ldl", "-pthread")
    for settings in ({}, {"ASANCOL_TRACE": "t.trace", "ASANCOL_WHERE": "1"}):
        ran = run(["./places"], folder, **settings)
        expect((ran.returncode, ran.stdout, ran.stderr), (0, b"54 not found\n", b""), settings)
    expect(placed(suite.asancol, f"{folder}/t.trace"), ([], 0), "without a bug")
    expect(run(["./places", "abcd"], folder, ASANCOL_TRACE="u.trace", ASANCOL_WHERE="1").returncode, 0)
    expect([it.wrong for it in placed(suite.asancol, f"{folder}/u.trace")[0]], ["heap-buffer-overflow"] * 3, "by name")


def check_wraps(suite, folder, compiler):
    write(folder, wraps_c=WRAPS)
    for flags in ([], ["-DWHOLE"]):
        compiler.c(folder, ["wraps.c"], f"{folder}/wraps", "-w", "-ldl", *flags)
        for words, wanted in (([], []), (["bug"], ["heap-buffer-overflow"])):
            name = "-".join(["t", *flags, *words, ".trace"])
            ran = run(["./wraps", *words], folder, ASANCOL_TRACE=name, ASANCOL_WHERE="1")
            expect((ran.returncode, ran.stderr), (0, b""), name)
            expect([it.wrong for it in placed(suite.asancol, f"{folder}/{name}")[0]], wanted, name)


def tests(suite, compiler):
    suite.test(f"{compiler} found by name", check_places, compiler)
    suite.test(f"{compiler} an allocator over the next", check_wraps, compiler)

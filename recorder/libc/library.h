/* The C library: where its code lies, whose functions are checked when they are called, and those of its functions that
   the recorder calls for itself. A program may have any name for itself, so these are found by address.

   Called: library_begin by start.c, mapping.c and preload_choice.c, and library_find by mapping.c, at the first call,
   before there is another thread; library_look_again by hooks.c; _next, _first and _has by whoever replaces or looks
   for a function (process/, interceptors.c), _generation by process.c. `library` is read in any thread, also in a
   signal handler, and called as README.md says. Lock: none of its own. library_find, _next, _first, _has, _look_again
   and _generation take the loader's for a moment, so their callers have none of the recorder's; of these a handler
   calls _next, _first and _generation alone. library_go_without_lock and library_leave_unchecked are called by
   process.c, with the allocator's; the latter in any thread and in a handler, once nothing is recorded any more. */
#ifndef ASANCOL_LIBRARY_H
#define ASANCOL_LIBRARY_H

#include <pthread.h>
#include <stdarg.h>
#include <stdbool.h>
#include <stdio.h>
#include <string.h>
#include <time.h>
#include <wchar.h>

#include "base/platform.h"
#include "libc/hook_page.h"

struct dl_find_object;
struct dl_phdr_info;

/* Each has the library's name, and an effect as that. What a library does not have does nothing, and answers 0. Shared
   objects find this too (hook_page.h). */
struct library {
    int *(*__errno_location)(void);
    int (*vsnprintf)(char *to, size_t room, const char *format, va_list values);
    double (*strtod)(const char *text, char **end);
    int (*clock_gettime)(int clock, struct timespec *now);
    int (*__register_atfork)(void (*before)(void), void (*in_parent)(void), void (*in_child)(void), void *object);
    int (*__cxa_at_quick_exit)(void (*function)(void *), void *object);
    int (*_dl_find_object)(void *address, struct dl_find_object *found);
    int (*dl_iterate_phdr)(int (*visit)(struct dl_phdr_info *, size_t, void *), void *with);
    int (*fputs)(const char *text, FILE *to);
    FILE **stderr_stream;
    int (*pthread_key_create)(pthread_key_t *key, void (*at_end)(void *));
    int (*pthread_setspecific)(pthread_key_t key, const void *value);
    int (*pthread_getattr_default_np)(pthread_attr_t *attributes);
    int (*pthread_attr_getstacksize)(const pthread_attr_t *attributes, size_t *size);
    int (*pthread_attr_destroy)(pthread_attr_t *attributes);
    const char *__libc_single_threaded;
    pid_t (*fork)(void);
    int (*dladdr)(const void *address, void *found);
    char ***environment;
    void **__libc_stack_end; /* of the first thread: what the system has put there */
    void *(*dlsym)(void *where, const char *name);
    int (*__cxa_atexit)(void (*handler)(void *), void *argument, void *object);
    int (*_IO_flush_all)(void);
    int (*fcloseall)(void); /* what an exit does with streams: it flushes them, and closes none */
    void (*__chk_fail)(void) __attribute__((noreturn));
    int (*getc)(FILE *from);
    wint_t (*getwc)(FILE *from);
    int (*ferror)(FILE *stream);
    size_t (*__ctype_get_mb_cur_max)(void);
    void (*_dl_get_tls_static_info)(size_t *size, size_t *alignment); /* of the loader; null: there is none */
    const uint32_t *_thread_db_sizeof_pthread; /* the size of its data of a thread; or null */
    char *(*dlerror)(void);
    void *(*dlvsym)(void *where, const char *name, const char *version);
    const int *optind; /* or null */
    int (*on_exit)(void (*handler)(int status, void *with), void *with);
    void (*exit)(int status);
};

extern struct library library OWN_NAME(library);

/* That of the program: there if anything is checked. */
#ifdef IN_SHARED_OBJECT
#define LIBRARY HOOK_PAGE->functions
#else
#define LIBRARY (&library)
#endif

/* Whether this thread is known to be the only one. */
static inline bool library_is_alone(void)
{
    return *library.__libc_single_threaded != 0;
}

/* How much the C library keeps of a thread. */
static inline size_t library_control_size(void)
{
    return library._thread_db_sizeof_pthread != NULL ? *library._thread_db_sizeof_pthread : (size_t)USUAL_CONTROL_SIZE;
}

/* Whether a file is a library of C++, by its name: its operators new and delete call malloc and free. */
static inline bool library_is_of_cxx(const char *path)
{
    static const char *const names[] = {"libstdc++.so", "libc++.so", "libc++abi.so"};
    const char *slash = strrchr(path, '/'), *name = slash != NULL ? slash + 1 : path;
    for (size_t i = 0; i < sizeof names / sizeof *names; i++)
        if (strncmp(name, names[i], strlen(names[i])) == 0)
            return true;
    return false;
}

/* Finds these functions, once. */
void library_begin(void);
/* Says where the code is. Where the library is a part of the program, nothing is wrapped, and it stays unsaid. */
void library_find(struct hook_page *hook_page);
/* The function of this name in the objects after the one that has the recorder, whose own one hides it; or null. */
void *library_next(const char *name) OWN_NAME(library_next);
/* The same in all objects, with the program first. Where a program only names it, it is not the program's. */
void *library_first(const char *name);
/* Whether a function is the C library's. */
bool library_has(const void *function);
/* After a library was opened: the mathematics may have come with it. */
void library_look_again(void);
/* Another number once an object was loaded or unloaded, as the loader counts them. It takes the loader's lock for a
   moment. */
uint64_t library_generation(void);
/* In a child forked from threads: none of them that had the loader's lock gives it back. So as long as there is one
   thread, dl_iterate_phdr of `library` takes none. */
void library_go_without_lock(void);
/* From now on no call is checked. */
void library_leave_unchecked(void);

#endif

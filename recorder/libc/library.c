/* `library` is filled once, by the names of the table `wanted_names`, from the loader's list of objects. Until then its
   functions do nothing. A static program has its functions from the link. */
#define _GNU_SOURCE
#include "libc/library.h"

#include <link.h>

#ifdef IS_STATIC

/* Under the names that are kept for the library, so that a program may have the others. */
extern int *__errno_location(void);
extern int __register_atfork(void (*)(void), void (*)(void), void (*)(void), void *);
extern int __cxa_at_quick_exit(void (*)(void *), void *);
extern int __clock_gettime(int, struct timespec *);
extern int find_object(void *, struct dl_find_object *) NAMED("_dl_find_object") __attribute__((weak));
extern int _IO_fputs(const char *, FILE *);
extern int __cxa_atexit(void (*)(void *), void *, void *);
extern int on_exit_of_library(void (*)(int, void *), void *) NAMED("__on_exit");
extern void exit(int);
extern int _IO_flush_all(void);
extern int _IO_cleanup(void);
extern char **__environ;
extern void *__libc_stack_end;
extern char single_threaded NAMED("__libc_single_threaded");

struct library library = {
    .__errno_location = __errno_location,
    .clock_gettime = __clock_gettime,
    .__register_atfork = __register_atfork,
    .__cxa_at_quick_exit = __cxa_at_quick_exit,
    ._dl_find_object = find_object,
    .fputs = _IO_fputs,
    .__cxa_atexit = __cxa_atexit,
    .on_exit = on_exit_of_library,
    .exit = exit,
    ._IO_flush_all = _IO_flush_all,
    .fcloseall = _IO_cleanup,
    .__libc_single_threaded = &single_threaded,
    .environment = &__environ,
    .__libc_stack_end = &__libc_stack_end,
};

void library_begin(void)
{
}

void library_find(struct hook_page *hook_page)
{
    (void)hook_page;
}

void library_look_again(void)
{
}

void library_leave_unchecked(void)
{
}

void library_go_without_lock(void)
{
}

uint64_t library_generation(void)
{
    return 1;
}

#else

#include <string.h>
#include <sys/mman.h>

#include "libc/objects.h"
#include "environment/startup.h"
#include "environment/other_threads.h"
#include "base/system.h"

/* Until they are found. */

static int none(void)
{
    return 0;
}

static int *own_error(void)
{
    static int error;
    return &error;
}

static const char more_than_one;

struct library library = {.__errno_location = own_error, .__libc_single_threaded = &more_than_one};

/* The loader's list of modules, with the program first. */
#ifdef IS_PRELOAD

static const struct link_map *loaded(void)
{
    return _r_debug.r_map;
}

#else

/* Of the program, made by the linker. */
extern const Elf64_Dyn program_entries[] NAMED("_DYNAMIC") __attribute__((visibility("hidden")));

static const struct link_map *loaded(void)
{
    for (const Elf64_Dyn *it = program_entries; it->d_tag != DT_NULL; it++)
        if (it->d_tag == DT_DEBUG && it->d_un.d_ptr != 0)
            return ((const struct r_debug *)it->d_un.d_ptr)->r_map;
    return NULL;
}

#endif

static const struct link_map *library_named(const char *front)
{
    const struct link_map *map = loaded();
    while (map != NULL && !object_is_named(map->l_name, front))
        map = map->l_next;
    return map;
}

static const struct {
    const char *name;
    size_t place;
} wanted_names[] = {
#define WANTED(name) {#name, offsetof(struct library, name)}
    WANTED(__errno_location),
    WANTED(vsnprintf),
    WANTED(strtod),
    WANTED(clock_gettime),
    WANTED(__register_atfork),
    WANTED(__cxa_at_quick_exit),
    WANTED(_dl_find_object),
    WANTED(dl_iterate_phdr),
    WANTED(fputs),
    WANTED(pthread_key_create),
    WANTED(pthread_setspecific),
    WANTED(pthread_getattr_default_np),
    WANTED(pthread_attr_getstacksize),
    WANTED(pthread_attr_destroy),
    WANTED(fork),
    WANTED(dladdr),
    WANTED(dlsym),
    WANTED(__cxa_atexit),
    WANTED(on_exit),
    WANTED(exit),
    WANTED(_IO_flush_all),
    WANTED(fcloseall),
    WANTED(__chk_fail),
    WANTED(getc),
    WANTED(getwc),
    WANTED(ferror),
    WANTED(__ctype_get_mb_cur_max),
    WANTED(dlerror),
    WANTED(dlvsym),
};

/* A variable, which may have been moved into the program. */
static uintptr_t find_variable(const struct object *program, const struct object *from, const char *name)
{
    uintptr_t moved = object_find_moved(program, name);
    return moved != 0 ? moved : object_find(from, name);
}

/* Fills `library` by the names of the C library, and its variables by where the program has them. */
static void find_all(const struct object *program, const struct object *from)
{
    for (size_t i = 0; i < sizeof wanted_names / sizeof *wanted_names; i++) {
        uintptr_t *place = (uintptr_t *)((unsigned char *)&library + wanted_names[i].place);
        uintptr_t found = object_find(from, wanted_names[i].name);
        if (found != 0)
            *place = found;
    }
    uintptr_t alone = find_variable(program, from, "__libc_single_threaded");
    if (alone != 0)
        library.__libc_single_threaded = (const char *)alone;
    library.stderr_stream = (FILE **)find_variable(program, from, "stderr");
    library.optind = (const int *)find_variable(program, from, "optind");
    static const char *const names[] = {"environ", "_environ", "__environ"};
    uintptr_t environment = 0;
    for (size_t i = 0; i < sizeof names / sizeof *names && environment == 0; i++)
        environment = object_find_moved(program, names[i]);
    library.environment = (char ***)(environment != 0 ? environment : object_find(from, "__environ"));
    library._thread_db_sizeof_pthread = (const uint32_t *)object_find(from, "_thread_db_sizeof_pthread");
}

void library_begin(void)
{
    static bool has_begun;
    if (has_begun)
        return;
    has_begun = true;
    const struct link_map *map = library_named("libc.so."), *loader = library_named("ld-linux");
    for (size_t i = 0; i < sizeof wanted_names / sizeof *wanted_names; i++) {
        uintptr_t *place = (uintptr_t *)((unsigned char *)&library + wanted_names[i].place);
        if (*place == 0)
            *place = (uintptr_t)&none;
    }
    if (map == NULL)
        return;
    struct object program = object_read(loaded()->l_addr, loaded()->l_ld);
    struct object from = object_read(map->l_addr, map->l_ld);
    find_all(&program, &from);
    if (loader != NULL) {
        struct object other = object_read(loader->l_addr, loader->l_ld);
        library.__libc_stack_end = (void **)find_variable(&program, &other, "__libc_stack_end");
        library._dl_get_tls_static_info = (void (*)(size_t *, size_t *))object_find(&other, "_dl_get_tls_static_info");
    }
}

struct search {
    const char *name;
    uintptr_t found;
    bool is_past_own;
};

/* Whether this is the module that has the recorder: the program comes first, and after it preloaded libraries. */
static bool is_own_module(const struct dl_phdr_info *module)
{
#ifdef IS_PRELOAD
    return range_has(object_range(module), (uintptr_t)&library);
#else
    (void)module;
    return true;
#endif
}

/* Visits a module: whether it has the name, if it comes after the one with the recorder. */
static int look_for_name(struct dl_phdr_info *module, size_t size, void *of)
{
    struct search *search = of;
    (void)size;
    if (!search->is_past_own) {
        search->is_past_own = is_own_module(module);
        return 0;
    }
    for (int i = 0; i < module->dlpi_phnum && search->found == 0; i++) {
        if (module->dlpi_phdr[i].p_type != PT_DYNAMIC)
            continue;
        struct object object = object_read(
            module->dlpi_addr, (const Elf64_Dyn *)(module->dlpi_addr + module->dlpi_phdr[i].p_vaddr));
        search->found = object_find(&object, search->name);
    }
    return search->found != 0;
}

void *library_next(const char *name)
{
    struct search search = {.name = name};
    library.dl_iterate_phdr(look_for_name, &search);
    return (void *)search.found;
}

void *library_first(const char *name)
{
    struct search search = {.name = name, .is_past_own = true};
    library.dl_iterate_phdr(look_for_name, &search);
    return (void *)search.found;
}

/* Whether it leads there, since the program has the recorder itself. */
static bool is_preloaded(const struct dl_phdr_info *module)
{
#ifdef IS_PRELOAD
    (void)module;
    return false;
#else
    return object_is_named(module->dlpi_name, "libasancol_preload.so");
#endif
}

static int look_for_library(struct dl_phdr_info *module, size_t size, void *function)
{
    struct code_range range = object_range(module);
    (void)size;
    return range_has(range, (uintptr_t)function)
           && (range_has(range, (uintptr_t)library.vsnprintf) || is_preloaded(module));
}

bool library_has(const void *function)
{
    return library.dl_iterate_phdr(look_for_library, (void *)(uintptr_t)function) == 1;
}

#if __GLIBC_PREREQ(2, 35)

/* The loader's own, once another one has its place. */
static int (*iterate)(int (*visit)(struct dl_phdr_info *, size_t, void *), void *with);

/* dl_iterate_phdr without its lock, which nobody gives back in this child; with it once there are other threads. */
static int iterate_alone(int (*visit)(struct dl_phdr_info *, size_t, void *), void *with)
{
    int answer = 0;
    if (has_other_threads())
        return iterate(visit, with);
    for (const struct link_map *it = loaded(); it != NULL && answer == 0; it = it->l_next) {
        struct dl_find_object found = {0};
        if (library._dl_find_object(it->l_ld, &found) != 0)
            continue;
        const Elf64_Ehdr *header = found.dlfo_map_start;
        if (memcmp(header->e_ident, ELFMAG, SELFMAG) != 0)
            continue;
        struct dl_phdr_info module = {.dlpi_addr = it->l_addr,
                                      .dlpi_name = it->l_name,
                                      .dlpi_phdr = (const void *)((uintptr_t)header + header->e_phoff),
                                      .dlpi_phnum = header->e_phnum};
        answer = visit(&module, sizeof module, with);
    }
    return answer;
}

void library_go_without_lock(void)
{
    if (iterate != NULL || library._dl_find_object == NULL || loaded() == NULL)
        return;
    iterate = library.dl_iterate_phdr;
    library.dl_iterate_phdr = iterate_alone;
}

#else

void library_go_without_lock(void)
{
}

#endif

static int count_modules(struct dl_phdr_info *module, size_t size, void *generation)
{
    (void)size;
    *(uint64_t *)generation = (uint64_t)module->dlpi_adds << 32 | (uint32_t)module->dlpi_subs;
    return 1;
}

uint64_t library_generation(void)
{
    uint64_t generation = 0;
    library.dl_iterate_phdr(count_modules, &generation);
    return generation;
}

/* Some functions of time are those that the system maps into the process. */
static int look_at(struct dl_phdr_info *module, size_t size, void *of)
{
    struct hook_page *hook_page = of;
    struct code_range range = object_range(module);
    (void)size;
#ifdef IS_PRELOAD
    if (hook_page->program.size == 0)
        hook_page->program = range;
#endif
    if (range_has(range, (uintptr_t)library.vsnprintf))
        hook_page->library = range;
    if (range_has(range, startup.system_code))
        hook_page->system = range;
    if (object_is_named(module->dlpi_name, "libm.so"))
        hook_page->mathematics = range;
    return 0;
}

void library_find(struct hook_page *hook_page)
{
    library.dl_iterate_phdr(look_at, hook_page);
}

static bool is_being_written;

/* Makes the page writable, unless another thread, or code that this handler has interrupted, is writing to it. Then the
   page is left as it is: of two such writers one is library_leave_unchecked, which comes once nothing is recorded. */
static bool begin_writing(struct hook_page *hook_page)
{
    if (__atomic_exchange_n(&is_being_written, true, __ATOMIC_ACQUIRE))
        return false;
    if (system_mprotect(hook_page, sizeof *hook_page, PROT_READ | PROT_WRITE) == 0)
        return true;
    __atomic_store_n(&is_being_written, false, __ATOMIC_RELEASE);
    return false;
}

static void end_writing(struct hook_page *hook_page)
{
    system_mprotect(hook_page, sizeof *hook_page, PROT_READ);
    __atomic_store_n(&is_being_written, false, __ATOMIC_RELEASE);
}

/* The loader's lock is held. */
static int look_for_mathematics(struct dl_phdr_info *module, size_t size, void *of)
{
    struct hook_page *hook_page = of;
    struct code_range range = object_range(module);
    (void)size;
    if (!object_is_named(module->dlpi_name, "libm.so") || range.start == hook_page->mathematics.start
        || !begin_writing(hook_page))
        return 0;
    /* A call that comes between these is not checked. */
    volatile struct code_range *noted = &hook_page->mathematics;
    noted->size = 0;
    __atomic_thread_fence(__ATOMIC_RELEASE);
    noted->start = range.start;
    __atomic_thread_fence(__ATOMIC_RELEASE);
    noted->size = range.size;
    end_writing(hook_page);
    return 0;
}

void library_look_again(void)
{
    struct hook_page *hook_page = (struct hook_page *)HOOK_PAGE_START;
    if (hook_page->library.size != 0)
        library.dl_iterate_phdr(look_for_mathematics, hook_page);
}

void library_leave_unchecked(void)
{
    struct hook_page *hook_page = (struct hook_page *)HOOK_PAGE_START;
    if (!begin_writing(hook_page))
        return;
    hook_page->library.size = hook_page->system.size = hook_page->mathematics.size = 0;
    end_writing(hook_page);
}

#endif

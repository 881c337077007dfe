/* A fault at a moment of the process's end, one a run: `ends NAME`. ends_library.c is the shared object. */
#define _GNU_SOURCE
#include <dlfcn.h>
#include <pthread.h>
#include <stdatomic.h>
#include <stdio.h>
#include <stdlib.h>
#include <string.h>
#include <unistd.h>

extern void (*library_at_exit)(void), (*library_destructor)(void);
int __cxa_thread_atexit_impl(void (*destructor)(void *), void *object, void *library);
extern void *__dso_handle;

static void *hide(void *pointer)
{
    __asm__ volatile("" : "+r"(pointer) : : "memory");
    return pointer;
}

/* One byte past a block. */
static void fault(void)
{
    char *p = hide(malloc(8));
    *(volatile char *)hide(p + 8) = 1;
    free(p);
}

static void fault_of(void *unused)
{
    (void)unused;
    fault();
}

static void (*destructor)(void), (*very_last)(void);

__attribute__((destructor(101))) static void of_program(void)
{
    if (destructor != NULL)
        destructor();
}

/* By -Wl,-fini. */
void last_of_program(void)
{
    if (very_last != NULL)
        very_last();
}

static void in_the_last_destructor(void)
{
    destructor = fault;
}

static void in_fini(void)
{
    very_last = fault;
}

static void register_fault(void)
{
    atexit(fault);
}

static void in_a_handler_of_a_destructor(void)
{
    destructor = register_fault;
}

static void in_a_handler_of_a_handler(void)
{
    atexit(register_fault);
}

static void in_a_destructor_of_a_library(void)
{
    library_destructor = fault;
}

static void in_a_handler_of_a_library(void)
{
    library_at_exit = fault;
}

/* A stream of the program's own, which the C library flushes after all handlers. */
static void (*on_flush)(void);

static ssize_t flush(void *unused, const char *text, size_t size)
{
    (void)unused, (void)text;
    on_flush();
    return (ssize_t)size;
}

static void at_flush(void (*function)(void))
{
    cookie_io_functions_t calls = {.write = flush};
    FILE *stream = fopencookie(NULL, "w", calls);
    on_flush = function;
    fputs("kept until the end", stream);
}

static void in_a_flush(void)
{
    at_flush(fault);
}

static void in_an_object_of_the_thread(void)
{
    __cxa_thread_atexit_impl(fault_of, NULL, &__dso_handle);
}

static void in_a_key_of_the_thread(void)
{
    pthread_key_t key;
    pthread_key_create(&key, fault_of);
    pthread_setspecific(key, &key);
    pthread_exit(NULL);
}

static void in_a_quick_handler(void)
{
    at_quick_exit(fault);
    quick_exit(0);
}

static void fault_and_leave(void)
{
    fault();
    _exit(0);
}

static void before_an_exit_in_a_quick_handler(void)
{
    at_quick_exit(fault_and_leave);
    quick_exit(0);
}

static void before_an_exit_in_a_handler(void)
{
    atexit(fault_and_leave);
}

static void fault_and_exit(void)
{
    fault();
    exit(0);
}

static void before_another_exit(void)
{
    atexit(fault_and_exit);
}

static void exit_in_a_destructor(void)
{
    destructor = fault_and_exit;
}

/* A thread that goes on while the process exits, */
static atomic_int turn;

static void *fault_in_turn(void *unused)
{
    (void)unused;
    while (turn != 1)
        usleep(100);
    fault();
    turn = 2;
    pause();
    return NULL;
}

static void let_the_thread_go(void)
{
    turn = 1;
    while (turn != 2)
        usleep(100);
}

static void start_thread(void *(*function)(void *))
{
    pthread_t thread;
    pthread_create(&thread, NULL, function, NULL);
    pthread_detach(thread);
}

static void in_a_thread_at_exit(void)
{
    start_thread(fault_in_turn);
    library_destructor = let_the_thread_go;
}

/* or when all handlers are over. */
static void in_a_thread_at_the_last_flush(void)
{
    start_thread(fault_in_turn);
    at_flush(let_the_thread_go);
}

static void in_a_thread_at__exit(void)
{
    start_thread(fault_in_turn);
    atexit(let_the_thread_go);
}

/* The object of a thread that nobody waits for. */
static void fault_and_say(void *unused)
{
    fault_of(unused);
    turn = 2;
}

static void *has_an_object(void *unused)
{
    __cxa_thread_atexit_impl(fault_and_say, NULL, &__dso_handle);
    while (turn != 1)
        usleep(100);
    return unused;
}

static void in_an_object_of_a_detached_thread(void)
{
    start_thread(has_an_object);
    library_destructor = let_the_thread_go;
}

static void *exits(void *unused)
{
    (void)unused;
    library_destructor = fault;
    exit(0);
}

static void while_a_thread_exits(void)
{
    start_thread(exits);
    pause();
}

static void *plugin;

static void close_plugin(void)
{
    dlclose(plugin);
}

static void in_a_library_that_is_closed(void)
{
    plugin = dlopen("./libended.so", RTLD_NOW);
    void (**function)(void) = plugin ? (void (**)(void))dlsym(plugin, "plugin_destructor") : NULL;
    if (function == NULL)
        exit(9);
    *function = fault;
    library_at_exit = close_plugin;
}

/* Nothing is wrong with it. */
static void *works(void *unused)
{
    for (;;)
        free(hide(malloc(16)));
    return unused;
}

static void with_busy_threads(void)
{
    for (int i = 0; i < 3; i++)
        start_thread(works);
    fault();
}

static void with_nothing_wrong(void)
{
    char *kept = malloc(8);
    memset(hide(kept), 1, 8);
}

static const struct {
    const char *name;
    void (*run)(void);
} moments[] = {
#define MOMENT(name) {#name, name}
    MOMENT(in_the_last_destructor), MOMENT(in_fini), MOMENT(in_a_handler_of_a_destructor),
    MOMENT(in_a_handler_of_a_handler), MOMENT(in_a_destructor_of_a_library), MOMENT(in_a_handler_of_a_library),
    MOMENT(in_a_flush), MOMENT(in_an_object_of_the_thread), MOMENT(in_a_key_of_the_thread), MOMENT(in_a_quick_handler),
    MOMENT(before_an_exit_in_a_quick_handler), MOMENT(before_an_exit_in_a_handler), MOMENT(before_another_exit),
    MOMENT(exit_in_a_destructor), MOMENT(in_a_thread_at_exit), MOMENT(in_a_thread_at_the_last_flush),
    MOMENT(in_a_thread_at__exit), MOMENT(in_an_object_of_a_detached_thread), MOMENT(while_a_thread_exits),
    MOMENT(in_a_library_that_is_closed), MOMENT(with_busy_threads), MOMENT(with_nothing_wrong),
};

int main(int count, char **argv)
{
    for (size_t i = 0; i < sizeof moments / sizeof *moments; i++)
        if (count > 1 && strcmp(argv[1], moments[i].name) == 0)
            return moments[i].run(), 0;
    return 99;
}

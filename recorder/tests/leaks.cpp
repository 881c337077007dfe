// One way to lose blocks a run, or to keep them: `leaks NAME`. Each is also run with the compiler's own LeakSanitizer,
// which finds the same bytes in as many blocks.
#include <dlfcn.h>
#include <pthread.h>
#include <sanitizer/lsan_interface.h>
#include <setjmp.h>
#include <signal.h>
#include <stdio.h>
#include <stdlib.h>
#include <string.h>
#include <sys/mman.h>
#include <sys/wait.h>
#include <ucontext.h>
#include <unistd.h>

#include <map>
#include <memory>
#include <string>
#include <thread>
#include <vector>

#define NOT_INLINE __attribute__((noinline))

static void *volatile sink;
void *global;
thread_local void *volatile of_thread;

struct node {
    node *next;
    char more[24];
};

// Nothing that a function has left on the stack, or in a register, may count.
NOT_INLINE __attribute__((no_sanitize("address", "kernel-address"))) static void clear_stack()
{
    volatile char bytes[16000];
    for (size_t i = 0; i < sizeof bytes; i++)
        bytes[i] = 0;
    asm volatile("" ::: "rbx", "r12", "r13", "r14", "r15");
}

NOT_INLINE static void direct() { sink = malloc(100), sink = nullptr; }

NOT_INLINE static void none_of_bytes() { sink = malloc(0), sink = nullptr; }

NOT_INLINE static void indirect()
{
    node *first = new node;
    first->next = (node *)malloc(40);
    sink = first, sink = nullptr;
}

NOT_INLINE static void cycle()
{
    node *one = new node, *other = new node;
    one->next = other, other->next = one;
    sink = one, sink = nullptr;
}

NOT_INLINE static void chain()
{
    node *first = nullptr;
    for (int i = 0; i < 100000; i++) {
        node *next = new node;
        next->next = first;
        first = next;
    }
    sink = first, sink = nullptr;
}

NOT_INLINE static void kept_chain()
{
    chain();
    node *first = nullptr;
    for (int i = 0; i < 100000; i++) {
        node *next = new node;
        next->next = first;
        first = next;
    }
    global = first;
}

NOT_INLINE static void in_global() { global = malloc(50); }

NOT_INLINE static void in_thread_local() { of_thread = malloc(60); }

NOT_INLINE static void inside() { global = (char *)malloc(70) + 35; }

NOT_INLINE static void past_the_end() { global = (char *)malloc(72) + 72; }

NOT_INLINE static void unaligned()
{
    static char room[16];
    void *block = malloc(74);
    memcpy(room + 3, &block, sizeof block);
    sink = room;
}

NOT_INLINE static void large()
{
    sink = malloc(3 << 20), sink = nullptr;
    global = (char *)malloc(5 << 20) + (4 << 20);
    *(void **)((char *)global + 16) = malloc(33);
}

NOT_INLINE static void by_key()
{
    pthread_key_t key;
    for (int i = 0; i < 40; i++) { // past those that a thread has inside
        pthread_key_create(&key, nullptr);
        pthread_setspecific(key, malloc(80));
    }
}

static void *wait_with_block(void *)
{
    void *volatile mine = malloc(90);
    of_thread = malloc(30);
    pause();
    return mine;
}

static void start(void *(*run)(void *))
{
    pthread_t thread;
    if (pthread_create(&thread, nullptr, run, nullptr) != 0)
        exit(9);
    pthread_detach(thread);
    usleep(50000);
}

NOT_INLINE static void on_other_stack() { start(wait_with_block); }

static void *wait_with_register(void *)
{
    register void *block asm("r12") = malloc(92);
    for (;;)
        asm volatile("pause" : "+r"(block));
    return block;
}

NOT_INLINE static void in_other_register() { start(wait_with_register); }

static void *wait_with_vector(void *)
{
    asm volatile("movq %0, %%xmm11" : : "r"(malloc(94)) : "xmm11");
    clear_stack();
    for (;;)
        asm volatile("pause");
    return nullptr;
}

NOT_INLINE static void in_vector_register() { start(wait_with_vector); }

static void *lose_and_end(void *)
{
    sink = malloc(33), sink = nullptr;
    of_thread = malloc(55);
    return malloc(44);
}

NOT_INLINE static void of_ended_thread()
{
    pthread_t thread;
    if (pthread_create(&thread, nullptr, lose_and_end, nullptr) == 0)
        pthread_join(thread, nullptr);
}

NOT_INLINE static void with_blocked_signals()
{
    new std::thread([] {
        void *volatile mine = malloc(91);
        sigset_t all;
        sigfillset(&all);
        pthread_sigmask(SIG_BLOCK, &all, nullptr);
        for (;;)
            pause();
        sink = mine;
    });
    usleep(50000);
}

static void on_signal(int)
{
    void *volatile mine = malloc(95);
    for (;;)
        pause();
    sink = mine;
}

NOT_INLINE static void in_handler()
{
    struct sigaction action = {};
    action.sa_handler = on_signal;
    action.sa_flags = SA_ONSTACK;
    sigaction(SIGUSR1, &action, nullptr);
    std::thread([] {
        void *volatile below = malloc(96);
        stack_t stack = {};
        stack.ss_size = 1 << 16;
        stack.ss_sp = mmap(nullptr, stack.ss_size, PROT_READ | PROT_WRITE, MAP_PRIVATE | MAP_ANONYMOUS, -1, 0);
        sigaltstack(&stack, nullptr);
        raise(SIGUSR1);
        sink = below;
    }).detach();
    usleep(50000);
}

NOT_INLINE static void of_vector()
{
    auto *all = new std::vector<std::string>;
    for (int i = 0; i < 5; i++)
        all->push_back("a string that is long enough for the heap " + std::to_string(i));
    sink = all, sink = nullptr;
}

NOT_INLINE static void shared_cycle()
{
    auto all = std::make_shared<std::vector<std::shared_ptr<void>>>();
    all->push_back(all);
}

struct with_destructor {
    ~with_destructor() { sink = this; }
    int field;
};

NOT_INLINE static void empty_array()
{
    static with_destructor *kept;
    volatile size_t none = 0;
    kept = new with_destructor[none];
    sink = kept;
}

NOT_INLINE static void disabled()
{
    {
        __lsan::ScopedDisabler disabler;
        node *first = (node *)malloc(sizeof(node));
        __lsan_disable();
        __lsan_enable();
        first->next = (node *)malloc(sizeof(node));
        sink = first, sink = nullptr;
    }
    direct();
}

NOT_INLINE static void ignored()
{
    node *first = (node *)malloc(sizeof(node));
    first->next = (node *)malloc(20);
    __lsan_ignore_object((char *)first + 3);
    sink = first, sink = nullptr;
}

NOT_INLINE static void **map_room()
{
    return (void **)mmap(nullptr, 1 << 16, PROT_READ | PROT_WRITE, MAP_PRIVATE | MAP_ANONYMOUS, -1, 0);
}

NOT_INLINE static void in_root_region()
{
    void **room = map_room();
    room[3] = malloc(77);
    mprotect((char *)room + 4096, 4096, PROT_NONE);
    __lsan_register_root_region(room, 1 << 16);
    room[1024] = malloc(79);
}

NOT_INLINE static void in_former_region()
{
    void **room = map_room();
    room[3] = malloc(77);
    __lsan_register_root_region(room, 1 << 16);
    __lsan_unregister_root_region(room, 1 << 16);
}

/* Each cell is a region; but every second one is none any more, one of which has a block. */
NOT_INLINE static void in_many_regions()
{
    const size_t cells = (1 << 16) / sizeof(void *);
    void **room = map_room();
    for (size_t i = 0; i < cells; i++)
        __lsan_register_root_region(&room[i], sizeof *room);
    for (size_t i = 1; i < cells; i += 2)
        __lsan_unregister_root_region(&room[i], sizeof *room);
    for (size_t i = 0; i < cells; i += 2)
        room[i] = malloc(77);
    room[1] = malloc(76);
}

NOT_INLINE static void in_mapping() { map_room()[3] = malloc(78); }

NOT_INLINE static void many()
{
    for (int i = 0; i < 1000; i++)
        sink = strdup("hello");
    sink = nullptr;
}

NOT_INLINE static void of_statics()
{
    std::thread([] {
        thread_local std::string text(200, 'x');
        sink = &text, sink = nullptr;
    }).join();
    static std::map<int, std::string> all;
    for (int i = 0; i < 100; i++)
        all[i] = std::string(100, 'y');
}

NOT_INLINE static void of_library_of_c()
{
    setenv("A_VARIABLE", std::string(300, 'e').c_str(), 1);
    putenv(strdup("B=1"));
    FILE *file = fopen("/dev/null", "w");
    fputs("x", file);
    setvbuf(stdout, (char *)malloc(1024), _IOFBF, 1024);
}

NOT_INLINE static void of_getline()
{
    char *line = nullptr;
    size_t room = 0;
    FILE *file = fopen("/proc/sys/kernel/ostype", "r");
    if (getline(&line, &room, file) < 0)
        exit(9);
    line = nullptr;
    fclose(file);
}

NOT_INLINE static void in_loaded_library()
{
    void *library = dlopen("./liblocal.so", RTLD_NOW);
    if (library == nullptr)
        exit(9);
    ((void (*)())dlsym(library, "keep"))();
}

NOT_INLINE static void in_closed_library()
{
    void *library = dlopen("./liblocal.so", RTLD_NOW);
    if (library == nullptr)
        exit(9);
    ((void (*)())dlsym(library, "keep"))();
    dlclose(library);
}

static void lose_at_exit() { direct(); }

NOT_INLINE static void in_exit_handler()
{
    static struct kept {
        void *block = nullptr;
        ~kept() { free(block); }
    } kept;
    kept.block = malloc(21);
    atexit(lose_at_exit);
}

NOT_INLINE static void when_asked()
{
    if (__lsan_do_recoverable_leak_check() != 0)
        exit(8);
    direct();
    clear_stack();
    if (__lsan_do_recoverable_leak_check() == 0)
        exit(7);
}

NOT_INLINE static void by_exit()
{
    void *volatile mine = malloc(23);
    direct();
    clear_stack();
    exit(mine == nullptr);
}

NOT_INLINE static void protected_block()
{
    char *block = (char *)aligned_alloc(4096, 4 * 4096);
    *(void **)(block + 3 * 4096) = malloc(24);
    mprotect(block + 4096, 4096, PROT_NONE);
    global = block;
}

int main(int count, char **argv)
{
    static const struct {
        const char *name;
        void (*run)();
    } runs[] = {
        {"direct", direct},
        {"none_of_bytes", none_of_bytes},
        {"indirect", indirect},
        {"cycle", cycle},
        {"chain", chain},
        {"kept_chain", kept_chain},
        {"in_global", in_global},
        {"in_thread_local", in_thread_local},
        {"inside", inside},
        {"past_the_end", past_the_end},
        {"unaligned", unaligned},
        {"large", large},
        {"by_key", by_key},
        {"on_other_stack", on_other_stack},
        {"in_other_register", in_other_register},
        {"in_vector_register", in_vector_register},
        {"of_ended_thread", of_ended_thread},
        {"with_blocked_signals", with_blocked_signals},
        {"in_handler", in_handler},
        {"of_vector", of_vector},
        {"shared_cycle", shared_cycle},
        {"empty_array", empty_array},
        {"disabled", disabled},
        {"ignored", ignored},
        {"in_root_region", in_root_region},
        {"in_many_regions", in_many_regions},
        {"in_former_region", in_former_region},
        {"in_mapping", in_mapping},
        {"many", many},
        {"of_statics", of_statics},
        {"of_library_of_c", of_library_of_c},
        {"of_getline", of_getline},
        {"in_loaded_library", in_loaded_library},
        {"in_closed_library", in_closed_library},
        {"in_exit_handler", in_exit_handler},
        {"when_asked", when_asked},
        {"by_exit", by_exit},
        {"protected_block", protected_block},
    };
    for (const auto &it : runs)
        if (count > 1 && strcmp(argv[1], it.name) == 0) {
            it.run();
            clear_stack();
            return 0;
        }
    return 99;
}

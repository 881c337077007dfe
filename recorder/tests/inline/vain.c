/* Calls that the system refuses: `vain NAME`. Each answers as it does alone, which is printed, and changes nothing:
   after it come an overflow of a block, of a frame, of a global, and an access to what the program has poisoned. */
#define _GNU_SOURCE
#include <dlfcn.h>
#include <errno.h>
#include <fcntl.h>
#include <linux/filter.h>
#include <linux/seccomp.h>
#include <pthread.h>
#include <sanitizer/asan_interface.h>
#include <signal.h>
#include <spawn.h>
#include <stddef.h>
#include <stdint.h>
#include <stdio.h>
#include <stdlib.h>
#include <string.h>
#include <sys/mman.h>
#include <sys/prctl.h>
#include <sys/resource.h>
#include <sys/shm.h>
#include <sys/syscall.h>
#include <sys/wait.h>
#include <ucontext.h>
#include <unistd.h>

enum { PAGES = 4, BYTES = PAGES << 12 };
_Alignas(4096) char global[BYTES];
volatile char letters[30];
static char *block, *mapping, *poisoned;
static volatile int four = 4;

#define TRY(call)                                                                                                      \
    do {                                                                                                               \
        errno = 0;                                                                                                     \
        long answer = (long)(call);                                                                                    \
        printf("%s: %ld %d\n", #call, answer, errno);                                                                  \
    } while (0)

static void unmaps_unaligned(void)
{
    TRY(munmap(global + 8, BYTES));
    TRY(munmap(block, 100));
    TRY(munmap((char *)&block + 1, 1));
}

static void unmaps_wrapped(void)
{
    TRY(munmap(mapping, (size_t)1 << 62));
    TRY(munmap(mapping, SIZE_MAX));
    TRY(munmap(mapping, -(size_t)mapping));
    TRY(munmap(mapping, (size_t)1 << 47));
}

static void unmaps_nothing(void)
{
    TRY(munmap(mapping, 0));
    TRY(munmap((void *)((uintptr_t)1 << 47), 4096));
}

static void maps_again(void)
{
    int flags = MAP_PRIVATE | MAP_ANONYMOUS;
    TRY(mmap(global + 8, BYTES, PROT_READ, flags | MAP_FIXED, -1, 0) == MAP_FAILED);
    TRY(mmap(global, BYTES, PROT_READ, MAP_PRIVATE | MAP_FIXED, -1, 0) == MAP_FAILED);
    TRY(mmap(global, BYTES, PROT_READ, flags | MAP_FIXED_NOREPLACE, -1, 0) == MAP_FAILED);
    TRY(mmap(NULL, 0, PROT_READ, flags, -1, 0) == MAP_FAILED);
    TRY(mmap(mapping, (size_t)1 << 62, PROT_READ, flags | MAP_FIXED, -1, 0) == MAP_FAILED);
}

static void remaps(void)
{
    TRY(mremap(mapping + 1, 4096, 8192, MREMAP_MAYMOVE) == MAP_FAILED);
    TRY(mremap(mapping, 4096, 0, MREMAP_MAYMOVE) == MAP_FAILED);
    TRY(mremap(mapping, 4096, (size_t)1 << 62, MREMAP_MAYMOVE) == MAP_FAILED);
    TRY(mremap(mapping, 4096, 4096, MREMAP_FIXED | MREMAP_MAYMOVE, global + 8) == MAP_FAILED);
    TRY(mremap(mapping, 4096, 4096, MREMAP_FIXED, global) == MAP_FAILED);
}

static void protects(void)
{
    TRY(mprotect(global + 8, BYTES, PROT_NONE));
    TRY(madvise(global + 8, BYTES, MADV_DONTNEED));
    TRY(madvise(global, BYTES, 12345));
    TRY(mlock((void *)4096, 4096));
}

static void moves_blocks(void)
{
    TRY(realloc(block, PTRDIFF_MAX / 2) == NULL);
    TRY(reallocarray(block, SIZE_MAX / 2, 16) == NULL);
    TRY(calloc(SIZE_MAX / 2, 16) == NULL);
}

static void attaches(void)
{
    TRY(shmat(-1, global, 0) == (void *)-1);
    TRY(shmdt(global));
    TRY(shmdt(block));
    TRY(brk((void *)4096));
    TRY(sbrk(PTRDIFF_MAX) == (void *)-1);
}

static void sets_stacks(void)
{
    static char small[100];
    stack_t it = {.ss_sp = small, .ss_size = sizeof small}, bad = {.ss_sp = global, .ss_size = BYTES, .ss_flags = 77};
    struct sigaction action = {.sa_handler = SIG_IGN}, old;
    TRY(sigaltstack(&it, NULL));
    TRY(sigaltstack(&bad, NULL));
    TRY(sigaction(SIGKILL, &action, &old));
    TRY(sigaction(1000, &action, NULL));
    TRY(signal(SIGSTOP, SIG_IGN) == SIG_ERR);
}

static void *run(void *unused)
{
    return unused;
}

static void starts_threads(void)
{
    pthread_t thread;
    pthread_attr_t with;
    pthread_attr_init(&with);
    TRY(pthread_attr_setstack(&with, global + 1, 100));
    TRY(pthread_attr_setstacksize(&with, (size_t)1 << 60));
    TRY(pthread_create(&thread, &with, run, NULL) != 0);
    pthread_attr_init(&with);
    TRY(pthread_attr_setstacksize(&with, (size_t)1 << 46));
    TRY(pthread_create(&thread, &with, run, NULL) != 0);
    TRY(pthread_create(&thread, NULL, run, NULL));
    TRY(pthread_join(thread, NULL));
}

/* Any new process or thread is refused from now on. */
static void refuse_processes(void)
{
    struct sock_filter filter[] = {
        BPF_STMT(BPF_LD | BPF_W | BPF_ABS, offsetof(struct seccomp_data, nr)),
        BPF_JUMP(BPF_JMP | BPF_JEQ | BPF_K, SYS_clone, 3, 0),
        BPF_JUMP(BPF_JMP | BPF_JEQ | BPF_K, SYS_clone3, 2, 0),
#ifdef SYS_vfork
        BPF_JUMP(BPF_JMP | BPF_JEQ | BPF_K, SYS_vfork, 1, 0),
#endif
        BPF_STMT(BPF_RET | BPF_K, SECCOMP_RET_ALLOW),
        BPF_STMT(BPF_RET | BPF_K, SECCOMP_RET_ERRNO | EAGAIN),
    };
#ifndef SYS_vfork
    filter[1].jt--, filter[2].jt--;
#endif
    struct sock_fprog program = {sizeof filter / sizeof *filter, filter};
    TRY(prctl(PR_SET_NO_NEW_PRIVS, 1, 0, 0, 0));
    TRY(prctl(PR_SET_SECCOMP, SECCOMP_MODE_FILTER, &program));
}

static void forks(void)
{
    char *argv[] = {"true", NULL};
    pthread_t thread;
    pid_t child;
    refuse_processes();
    TRY(fork());
    TRY(vfork());
    TRY(posix_spawn(&child, "/bin/true", NULL, NULL, argv, NULL));
    TRY(system("true"));
    TRY(popen("true", "r") == NULL);
    TRY(pthread_create(&thread, NULL, run, NULL));
}

static void executes(void)
{
    char *argv[] = {"none", NULL};
    pid_t child;
    TRY(execv("/none", argv));
    TRY(execve("/", argv, NULL));
    TRY(execlp("none/none", "none", (char *)NULL));
    TRY(posix_spawn(&child, "/none", NULL, NULL, argv, NULL));
}

static void opens(void)
{
    TRY(dlopen("/none.so", RTLD_NOW) == NULL);
    TRY(dlopen("/dev/null", RTLD_NOW) == NULL);
    TRY(close(-1));
    TRY(dup2(-1, 5));
    TRY(dup2(1, -1));
    TRY(fcntl(-1, F_DUPFD, 3));
}

static void limits(void)
{
    struct rlimit over = {.rlim_cur = 2, .rlim_max = 1};
    TRY(setrlimit(RLIMIT_STACK, &over));
    TRY(setrlimit(RLIMIT_FSIZE, &over));
    TRY(setrlimit(1000, &over));
}

static const struct {
    const char *name;
    void (*run)(void);
} runs[] = {
    {"unmaps_unaligned", unmaps_unaligned},
    {"unmaps_wrapped", unmaps_wrapped},
    {"unmaps_nothing", unmaps_nothing},
    {"maps_again", maps_again},
    {"remaps", remaps},
    {"protects", protects},
    {"moves_blocks", moves_blocks},
    {"attaches", attaches},
    {"sets_stacks", sets_stacks},
    {"starts_threads", starts_threads},
    {"forks", forks},
    {"executes", executes},
    {"opens", opens},
    {"limits", limits},
};

int main(int count, char **argv)
{
    volatile char local[30];
    setvbuf(stdout, NULL, _IONBF, 0);
    block = malloc(100);
    mapping = mmap(NULL, BYTES, PROT_READ | PROT_WRITE, MAP_PRIVATE | MAP_ANONYMOUS, -1, 0);
    poisoned = mapping + 4096;
    local[0] = letters[0] = 1;
    ASAN_POISON_MEMORY_REGION(poisoned, 64);
    for (size_t i = 0; i < sizeof runs / sizeof *runs; i++) {
        if (count == 1)
            puts(runs[i].name);
        else if (strcmp(argv[1], runs[i].name) == 0)
            runs[i].run();
    }
    if (count > 1) {
        ((volatile char *)block)[25 * four] = 1;
        local[30 * (four - 3)] = 1;
        letters[30 * (four - 3)] = 1;
        ((volatile char *)poisoned)[four] = 1;
    }
    free(block);
    return 0;
}

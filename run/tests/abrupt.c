/* Ways to end that the recorder does not see. */
#define _GNU_SOURCE
#include <linux/filter.h>
#include <linux/seccomp.h>
#include <pthread.h>
#include <spawn.h>
#include <stdbool.h>
#include <stddef.h>
#include <stdio.h>
#include <stdlib.h>
#include <string.h>
#include <sys/prctl.h>
#include <sys/syscall.h>
#include <sys/wait.h>
#include <unistd.h>

void leave_by_call(int status);
void leave_by_exit(int status);
int plain_daemon(void);
void plain_spawn(const char *program);

static volatile char *block;

static __attribute__((noinline)) void store_past(volatile char *at)
{
    at[8] = 1;
}

static void *churn(void *unused)
{
    for (;;) {
        void *volatile made[8];
        for (int i = 0; i < 8; i++)
            made[i] = malloc((size_t)(1 + i) * 24);
        for (int i = 0; i < 8; i++)
            free(made[i]);
    }
    return unused;
}

/* Each bad store has its number on standard output before the next one. */
static void *stores(void *unused)
{
    for (int i = 1;; i++) {
        store_past(block);
        dprintf(1, "%d\n", i);
        usleep(300);
    }
    return unused;
}

static void threads(void *(*first)(void *), int count)
{
    pthread_t thread;
    for (int i = 0; i < count; i++)
        pthread_create(&thread, NULL, i == 0 ? first : churn, NULL);
    puts("ready");
    fflush(stdout);
    pause();
}

static void children(int status)
{
    pid_t made = fork();
    if (made == 0)
        leave_by_exit(status);
    waitpid(made, NULL, 0);
}

/* Lets few calls of the system through from here on, by a list that does not know of a recorder. */
static void refuse_calls(const char *way)
{
    static const struct {
        const char *name;
        unsigned action;
    } ways[] = {{"kill", SECCOMP_RET_KILL_PROCESS}, {"thread", SECCOMP_RET_KILL_THREAD}, {"trap", SECCOMP_RET_TRAP},
                {"errno", SECCOMP_RET_ERRNO | 1}, {"log", SECCOMP_RET_LOG}};
#define ALLOW(name) BPF_JUMP(BPF_JMP | BPF_JEQ | BPF_K, SYS_##name, 0, 1), BPF_STMT(BPF_RET | BPF_K, SECCOMP_RET_ALLOW)
    struct sock_filter code[] = {BPF_STMT(BPF_LD | BPF_W | BPF_ABS, offsetof(struct seccomp_data, nr)),
                                 ALLOW(read), ALLOW(write), ALLOW(exit), ALLOW(exit_group), ALLOW(getpid), ALLOW(brk),
                                 ALLOW(rt_sigreturn), ALLOW(rt_sigprocmask), ALLOW(mmap), ALLOW(munmap), ALLOW(futex),
                                 BPF_STMT(BPF_RET | BPF_K, SECCOMP_RET_KILL_PROCESS)};
    struct sock_fprog filter = {sizeof code / sizeof *code, code};
    for (size_t i = 0; i < sizeof ways / sizeof *ways; i++)
        if (strcmp(way, ways[i].name) == 0)
            code[sizeof code / sizeof *code - 1].k = ways[i].action;
    prctl(PR_SET_NO_NEW_PRIVS, 1, 0, 0, 0);
    bool is_strict = strcmp(way, "strict") == 0;
    if (is_strict ? prctl(PR_SET_SECCOMP, SECCOMP_MODE_STRICT) : prctl(PR_SET_SECCOMP, SECCOMP_MODE_FILTER, &filter))
        _exit(9);
}

/* Its child has a bug where few calls are let through, and nobody asks how it ended. */
static void sandbox(const char *way)
{
    pid_t made = fork();
    if (made == 0) {
        refuse_calls(way);
        store_past(block);
        syscall(strcmp(way, "strict") == 0 ? SYS_exit : SYS_exit_group, 0);
    }
    waitpid(made, NULL, 0);
}

/* As prctl, and nobody sees it. */
static long set_filter(const struct sock_fprog *filter)
{
    long result;
    __asm__ volatile("syscall"
                     : "=a"(result)
                     : "a"(SYS_prctl), "D"(PR_SET_SECCOMP), "S"(SECCOMP_MODE_FILTER), "d"(filter)
                     : "rcx", "r11", "memory");
    return result;
}

/* Ends whoever makes one of these calls, of which the recorder makes some and the program none. The recorder does not
   know. */
static void forbid_calls(const char *way)
{
    static const struct {
        const char *name;
        unsigned calls[2];
    } ways[] = {{"send", {SYS_sendto, SYS_sendmsg}}, {"link", {SYS_symlink, SYS_symlinkat}}};
    const unsigned *calls = ways[strcmp(way, ways[0].name) == 0 ? 0 : 1].calls;
    struct sock_filter code[] = {BPF_STMT(BPF_LD | BPF_W | BPF_ABS, offsetof(struct seccomp_data, nr)),
                                 BPF_JUMP(BPF_JMP | BPF_JEQ | BPF_K, calls[0], 1, 0),
                                 BPF_JUMP(BPF_JMP | BPF_JEQ | BPF_K, calls[1], 0, 1),
                                 BPF_STMT(BPF_RET | BPF_K, SECCOMP_RET_KILL_PROCESS),
                                 BPF_STMT(BPF_RET | BPF_K, SECCOMP_RET_ALLOW)};
    struct sock_fprog filter = {sizeof code / sizeof *code, code};
    prctl(PR_SET_NO_NEW_PRIVS, 1, 0, 0, 0);
    if (strcmp(way, "none") != 0 && set_filter(&filter) != 0)
        _exit(9);
}

/* What the program does where calls are forbidden, before it has a bug. */
static void work(const char *what, char *program)
{
    char *argv[] = {program, "call", "0", NULL};
    pid_t made = 0;
    for (int i = 0; i < 100 && strcmp(what, "allocate") == 0; i++) {
        free((void *)(volatile char *){malloc(8)});
        usleep(200);
    }
    if (strcmp(what, "spawn") == 0 && posix_spawn(&made, program, NULL, NULL, argv, environ) == 0)
        waitpid(made, NULL, 0);
    if (strcmp(what, "vfork") == 0 && (made = vfork()) == 0) {
        execv(program, argv);
        _exit(127);
    }
    if (made > 0)
        waitpid(made, NULL, 0);
    argv[1] = "bug";
    if (strcmp(what, "exec") == 0)
        execv(program, argv);
}

static void forbidden(char **argv)
{
    pid_t made = fork();
    if (made == 0) {
        forbid_calls(argv[2]);
        work(argv[3], argv[0]);
        if (strcmp(argv[3], "vfork") != 0 && strcmp(argv[3], "nothing") != 0)
            store_past(block);
        exit(0);
    }
    waitpid(made, NULL, 0);
}

int main(int count, char **argv)
{
    const char *way = count > 1 ? argv[1] : "";
    int number = count > 2 ? atoi(argv[2]) : 0;
    block = malloc(8);
    if (strcmp(way, "call") == 0)
        leave_by_call(number);
    if (strcmp(way, "exit") == 0)
        leave_by_exit(number);
    if (strcmp(way, "bug") == 0) {
        store_past(block);
        leave_by_call(number);
    }
    if (strcmp(way, "burst") == 0) {
        for (int i = 0; i < number; i++)
            store_past(block);
        leave_by_call(0);
    }
    if (strcmp(way, "daemon") == 0 && plain_daemon() == 0)
        store_past(block);
    if (strcmp(way, "child") == 0)
        children(number);
    if (strcmp(way, "sandbox") == 0)
        sandbox(argv[2]);
    if (strcmp(way, "forbidden") == 0)
        forbidden(argv);
    for (int i = 0; i < number && strcmp(way, "spawns") == 0; i++)
        plain_spawn(argv[3]);
    if (strcmp(way, "churn") == 0)
        threads(churn, 4);
    if (strcmp(way, "stores") == 0)
        threads(stores, 3);
    for (int i = 0; strcmp(way, "forks") == 0 || strcmp(way, "execs") == 0; i++) {
        pid_t made = fork();
        if (made == 0 && way[0] == 'f')
            _exit(0);
        if (made == 0) {
            execl("/proc/self/exe", argv[0], "none", NULL);
            _exit(1);
        }
        waitpid(made, NULL, 0);
    }
    return 0;
}

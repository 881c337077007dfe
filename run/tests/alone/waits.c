/* Threads in each call that waits for ever, while something happens beside them: none may return by it. */
#define _GNU_SOURCE
#include <dlfcn.h>
#include <fcntl.h>
#include <linux/futex.h>
#include <mqueue.h>
#include <poll.h>
#include <sched.h>
#include <semaphore.h>
#include <setjmp.h>
#include <signal.h>
#include <spawn.h>
#include <stdatomic.h>
#include <sys/epoll.h>
#include <sys/eventfd.h>
#include <sys/file.h>
#include <sys/inotify.h>
#include <sys/ipc.h>
#include <sys/mman.h>
#include <sys/msg.h>
#include <sys/resource.h>
#include <sys/select.h>
#include <sys/sem.h>
#include <sys/signalfd.h>
#include <sys/socket.h>
#include <sys/stat.h>
#include <sys/syscall.h>
#include <sys/timerfd.h>
#include <sys/un.h>
#include <sys/wait.h>
#include <threads.h>
#include <time.h>

#include "alone.h"

extern char **environ;

static int pipe_ends[2], pair[2], full[2], listening, queue, semaphores, locked;
static sigset_t none_of_them;

static void make_all(void)
{
    if (pipe(pipe_ends) || pipe(full) || socketpair(AF_UNIX, SOCK_STREAM, 0, pair))
        _exit(9);
    fcntl(full[1], F_SETFL, O_NONBLOCK);
    char block[4096] = {0};
    while (write(full[1], block, sizeof block) > 0)
        ;
    fcntl(full[1], F_SETFL, 0);
    listening = socket(AF_UNIX, SOCK_STREAM, 0);
    struct sockaddr_un any = {.sun_family = AF_UNIX};
    bind(listening, (struct sockaddr *)&any, sizeof(sa_family_t));
    listen(listening, 1);
    queue = msgget(IPC_PRIVATE, 0600);
    semaphores = semget(IPC_PRIVATE, 1, 0600);
    FILE *left = fopen("ipc", "ae"); /* for who removes them later */
    fprintf(left, "-q %d -s %d ", queue, semaphores);
    fclose(left);
    locked = open("locked", O_RDWR | O_CREAT, 0600);
    flock(open("locked", O_RDWR), LOCK_EX);
    sigaddset(&none_of_them, SIGUSR2);
    pthread_sigmask(SIG_BLOCK, &none_of_them, NULL);
}

static long waits_nanosleep(void)
{
    struct timespec rest = {1000, 0};
    return nanosleep(&rest, &rest);
}
static long waits_clock_nanosleep(void)
{
    struct timespec rest = {1000, 0};
    return clock_nanosleep(CLOCK_MONOTONIC, 0, &rest, &rest);
}
static long waits_sleep(void)
{
    return (long)sleep(1000);
}
static long waits_usleep(void)
{
    return usleep(999999999);
}
static long waits_pause(void)
{
    return pause();
}
static long waits_poll(void)
{
    struct pollfd asked = {.fd = pipe_ends[0], .events = POLLIN};
    return poll(&asked, 1, -1);
}
static long waits_poll_of_none(void)
{
    return poll(NULL, 0, 1000000);
}
static long waits_ppoll(void)
{
    struct pollfd asked = {.fd = pipe_ends[0], .events = POLLIN};
    struct timespec rest = {1000, 0};
    return ppoll(&asked, 1, &rest, &none_of_them);
}
static long waits_select(void)
{
    fd_set asked;
    FD_ZERO(&asked);
    FD_SET(pipe_ends[0], &asked);
    struct timeval rest = {1000, 0};
    return select(pipe_ends[0] + 1, &asked, NULL, NULL, &rest);
}
static long waits_pselect(void)
{
    return pselect(0, NULL, NULL, NULL, NULL, &none_of_them);
}
static long waits_epoll_wait(void)
{
    struct epoll_event event;
    return epoll_wait(epoll_create1(0), &event, 1, -1);
}
static long waits_epoll_pwait(void)
{
    struct epoll_event event;
    return epoll_pwait(epoll_create1(0), &event, 1, 1000000, &none_of_them);
}
static long waits_sigsuspend(void)
{
    return sigsuspend(&none_of_them);
}
static long waits_sigwait(void)
{
    int number;
    return sigwait(&none_of_them, &number);
}
static long waits_sigwaitinfo(void)
{
    return sigwaitinfo(&none_of_them, NULL);
}
static long waits_sigtimedwait(void)
{
    struct timespec rest = {1000, 0};
    return sigtimedwait(&none_of_them, NULL, &rest);
}
static long waits_signalfd(void)
{
    struct signalfd_siginfo info;
    return read(signalfd(-1, &none_of_them, 0), &info, sizeof info);
}
static long waits_msgrcv(void)
{
    struct {
        long type;
        char text[8];
    } message;
    return msgrcv(queue, &message, sizeof message.text, 0, 0);
}
static long waits_semop(void)
{
    struct sembuf down = {.sem_op = -1};
    return semop(semaphores, &down, 1);
}
static long waits_semtimedop(void)
{
    struct sembuf down = {.sem_op = -1};
    struct timespec rest = {1000, 0};
    return semtimedop(semaphores, &down, 1, &rest);
}
static long waits_futex(void)
{
    static int word;
    return syscall(SYS_futex, &word, FUTEX_WAIT, 0, NULL, NULL, 0);
}
static long waits_futex_timed(void)
{
    static int word;
    struct timespec rest = {1000, 0};
    return syscall(SYS_futex, &word, FUTEX_WAIT, 0, &rest, NULL, 0);
}
static long waits_cond(void)
{
    static pthread_mutex_t mutex = PTHREAD_MUTEX_INITIALIZER;
    static pthread_cond_t cond = PTHREAD_COND_INITIALIZER;
    pthread_mutex_lock(&mutex);
    return pthread_cond_wait(&cond, &mutex);
}
static long waits_cond_timed(void)
{
    static pthread_mutex_t mutex = PTHREAD_MUTEX_INITIALIZER;
    static pthread_cond_t cond = PTHREAD_COND_INITIALIZER;
    pthread_mutex_lock(&mutex);
    struct timespec until;
    clock_gettime(CLOCK_REALTIME, &until);
    until.tv_sec += 1000;
    return pthread_cond_timedwait(&cond, &mutex, &until);
}
static long waits_mutex(void)
{
    static pthread_mutex_t mutex = PTHREAD_MUTEX_INITIALIZER;
    pthread_mutex_lock(&mutex);
    return pthread_mutex_lock(&mutex);
}
static long waits_rwlock(void)
{
    static pthread_rwlock_t lock = PTHREAD_RWLOCK_INITIALIZER;
    pthread_rwlock_rdlock(&lock);
    return pthread_rwlock_wrlock(&lock);
}
static long waits_barrier(void)
{
    static pthread_barrier_t barrier;
    pthread_barrier_init(&barrier, NULL, 2);
    return pthread_barrier_wait(&barrier);
}
static long waits_sem(void)
{
    static sem_t semaphore;
    sem_init(&semaphore, 0, 0);
    return sem_wait(&semaphore);
}
static long waits_sem_timed(void)
{
    static sem_t semaphore;
    sem_init(&semaphore, 0, 0);
    struct timespec until;
    clock_gettime(CLOCK_REALTIME, &until);
    until.tv_sec += 1000;
    return sem_timedwait(&semaphore, &until);
}
static long waits_mq(void)
{
    struct mq_attr attributes = {.mq_maxmsg = 1, .mq_msgsize = 8};
    char name[32], text[8];
    snprintf(name, sizeof name, "/alone%d", getpid());
    mqd_t made = mq_open(name, O_RDWR | O_CREAT, 0600, &attributes);
    mq_unlink(name);
    return mq_receive(made, text, sizeof text, NULL);
}
static long waits_read(void)
{
    char byte;
    return read(pipe_ends[0], &byte, 1);
}
static long waits_write(void)
{
    return write(full[1], "more", 4);
}
static long waits_recv(void)
{
    char byte;
    return recv(pair[0], &byte, 1, 0);
}
static long waits_recvmsg(void)
{
    char byte;
    struct iovec piece = {&byte, 1};
    struct msghdr message = {.msg_iov = &piece, .msg_iovlen = 1};
    return recvmsg(pair[0], &message, 0);
}
static long waits_recv_timed(void)
{
    int ends[2];
    char byte;
    if (socketpair(AF_UNIX, SOCK_STREAM, 0, ends))
        return -2;
    struct timeval rest = {1000, 0};
    setsockopt(ends[0], SOL_SOCKET, SO_RCVTIMEO, &rest, sizeof rest);
    return recv(ends[0], &byte, 1, 0);
}
static long waits_accept(void)
{
    return accept(listening, NULL, NULL);
}
static long waits_flock(void)
{
    return flock(locked, LOCK_EX);
}
static long waits_eventfd(void)
{
    eventfd_t value;
    return eventfd_read(eventfd(0, 0), &value);
}
static long waits_timerfd(void)
{
    struct itimerspec far = {.it_value = {1000, 0}};
    unsigned long count;
    int timer = timerfd_create(CLOCK_MONOTONIC, 0);
    timerfd_settime(timer, 0, &far, NULL);
    return read(timer, &count, sizeof count);
}
static long waits_inotify(void)
{
    char event[256];
    return read(inotify_init1(0), event, sizeof event);
}
static long waits_fifo(void)
{
    mkfifo("fifo", 0600);
    return open("fifo", O_RDONLY);
}
static void *sleeps(void *it)
{
    pause();
    return it;
}
static long waits_join(void)
{
    return pthread_join(begin(sleeps, NULL), NULL);
}
static long waits_thrd_sleep(void)
{
    struct timespec rest = {1000, 0};
    return thrd_sleep(&rest, NULL);
}

static const struct waiting {
    const char *name;
    long (*run)(void);
} waiting[] = {
#define WAIT(name)                                                                                                     \
    {                                                                                                                  \
#name, waits_##name                                                                                            \
    }
    WAIT(nanosleep),    WAIT(clock_nanosleep),
    WAIT(sleep),        WAIT(usleep),
    WAIT(pause),        WAIT(poll),
    WAIT(poll_of_none), WAIT(ppoll),
    WAIT(select),       WAIT(pselect),
    WAIT(epoll_wait),   WAIT(epoll_pwait),
    WAIT(sigsuspend),   WAIT(sigwait),
    WAIT(sigwaitinfo),  WAIT(sigtimedwait),
    WAIT(signalfd),     WAIT(msgrcv),
    WAIT(semop),        WAIT(semtimedop),
    WAIT(futex),        WAIT(futex_timed),
    WAIT(cond),         WAIT(cond_timed),
    WAIT(mutex),        WAIT(rwlock),
    WAIT(barrier),      WAIT(sem),
    WAIT(sem_timed),    WAIT(mq),
    WAIT(read),         WAIT(write),
    WAIT(recv),         WAIT(recvmsg),
    WAIT(recv_timed),   WAIT(accept),
    WAIT(flock),        WAIT(eventfd),
    WAIT(timerfd),      WAIT(inotify),
    WAIT(fifo),         WAIT(join),
    WAIT(thrd_sleep),
};
enum { WAITS = sizeof waiting / sizeof *waiting };

static _Atomic(pid_t) numbers[WAITS];

static void *wait_in(void *it)
{
    const struct waiting *self = (const struct waiting *)it;
    atomic_store(&numbers[self - waiting], gettid());
    errno = 0;
    long result = self->run();
    say("%s returned %ld %s", self->name, result, errno ? strerrorname_np(errno) : "");
    return NULL;
}

/* Starts a thread in each call, and comes back once all wait. */
static void all_wait(void)
{
    make_all();
    for (size_t i = 0; i < WAITS; i++) {
        begin(wait_in, (void *)(size_t)&waiting[i]);
        while (atomic_load(&numbers[i]) == 0)
            sched_yield();
    }
    for (size_t i = 0; i < WAITS; i++)
        wait_asleep(atomic_load(&numbers[i]));
}

SITUATION(wait_at_exit)
{
    all_wait();
    exit(7);
}

SITUATION(wait_at_return)
{
    all_wait();
}

SITUATION(wait_at__exit)
{
    all_wait();
    _exit(7);
}

SITUATION(wait_at_quick_exit)
{
    all_wait();
    quick_exit(7);
}

static void *exits(void *it)
{
    exit(7);
    return it;
}

SITUATION(wait_at_exit_in_thread)
{
    all_wait();
    begin(exits, NULL);
    long result = (long)sleep(1000);
    say("main woke: %ld", result);
    _exit(1);
}

SITUATION(wait_at_thread_exit_of_main)
{
    all_wait();
    begin(exits, NULL);
    pthread_exit(NULL);
}

SITUATION(wait_at_abort)
{
    all_wait();
    abort();
}

SITUATION(wait_at_termination)
{
    all_wait();
    raise(SIGTERM);
}

SITUATION(wait_at_fork)
{
    all_wait();
    for (int i = 0; i < 3; i++) {
        pid_t child = fork();
        if (child == 0)
            exit(i);
        say_end("child", child);
    }
    usleep(20000);
    _exit(0);
}

SITUATION(wait_at_vfork)
{
    all_wait();
    pid_t child = vfork();
    if (child == 0)
        _exit(3);
    say_end("child", child);
    usleep(20000);
    _exit(0);
}

SITUATION(wait_at_system)
{
    all_wait();
    TELL(system("exit 5"));
    char *const argv[] = {(char *)"true", NULL};
    pid_t child;
    TELL(posix_spawnp(&child, "true", NULL, NULL, argv, environ));
    say_end("child", child);
    usleep(20000);
    _exit(0);
}

SITUATION(wait_at_failed_exec)
{
    all_wait();
    TELL(execl("/nonexistent", "x", (char *)NULL));
    TELL(execl("/", "x", (char *)NULL));
    usleep(20000);
    _exit(0);
}

SITUATION(wait_at_exec)
{
    all_wait();
    become("nothing");
}

SITUATION(nothing)
{
}

static sigjmp_buf back;

static void jump_back(int number)
{
    siglongjmp(back, number);
}

SITUATION(wait_at_caught_fault)
{
    all_wait();
    signal(SIGSEGV, jump_back);
    for (volatile int i = 0; i < 3; i++) {
        int number = sigsetjmp(back, 1);
        if (number == 0)
            *(volatile int *)hide(NULL) = 1;
        say("caught %d", number);
    }
    usleep(20000);
    _exit(0);
}

static void note(int number)
{
    (void)number;
}

SITUATION(wait_at_handler)
{
    all_wait();
    signal(SIGUSR1, note);
    TELL(raise(SIGUSR1));
    TELL(pthread_kill(pthread_self(), SIGUSR1));
    usleep(20000);
    _exit(0);
}

SITUATION(wait_at_library)
{
    all_wait();
    void *library = dlopen("libm.so.6", RTLD_NOW);
    TELL_KIND(dlsym(library, "cos"));
    TELL(dlclose(library));
    usleep(20000);
    _exit(0);
}

static void *allocates(void *it)
{
    for (size_t i = 0; i < 20000; i++)
        free(hide(malloc(i % 3000)));
    return it;
}

SITUATION(wait_at_allocations)
{
    all_wait();
    pthread_t other = begin(allocates, NULL);
    allocates(NULL);
    TELL(pthread_join(other, NULL));
    usleep(20000);
    _exit(0);
}

extern void __lsan_do_leak_check(void) __attribute__((weak));
extern int __lsan_do_recoverable_leak_check(void) __attribute__((weak));

SITUATION(wait_at_leak_check)
{
    all_wait();
    for (int i = 0; i < 3 && __lsan_do_recoverable_leak_check; i++)
        (void)__lsan_do_recoverable_leak_check();
    if (__lsan_do_leak_check)
        __lsan_do_leak_check();
    usleep(20000);
    _exit(0);
}

SITUATION(wait_at_stop)
{
    all_wait();
    pid_t child = fork();
    if (child == 0) {
        usleep(20000);
        kill(getppid(), SIGCONT);
        _exit(0);
    }
    raise(SIGSTOP);
    say_end("child", child);
    usleep(20000);
    _exit(0);
}

/* A thread that has waited is told the truth: what it waited for has come. */
static void *says_byte(void *it)
{
    char byte;
    struct pollfd asked = {.fd = pipe_ends[0], .events = POLLIN};
    TELL(poll(&asked, 1, -1));
    TELL(read(pipe_ends[0], &byte, 1));
    return it;
}

SITUATION(wait_then_served)
{
    make_all();
    pthread_t other = begin(says_byte, NULL);
    usleep(10000);
    pid_t child = fork();
    if (child == 0) {
        TELL(write(pipe_ends[1], "x", 1));
        exit(0);
    }
    say_end("child", child);
    TELL(pthread_join(other, NULL));
}

static void *dog(void *it)
{
    sleep(30);
    fputs("timed out\n", stderr);
    _exit(1);
    return it;
}

SITUATION(watchdog)
{
    begin(dog, NULL);
    usleep(10000);
    puts("all tests passed");
}

static void *exits_3(void *it)
{
    exit(3);
    return it;
}

SITUATION(exit_beside_sleep)
{
    begin(exits_3, NULL);
    sleep(100);
}

SITUATION(exit_beside_pause)
{
    begin(exits_3, NULL);
    pause();
}

static void *loops(void *it)
{
    for (volatile long i = 0;; i++)
        ;
    return it;
}

SITUATION(exit_beside_a_loop)
{
    begin(loops, NULL);
    exit(5);
}

static void *allocates_for_ever(void *it)
{
    for (size_t i = 0;; i++)
        free(hide(malloc(i % 5000)));
    return it;
}

SITUATION(exit_beside_allocations)
{
    begin(allocates_for_ever, NULL);
    begin(allocates_for_ever, NULL);
    usleep(2000);
    exit(5);
}

static void *blocks_all(void *it)
{
    sigset_t all;
    sigfillset(&all);
    pthread_sigmask(SIG_BLOCK, &all, NULL);
    pause();
    return it;
}

SITUATION(exit_beside_blocked_signals)
{
    begin(blocks_all, NULL);
    usleep(2000);
    exit(5);
}

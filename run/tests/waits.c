/* A thread in each call that waits. Leaks are looked for meanwhile, and each call ends as alone: after SPAN_MS, by its
   own time or since the first thread ends it then. Prints what each has answered, and "early" where it came back before
   its time. */
#define _GNU_SOURCE
#include <errno.h>
#include <fcntl.h>
#include <linux/aio_abi.h>
#include <linux/futex.h>
#include <mqueue.h>
#include <poll.h>
#include <pthread.h>
#include <semaphore.h>
#include <signal.h>
#include <spawn.h>
#include <stdio.h>
#include <stdlib.h>
#include <string.h>
#include <sys/epoll.h>
#include <sys/eventfd.h>
#include <sys/file.h>
#include <sys/inotify.h>
#include <sys/msg.h>
#include <sys/select.h>
#include <sys/sem.h>
#include <sys/socket.h>
#include <sys/syscall.h>
#include <sys/timerfd.h>
#include <sys/un.h>
#include <sys/wait.h>
#include <time.h>
#include <unistd.h>

enum { SPAN_MS = 700, CHECKS = 8 };

extern int __lsan_do_recoverable_leak_check(void) __attribute__((weak));

static pthread_barrier_t all_there;

static struct timespec span(void)
{
    return (struct timespec){0, SPAN_MS * 1000000L};
}

static struct timespec until(clockid_t clock)
{
    struct timespec now, more = span();
    clock_gettime(clock, &now);
    now.tv_nsec += more.tv_nsec;
    now.tv_sec += more.tv_sec + now.tv_nsec / 1000000000;
    now.tv_nsec %= 1000000000;
    return now;
}

/* What some calls wait for. The first thread gives it. */
static int pipe_ends[2], full_pipe[2], pair[2], alive[2], event, set, listener, backlog, locked_file, record_file;
static int watch, queue, full_queue, semaphores, timed_semaphores;
static sem_t semaphore;
static pthread_mutex_t mutex = PTHREAD_MUTEX_INITIALIZER, other_mutex = PTHREAD_MUTEX_INITIALIZER;
static pthread_mutex_t held = PTHREAD_MUTEX_INITIALIZER;
static pthread_cond_t condition = PTHREAD_COND_INITIALIZER;
static pthread_rwlock_t locked = PTHREAD_RWLOCK_INITIALIZER;
static int is_given, word;
static struct sockaddr_un place;
static pthread_t joined;

static void on_signal(int number)
{
    (void)number;
}

static sigset_t set_of(int number)
{
    sigset_t only;
    sigemptyset(&only);
    sigaddset(&only, number);
    return only;
}

static struct timeval short_time(void)
{
    return (struct timeval){span().tv_sec, span().tv_nsec / 1000};
}

static int timed_socket(int option)
{
    int ends[2];
    struct timeval time = short_time();
    socketpair(AF_UNIX, SOCK_STREAM, 0, ends);
    setsockopt(ends[0], SOL_SOCKET, option, &time, sizeof time);
    return ends[0];
}

struct message {
    long type;
    char text[1000];
};

static long lock_record(void)
{
    struct flock all = {.l_type = F_WRLCK, .l_whence = SEEK_SET};
    return fcntl(record_file, F_SETLKW, &all);
}

static long send_all(int to, int flags)
{
    static char bytes[4 << 20];
    return send(to, bytes, sizeof bytes, flags) > 0;
}

static long wait_child(int by_wait4)
{
    int status = 0;
    pid_t child;
    char *cat[] = {"cat", NULL}, *none[] = {NULL};
    posix_spawn_file_actions_t actions;
    posix_spawn_file_actions_init(&actions);
    posix_spawn_file_actions_adddup2(&actions, alive[0], STDIN_FILENO);
    posix_spawn(&child, "/bin/cat", &actions, NULL, cat, none);
    pid_t ended = by_wait4 ? wait4(child, &status, 0, NULL) : waitpid(child, &status, 0);
    return ended == child ? WEXITSTATUS(status) : -1;
}

static long wait_aio(void)
{
    aio_context_t context = 0;
    struct io_event done;
    struct timespec time = span();
    syscall(SYS_io_setup, 1, &context);
    return syscall(SYS_io_getevents, context, 1, 1, &done, &time);
}

static long receive_mail(void)
{
    char name[64], text[8];
    struct mq_attr form = {.mq_maxmsg = 1, .mq_msgsize = sizeof text};
    struct timespec end = until(CLOCK_REALTIME);
    snprintf(name, sizeof name, "/waits-%d", getpid());
    mqd_t mail = mq_open(name, O_CREAT | O_RDWR, 0600, &form);
    mq_unlink(name);
    if (mail >= 0)
        return mq_timedreceive(mail, text, sizeof text, NULL, &end);
    usleep(SPAN_MS * 1000);
    return 0;
}

static long read_timer(void)
{
    struct itimerspec once = {.it_value = span()};
    uint64_t count = 0;
    int timer = timerfd_create(CLOCK_MONOTONIC, 0);
    timerfd_settime(timer, 0, &once, NULL);
    return read(timer, &count, sizeof count) == sizeof count ? (long)count : -1;
}

static long wait_condition(int is_timed)
{
    struct timespec end = until(CLOCK_REALTIME);
    pthread_mutex_t *with = is_timed ? &other_mutex : &mutex;
    static pthread_cond_t never = PTHREAD_COND_INITIALIZER;
    int result = 0;
    pthread_mutex_lock(with);
    while (is_timed ? result == 0 : !is_given)
        result = is_timed ? pthread_cond_timedwait(&never, with, &end) : pthread_cond_wait(&condition, with);
    pthread_mutex_unlock(with);
    return result;
}

#define OF_TIME(body) { struct timespec time = span(); return body; }
#define UNTIL(clock, body) { struct timespec end = until(clock); return body; }
/* Each waits with the time that `time` or `end` has, or for what the first thread gives. */
#define CALLS(CALL)                                                                                                    \
    CALL(nanosleep, OF_TIME(nanosleep(&time, NULL)))                                                                   \
    CALL(clock_nanosleep, OF_TIME(clock_nanosleep(CLOCK_MONOTONIC, 0, &time, NULL)))                                   \
    CALL(clock_nanosleep_until, UNTIL(CLOCK_MONOTONIC, clock_nanosleep(CLOCK_MONOTONIC, TIMER_ABSTIME, &end, NULL)))   \
    CALL(sleep, { return sleep(1); })                                                                                  \
    CALL(usleep, { return usleep(SPAN_MS * 1000); })                                                                   \
    CALL(pause, { return pause(); })                                                                                   \
    CALL(poll, { return poll(NULL, 0, SPAN_MS); })                                                                     \
    CALL(poll_of_pipe, { struct pollfd it = {pipe_ends[1] + 1000, POLLIN, 0}; return poll(&it, 0, SPAN_MS); })         \
    CALL(ppoll, OF_TIME(ppoll(NULL, 0, &time, NULL)))                                                                  \
    CALL(select, { struct timeval time = short_time(); return select(0, NULL, NULL, NULL, &time); })                   \
    CALL(pselect, OF_TIME(pselect(0, NULL, NULL, NULL, &time, NULL)))                                                  \
    CALL(epoll_wait, { struct epoll_event it; return epoll_wait(set, &it, 1, SPAN_MS); })                              \
    CALL(epoll_pwait, { struct epoll_event it; return epoll_pwait(set, &it, 1, SPAN_MS, NULL); })                      \
    CALL(sigsuspend, { sigset_t none; sigemptyset(&none); return sigsuspend(&none); })                                 \
    CALL(sigwait, { sigset_t only = set_of(SIGRTMIN + 1); int number; return sigwait(&only, &number); })               \
    CALL(sigwaitinfo, { sigset_t only = set_of(SIGRTMIN + 1); return sigwaitinfo(&only, NULL) > 0; })                  \
    CALL(sigtimedwait, { sigset_t only = set_of(SIGRTMIN + 2); OF_TIME(sigtimedwait(&only, NULL, &time)) })            \
    CALL(msgrcv, { struct message it; return msgrcv(queue, &it, sizeof it.text, 0, 0); })                              \
    CALL(msgsnd, { struct message it = {.type = 1}; return msgsnd(full_queue, &it, sizeof it.text, 0); })              \
    CALL(semop, { struct sembuf take = {0, -1, 0}; return semop(semaphores, &take, 1); })                              \
    CALL(semtimedop, { struct sembuf take = {0, -1, 0}; OF_TIME(semtimedop(timed_semaphores, &take, 1, &time)) })      \
    CALL(futex, OF_TIME(syscall(SYS_futex, &word, FUTEX_WAIT_PRIVATE, 0, &time, NULL, 0)))                             \
    CALL(cond_wait, { return wait_condition(0); })                                                                     \
    CALL(cond_timedwait, { return wait_condition(1); })                                                                \
    CALL(mutex, { int result = pthread_mutex_lock(&held); pthread_mutex_unlock(&held); return result; })               \
    CALL(rwlock, { int result = pthread_rwlock_rdlock(&locked); pthread_rwlock_unlock(&locked); return result; })      \
    CALL(sem_wait, { return sem_wait(&semaphore); })                                                                   \
    CALL(sem_timedwait, { static sem_t never; UNTIL(CLOCK_REALTIME, sem_timedwait(&never, &end)) })                    \
    CALL(read, { char it; return read(pipe_ends[0], &it, 1); })                                                        \
    CALL(write, { char it = 0; return write(full_pipe[1], &it, 1); })                                                  \
    CALL(recv, { char it; return recv(pair[0], &it, 1, 0); })                                                          \
    CALL(recv_of_time, { char it; return recv(timed_socket(SO_RCVTIMEO), &it, 1, 0); })                                \
    CALL(send_of_time, { return send_all(timed_socket(SO_SNDTIMEO), 0) && 0; })                                        \
    CALL(accept, { return accept(listener, NULL, NULL) > 0; })                                                         \
    CALL(connect, { int it = socket(AF_UNIX, SOCK_STREAM, 0);                                                          \
                    return connect(it, (struct sockaddr *)&place, sizeof place); })                                    \
    CALL(wait4, { return wait_child(1); })                                                                             \
    CALL(waitpid, { return wait_child(0); })                                                                           \
    CALL(flock, { int it = open("/proc/self/exe", O_RDONLY); return flock(it, LOCK_EX); })                             \
    CALL(fcntl, { return lock_record(); })                                                                             \
    CALL(io_getevents, { return wait_aio(); })                                                                         \
    CALL(mq_receive, { return receive_mail(); })                                                                       \
    CALL(eventfd, { uint64_t it; return read(event, &it, sizeof it); })                                                \
    CALL(timerfd, { return read_timer(); })                                                                            \
    CALL(inotify, { char it[1000]; return read(watch, it, sizeof it) > 0; })                                           \
    CALL(pthread_join, { return pthread_join(joined, NULL); })

#define DEFINE(name, ...) static long wait_in_##name(void) __VA_ARGS__
#define ROW(name, ...) {#name, wait_in_##name, 0, 0, 0, 0},
CALLS(DEFINE)

static struct waiter {
    const char *name;
    long (*wait)(void);
    pthread_t thread;
    long result;
    int error, is_early;
} waiters[] = {CALLS(ROW)};

enum { COUNT = sizeof waiters / sizeof *waiters };

static double now(void)
{
    struct timespec time;
    clock_gettime(CLOCK_MONOTONIC, &time);
    return (double)time.tv_sec + (double)time.tv_nsec / 1e9;
}

static void *run(void *of)
{
    struct waiter *it = of;
    pthread_barrier_wait(&all_there);
    double begin = now();
    errno = 0;
    it->result = it->wait();
    it->error = errno;
    it->is_early = now() - begin < (SPAN_MS - 20) / 1e3;
    return NULL;
}

static void *sleep_here(void *unused)
{
    pthread_barrier_wait(&all_there);
    usleep(SPAN_MS * 1000 + 20000);
    return unused;
}

static void fill(int descriptor)
{
    char bytes[4096] = "";
    fcntl(descriptor, F_SETFL, O_NONBLOCK);
    while (write(descriptor, bytes, sizeof bytes) > 0)
        ;
    fcntl(descriptor, F_SETFL, 0);
}

static void prepare(void)
{
    struct message message = {.type = 1};
    pid_t self = getpid();
    char name[64];
    sigset_t blocked = set_of(SIGRTMIN + 1);
    struct sembuf none = {0, 0, 0};
    sigaddset(&blocked, SIGRTMIN + 2);
    sigprocmask(SIG_BLOCK, &blocked, NULL);
    signal(SIGUSR1, on_signal);
    pipe(pipe_ends), pipe(full_pipe), fill(full_pipe[1]), pipe2(alive, O_CLOEXEC);
    socketpair(AF_UNIX, SOCK_STREAM, 0, pair);
    event = eventfd(0, 0), set = epoll_create1(0);
    queue = msgget(IPC_PRIVATE, 0600), full_queue = msgget(IPC_PRIVATE, 0600);
    while (msgsnd(full_queue, &message, sizeof message.text, IPC_NOWAIT) == 0)
        ;
    semaphores = semget(IPC_PRIVATE, 1, 0600), timed_semaphores = semget(IPC_PRIVATE, 1, 0600);
    semop(semaphores, &none, 1);
    sem_init(&semaphore, 0, 0);
    pthread_mutex_lock(&held), pthread_rwlock_wrlock(&locked);
    listener = socket(AF_UNIX, SOCK_STREAM, 0), backlog = socket(AF_UNIX, SOCK_STREAM, 0);
    place.sun_family = AF_UNIX;
    snprintf(place.sun_path + 1, sizeof place.sun_path - 1, "waits-%d", self);
    bind(backlog, (struct sockaddr *)&place, sizeof place), listen(backlog, 0);
    connect(socket(AF_UNIX, SOCK_STREAM, 0), (struct sockaddr *)&place, sizeof place);
    struct sockaddr_un other = place;
    other.sun_path[1] = 'v';
    bind(listener, (struct sockaddr *)&other, sizeof other), listen(listener, 1);
    locked_file = open("/proc/self/exe", O_RDONLY), flock(locked_file, LOCK_EX);
    snprintf(name, sizeof name, "waits-%d", self);
    record_file = open(name, O_CREAT | O_RDWR, 0600);
    watch = inotify_init1(0), inotify_add_watch(watch, name, IN_DELETE_SELF | IN_ATTRIB);
}

static void remove_all(const char *name)
{
    unlink(name);
    msgctl(queue, IPC_RMID, NULL), msgctl(full_queue, IPC_RMID, NULL);
    semctl(semaphores, 0, IPC_RMID), semctl(timed_semaphores, 0, IPC_RMID);
}

/* Another process has the lock of the record until this one lets it end, or is gone. It removes what would stay. */
static void hold_record(void)
{
    int ready[2];
    char byte, name[64];
    snprintf(name, sizeof name, "waits-%d", getpid());
    pipe(ready);
    if (fork() == 0) {
        close(alive[1]);
        lock_record();
        write(ready[1], "", 1);
        read(alive[0], &byte, 1);
        remove_all(name);
        _exit(0);
    }
    read(ready[0], &byte, 1);
}

static pthread_t thread_in(const char *name)
{
    int i = 0;
    while (strcmp(waiters[i].name, name) != 0)
        i++;
    return waiters[i].thread;
}

static void give_all(void)
{
    struct message message = {.type = 1};
    struct sembuf add = {0, 1, 0};
    uint64_t one = 1;
    char name[64], bytes[4096];
    pthread_kill(thread_in("pause"), SIGUSR1), pthread_kill(thread_in("sigsuspend"), SIGUSR1);
    pthread_kill(thread_in("sigwait"), SIGRTMIN + 1), pthread_kill(thread_in("sigwaitinfo"), SIGRTMIN + 1);
    msgsnd(queue, &message, sizeof message.text, 0), msgrcv(full_queue, &message, sizeof message.text, 0, 0);
    semop(semaphores, &add, 1);
    pthread_mutex_lock(&mutex), is_given = 1, pthread_cond_signal(&condition), pthread_mutex_unlock(&mutex);
    pthread_mutex_unlock(&held), pthread_rwlock_unlock(&locked);
    sem_post(&semaphore);
    write(pipe_ends[1], "", 1), read(full_pipe[0], bytes, sizeof bytes), send(pair[1], "", 1, 0);
    struct sockaddr_un other = place;
    other.sun_path[1] = 'v';
    connect(socket(AF_UNIX, SOCK_STREAM, 0), (struct sockaddr *)&other, sizeof other);
    accept(backlog, NULL, NULL);
    flock(locked_file, LOCK_UN);
    write(event, &one, sizeof one);
    snprintf(name, sizeof name, "waits-%d", getpid());
    unlink(name);
    usleep(SPAN_MS * 1000); /* semtimedop begins its time again */
    close(alive[1]);
}

int main(void)
{
    prepare();
    hold_record();
    pthread_barrier_init(&all_there, NULL, COUNT + 2);
    pthread_create(&joined, NULL, sleep_here, NULL);
    for (int i = 0; i < COUNT; i++)
        pthread_create(&waiters[i].thread, NULL, run, &waiters[i]);
    pthread_barrier_wait(&all_there);
    double begin = now();
    usleep(100000);
    for (int i = 0; i < CHECKS; i++) {
        if (__lsan_do_recoverable_leak_check != NULL)
            __lsan_do_recoverable_leak_check();
        usleep(20000);
    }
    double rest = SPAN_MS / 1e3 - (now() - begin);
    if (rest > 0)
        usleep((useconds_t)(rest * 1e6));
    give_all();
    for (int i = 0; i < COUNT; i++) {
        pthread_join(waiters[i].thread, NULL);
        printf("%s: %ld %s%s\n", waiters[i].name, waiters[i].result, strerrorname_np(waiters[i].error),
               waiters[i].is_early ? " early" : "");
    }
    return 7;
}

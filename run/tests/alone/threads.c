/* Threads: their locks, keys, cancellation, and what they inherit. */
#define _GNU_SOURCE
#include <fcntl.h>
#include <mqueue.h>
#include <poll.h>
#include <sched.h>
#include <semaphore.h>
#include <signal.h>
#include <stdatomic.h>
#include <sys/mman.h>
#include <sys/prctl.h>
#include <sys/resource.h>
#include <sys/syscall.h>
#include <sys/wait.h>
#include <threads.h>
#include <time.h>

#include "alone.h"

static void *returns_it(void *it)
{
    return it;
}

SITUATION(thread_results)
{
    void *result;
    pthread_t other = begin(returns_it, (void *)5);
    TELL(pthread_join(other, &result));
    say("%zu", (size_t)result);
    TELL(pthread_join(pthread_self(), NULL));
    other = begin(returns_it, NULL);
    TELL(pthread_detach(other));
    other = begin((void *(*)(void *))(void *)pthread_exit, (void *)7);
    TELL(pthread_join(other, &result));
    say("%zu", (size_t)result);
    thrd_t standard;
    TELL(thrd_create(&standard, (thrd_start_t)(void *)atoi, (char *)"33"));
    int code;
    TELL(thrd_join(standard, &code));
    say("%d", code);
}

SITUATION(keys_of_threads)
{
    pthread_key_t key;
    TELL(pthread_key_create(&key, NULL));
    say("%u", key);
    int made = 1;
    while (pthread_key_create(&key, NULL) == 0)
        made++;
    say("%d", made);
    TELL(pthread_key_delete(key));
    TELL(pthread_key_delete(key));
    TELL(pthread_setspecific(9999, &key));
    TELL(pthread_getspecific(9999) == NULL);
}

static pthread_key_t first_key, second_key;
static int rounds;

static void ends_first(void *it)
{
    say("first key %d", ++rounds);
    pthread_setspecific(first_key, it);
}

static void ends_second(void *it)
{
    say("second key");
    free(it);
}

static void *has_keys(void *it)
{
    pthread_setspecific(first_key, it);
    pthread_setspecific(second_key, malloc(100));
    return it;
}

SITUATION(destructors_of_keys)
{
    pthread_key_create(&first_key, ends_first);
    pthread_key_create(&second_key, ends_second);
    pthread_join(begin(has_keys, (void *)1), NULL);
    say("%d", rounds);
}

static pthread_mutex_t *shared;

static void *leaves_locked(void *it)
{
    pthread_mutex_lock(shared);
    return it;
}

SITUATION(robust_locks)
{
    pthread_mutexattr_t kind;
    shared = mmap(NULL, 4096, PROT_READ | PROT_WRITE, MAP_SHARED | MAP_ANONYMOUS, -1, 0);
    pthread_mutexattr_init(&kind);
    TELL(pthread_mutexattr_setrobust(&kind, PTHREAD_MUTEX_ROBUST));
    TELL(pthread_mutexattr_setpshared(&kind, PTHREAD_PROCESS_SHARED));
    TELL(pthread_mutex_init(shared, &kind));
    pthread_join(begin(leaves_locked, NULL), NULL);
    TELL(pthread_mutex_lock(shared));
    TELL(pthread_mutex_consistent(shared));
    TELL(pthread_mutex_unlock(shared));
    for (int i = 0; i < 3; i++) {
        pid_t child = fork();
        if (child == 0) {
            pthread_mutex_lock(shared);
            if (i == 0)
                exit(1);
            if (i == 1)
                raise(SIGKILL);
            become("nothing");
        }
        say_end("child", child);
        TELL(pthread_mutex_lock(shared));
        TELL(pthread_mutex_consistent(shared));
        TELL(pthread_mutex_unlock(shared));
    }
}

SITUATION(kinds_of_locks)
{
    pthread_mutexattr_t kind;
    pthread_mutex_t lock;
    pthread_mutexattr_init(&kind);
    pthread_mutexattr_settype(&kind, PTHREAD_MUTEX_ERRORCHECK);
    TELL(pthread_mutex_init(&lock, &kind));
    TELL(pthread_mutex_unlock(&lock));
    TELL(pthread_mutex_lock(&lock));
    TELL(pthread_mutex_lock(&lock));
    TELL(pthread_mutex_trylock(&lock));
    TELL(pthread_mutex_destroy(&lock));
    TELL(pthread_mutex_unlock(&lock));
    TELL(pthread_mutex_destroy(&lock));
    pthread_mutexattr_settype(&kind, PTHREAD_MUTEX_RECURSIVE);
    TELL(pthread_mutex_init(&lock, &kind));
    TELL(pthread_mutex_lock(&lock));
    TELL(pthread_mutex_lock(&lock));
    TELL(pthread_mutex_unlock(&lock));
    TELL(pthread_mutex_unlock(&lock));
    TELL(pthread_mutex_unlock(&lock));
    pthread_rwlock_t both = PTHREAD_RWLOCK_INITIALIZER;
    TELL(pthread_rwlock_wrlock(&both));
    TELL(pthread_rwlock_wrlock(&both));
    TELL(pthread_rwlock_tryrdlock(&both));
    TELL(pthread_rwlock_unlock(&both));
    pthread_spinlock_t spin;
    TELL(pthread_spin_init(&spin, 0));
    TELL(pthread_spin_lock(&spin));
    TELL(pthread_spin_trylock(&spin));
    TELL(pthread_spin_unlock(&spin));
    struct timespec past = {1, 0}, bad = {1, -1};
    pthread_cond_t cond = PTHREAD_COND_INITIALIZER;
    pthread_mutex_t plain = PTHREAD_MUTEX_INITIALIZER;
    pthread_mutex_lock(&plain);
    TELL(pthread_cond_timedwait(&cond, &plain, &past));
    TELL(pthread_cond_timedwait(&cond, &plain, &bad));
    TELL(pthread_mutex_timedlock(&plain, &past));
    TELL(pthread_mutex_timedlock(&plain, &bad));
    sem_t semaphore;
    TELL(sem_init(&semaphore, 0, 1));
    TELL(sem_wait(&semaphore));
    TELL(sem_trywait(&semaphore));
    TELL(sem_timedwait(&semaphore, &past));
    TELL(sem_post(&semaphore));
    TELL(sem_init(&semaphore, 0, 0x80000000));
}

static void cleans(void *word)
{
    say("cleaned up: %s", (char *)word);
}

static void *waits_to_be_cancelled(void *it)
{
    pthread_cleanup_push(cleans, (char *)"outer");
    pthread_cleanup_push(cleans, (char *)"inner");
    switch ((int)(size_t)it) {
    case 0:
        pause();
        break;
    case 1:
        sleep(100);
        break;
    case 2:
        poll(NULL, 0, 100000);
        break;
    case 3: {
        int ends[2];
        char byte;
        if (pipe(ends) == 0 && read(ends[0], &byte, 1) < 0)
            say("?");
        break;
    }
    case 4:
        pthread_setcanceltype(PTHREAD_CANCEL_ASYNCHRONOUS, NULL);
        for (volatile int i = 0;; i++)
            ;
    case 5:
        pthread_testcancel();
        for (;;) {
            free(hide(malloc(100)));
            pthread_testcancel();
        }
    default:
        for (;;) {
            FILE *file = fopen("/dev/null", "w");
            fputs("text", file);
            fclose(file);
            usleep(1);
        }
    }
    pthread_cleanup_pop(1);
    pthread_cleanup_pop(1);
    return NULL;
}

SITUATION(cancellation)
{
    for (size_t i = 0; i < 7; i++) {
        pthread_t other = begin(waits_to_be_cancelled, (void *)i);
        usleep(5000);
        void *result = NULL;
        int error = pthread_cancel(other);
        TELL(pthread_join(other, &result));
        say("%zu: %d %d", i, error, result == PTHREAD_CANCELED);
    }
}

static atomic_int stage;

static void *asks_with_pending_cancellation(void *it)
{
    while (atomic_load(&stage) == 0)
        sched_yield();
    void *volatile block = malloc(10);
    free(block);
    char text[32];
    snprintf(text, sizeof text, "%d", 5);
    memcpy(hide(text), "x", 2);
    getpid();
    pthread_mutex_t lock = PTHREAD_MUTEX_INITIALIZER;
    pthread_mutex_lock(&lock);
    pthread_mutex_unlock(&lock);
    atomic_store(&stage, 2);
    int was;
    pthread_setcancelstate(PTHREAD_CANCEL_DISABLE, &was);
    say("no call was a point of cancellation: %d", was);
    pthread_setcancelstate(PTHREAD_CANCEL_ENABLE, NULL);
    close(99);
    say("never here");
    return it;
}

SITUATION(points_of_cancellation)
{
    pthread_t other = begin(asks_with_pending_cancellation, NULL);
    pthread_cancel(other);
    atomic_store(&stage, 1);
    void *result;
    TELL(pthread_join(other, &result));
    say("%d %d", atomic_load(&stage), result == PTHREAD_CANCELED);
}

static void *says_inherited(void *it)
{
    sigset_t set;
    char name[32];
    int policy;
    struct sched_param parameters;
    pthread_sigmask(SIG_SETMASK, NULL, &set);
    say("blocked %d %d", sigismember(&set, SIGUSR1), sigismember(&set, SIGUSR2));
    TELL(pthread_getname_np(pthread_self(), name, sizeof name));
    say("%s", name);
    TELL(pthread_getschedparam(pthread_self(), &policy, &parameters));
    say("%d %d", policy, parameters.sched_priority);
    TELL(prctl(PR_GET_TIMERSLACK));
    int state, type;
    TELL(pthread_setcancelstate(PTHREAD_CANCEL_ENABLE, &state));
    TELL(pthread_setcanceltype(PTHREAD_CANCEL_DEFERRED, &type));
    say("%d %d, errno %d", state, type, errno);
    return it;
}

SITUATION(inherited_by_threads)
{
    sigset_t set;
    sigemptyset(&set);
    sigaddset(&set, SIGUSR1);
    sigprocmask(SIG_BLOCK, &set, NULL);
    TELL(prctl(PR_SET_TIMERSLACK, 60000));
    TELL(prctl(PR_SET_NAME, "named"));
    errno = 44;
    pthread_join(begin(says_inherited, NULL), NULL);
}

static thread_local int local = 5;
static thread_local char larger[20000];

static void *says_locals(void *it)
{
    say("%d %d %d %d", local++, larger[0], larger[19999], (int)((size_t)&local % sizeof local));
    memset(larger, 1, sizeof larger);
    return it;
}

SITUATION(locals_of_threads)
{
    for (int i = 0; i < 5; i++)
        pthread_join(begin(says_locals, NULL), NULL);
    says_locals(NULL);
    says_locals(NULL);
}

static once_flag flag = ONCE_FLAG_INIT;
static pthread_once_t once = PTHREAD_ONCE_INIT;

static void called_once(void)
{
    say("once");
}

static void *calls_once(void *it)
{
    call_once(&flag, called_once);
    pthread_once(&once, called_once);
    return it;
}

SITUATION(called_once_by_threads)
{
    pthread_t all[8];
    for (int i = 0; i < 8; i++)
        all[i] = begin(calls_once, NULL);
    for (int i = 0; i < 8; i++)
        pthread_join(all[i], NULL);
}

static void *sleeps(void *it)
{
    sleep(1000);
    return it;
}

SITUATION(thread_states)
{
    pthread_t other = begin(sleeps, NULL);
    struct timespec past = {1, 0};
    TELL(pthread_tryjoin_np(other, NULL));
    TELL(pthread_timedjoin_np(other, NULL, &past));
    TELL(pthread_kill(other, 0));
    TELL(pthread_setname_np(other, "a name that is too long"));
    TELL(pthread_setname_np(other, "short"));
    cpu_set_t set;
    TELL(pthread_getaffinity_np(other, sizeof set, &set));
    TELL(pthread_cancel(other));
    TELL(pthread_join(other, NULL));
    TELL(pthread_setschedprio(pthread_self(), 1));
}

SITUATION(many_threads)
{
    for (int turn = 0; turn < 3; turn++) {
        pthread_t all[100];
        for (int i = 0; i < 100; i++)
            all[i] = begin(returns_it, (void *)(size_t)i);
        size_t sum = 0;
        for (int i = 0; i < 100; i++) {
            void *result;
            pthread_join(all[i], &result);
            sum += (size_t)result;
        }
        say("%zu", sum);
    }
}

static void *says_user(void *it)
{
    while (atomic_load(&stage) == 0)
        usleep(100);
    say("%d %d %d", (int)getuid(), (int)geteuid(), (int)getgid());
    return it;
}

SITUATION(user_of_all_threads)
{
    pthread_t other = begin(says_user, NULL);
    TELL(setresgid(54321, 54321, 54321));
    TELL(setresuid(54321, 54321, 54321));
    TELL(setuid(0));
    atomic_store(&stage, 1);
    pthread_join(other, NULL);
    pid_t child = fork();
    if (child == 0)
        exit(4);
    say_end("child", child);
    TELL(system("exit 3"));
    become("nothing");
}

SITUATION(named_objects)
{
    char name[32];
    snprintf(name, sizeof name, "/alone-%d", getpid());
    sem_t *semaphore = sem_open(name, O_CREAT | O_EXCL, 0600, 2);
    TELL(semaphore != SEM_FAILED);
    TELL(sem_open(name, O_CREAT | O_EXCL, 0600, 2) == SEM_FAILED);
    TELL(sem_wait(semaphore));
    int value;
    TELL(sem_getvalue(semaphore, &value));
    say("%d", value);
    TELL(sem_close(semaphore));
    TELL(sem_unlink(name));
    TELL(sem_unlink(name));
    struct mq_attr attributes = {.mq_maxmsg = 2, .mq_msgsize = 8};
    mqd_t queue = mq_open(name, O_RDWR | O_CREAT | O_EXCL | O_NONBLOCK, 0600, &attributes);
    say("%d", queue);
    TELL(mq_send(queue, "text", 5, 3));
    TELL(mq_send(queue, "text", 5, 4));
    TELL(mq_send(queue, "text", 5, 5));
    char text[8];
    unsigned priority;
    TELL(mq_receive(queue, text, sizeof text, &priority));
    say("%u", priority);
    TELL(mq_close(queue));
    TELL(mq_unlink(name));
}

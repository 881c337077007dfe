/* Calls of the C library that do nothing wrong, and where what the caller sees could differ: results, errno, signals in
   the middle, cancellation, and what goes out to somebody who frees it. It prints what it sees. */
#define _GNU_SOURCE
#include <err.h>
#include <errno.h>
#include <error.h>
#include <execinfo.h>
#include <fcntl.h>
#include <limits.h>
#include <pthread.h>
#include <semaphore.h>
#include <signal.h>
#include <stddef.h>
#include <stdint.h>
#include <stdio.h>
#include <stdlib.h>
#include <string.h>
#include <sys/sendfile.h>
#include <sys/socket.h>
#include <sys/stat.h>
#include <sys/time.h>
#include <sys/uio.h>
#include <time.h>
#include <unistd.h>
#include <wchar.h>

static volatile int handled;

static void handle(int number)
{
    (void)number;
    handled++;
}

/* The block, of which the compiler does not know how large it is: else it would refuse a partial operation. */
static char *hidden(size_t size)
{
    char *volatile made = malloc(size);
    return made;
}

/* As much as was read counts, and nothing where the call failed. */
static void partial_results(void)
{
    int ends[2], made = pipe(ends);
    char *five = hidden(5);
    volatile size_t more = 100;
    made += (int)write(ends[1], "abcde", 5);
    printf("%d %zd %.5s\n", made, read(ends[0], five, more), five);
    errno = 0;
    printf("%zd %d\n", read(-1, five, more), errno);
    fcntl(ends[0], F_SETFL, O_NONBLOCK);
    printf("%zd %d\n", read(ends[0], five, more), errno == EAGAIN);
    FILE *stream = fmemopen((char[]){"1\n2345"}, 6, "r");
    printf("%d ", fgets(five, (int)more, stream) != NULL);
    printf("%zu\n", fread(five, 2, more / 2, stream));
    printf("%d\n", snprintf(five, 5, "%s", "abcdefgh"));
    printf("%d\n", snprintf(NULL, 0, "%s", "abcdefgh"));
    struct iovec pieces[2] = {{five, 5}, {five, 5}};
    made = (int)write(ends[1], "abc", 3);
    pieces[1].iov_base = NULL;
    printf("%zd\n", readv(ends[0], pieces, 2));
    free(five);
    fclose(stream);
}

/* With _FORTIFY_SOURCE the C library knows the room, which is less than what the call may take: the lines have room. */
static void lines_with_room(void)
{
    static const char lines[] = "abc\nabcdefghij\n\nab\0cd\nabcdefghijk";
    volatile int more = 100;
    char some[12] = {0}, text[12] = {0}, one[1];
    wchar_t wide[12];
    FILE *stream = tmpfile(), *again = tmpfile(), *empty = tmpfile();
    fwrite(lines, 1, sizeof lines - 1, stream);
    fwrite(lines, 1, sizeof lines - 1, again);
    rewind(stream);
    rewind(again);
    while (fgets(some, more, stream) != NULL)
        printf("%.12s %d %d|", some, some[11], feof(stream));
    while (fgetws(wide, more, again) != NULL)
        printf("%.12ls %d|", wide, feof(again));
    printf("%d %d\n", fgets(one, more, empty) == NULL, feof(empty));
    printf("%d %s\n", sprintf(text, "%s %d", "abcdefgh", 12), text);
    fclose(stream);
    fclose(again);
    fclose(empty);
}

static void formats(void)
{
    char *volatile nothing = NULL; /* so that the compiler does not see it */
    char small[3] = {'a', 'b', 'c'}, word[8], letters[3];
    int number = 0, other = 0;
    long large = 0;
    double real = 0;
    printf("%.3s|%.*s|%5.2s|%-4d|%ld|%Lf|%g|%c|%%|%p|%ls|%.2ls\n", small, 2, small, small, 1, 2L, 3.0L, 4.0, 'x', NULL,
           L"wide", L"abc");
    printf("%2$s %1$d\n", 7, "positions");
    printf("%s %hhd %hu %jd %zu %td\n", "lengths", (char)1, (unsigned short)2, (intmax_t)3, (size_t)4, (ptrdiff_t)5);
    printf("%d", sscanf("12 abc 3.5 xyz 99", "%d %7s %lf %3c %ld", &number, word, &real, letters, &large));
    printf(" %d %s %g %.3s %ld\n", number, word, real, letters, large);
    printf("%d %d\n", sscanf("5 6", "%*d %d", &other), other);
    printf("%d %s\n", sscanf("aabbc", "%7[ab]%n", word, &number), word);
    printf("%d\n", sscanf("x", "%d %s", &number, nothing));
}

static void wide_formats(void)
{
    wchar_t wide[8];
    char small[3];
    int number = 0;
    printf("%d %ls\n", swprintf(wide, 8, L"%d%s%lc%.1ls", 1, "ab", L'c', L"de"), wide);
    printf("%d\n", swprintf(wide, 2, L"%d", 12345));
    printf("%d", swscanf(L"5 xyz", L"%d %2s", &number, small));
    printf(" %d %s\n", number, small);
}

/* What goes to standard error, with the errno that was there. */
static void messages(void)
{
    int kept = dup(2);
    program_invocation_name = program_invocation_short_name = "calls";
    dup2(1, 2);
    errno = ENOENT;
    error(0, EINTR, "%m: %s %d %g", "messages", 1, 2.5);
    error_at_line(0, 0, "file", 3, "%s", "line");
    errno = ENOENT;
    warn("%s", "warned");
    warn(NULL);
    warnx("%d", 5);
    dup2(kept, 2);
    close(kept);
}

static void numbers(void)
{
    char *end, digits[2] = {'4', 'x'};
    errno = 0;
    long value = strtol("99999999999999999999", &end, 10);
    printf("%d %d %d\n", value == LONG_MAX, errno == ERANGE, *end);
    errno = 0;
    end = NULL;
    value = strtol("12", &end, 99);
    printf("%ld %d %d\n", value, errno == EINVAL, end == NULL);
    printf("%d %d %g\n", atoi(digits), atoi(" -7 "), atof("2.5e1x"));
    printf("%ld %s\n", strtol(" +z", &end, 10), end);
}

/* errno is what the call has left, also where it was recorded. */
static void keeps_errno(void)
{
    char *p = malloc(8);
    volatile size_t size = 8;
    errno = 77;
    printf("%d ", snprintf(p, size, "%d", 5));
    printf("%d ", errno);
    errno = 77;
    size = (size_t)(strlen(p) + (size_t)puts("errno"));
    printf("%d %d\n", errno, open("/no/such/file", O_RDONLY) + errno);
    free(p);
}

static void interrupted(void)
{
    struct sigaction action = {.sa_handler = handle};
    struct itimerval soon = {{0, 0}, {0, 20000}};
    int ends[2], made = pipe(ends);
    char byte;
    sigaction(SIGALRM, &action, NULL);
    setitimer(ITIMER_REAL, &soon, NULL);
    ssize_t count = read(ends[0], &byte, 1);
    printf("%d %zd %d %d\n", made, count, errno == EINTR, handled);
    struct timespec time = {5, 0}, left = {0, 0};
    setitimer(ITIMER_REAL, &soon, NULL);
    printf("%d %d\n", nanosleep(&time, &left), left.tv_sec == 4);
}

static void clean_up(void *unused)
{
    (void)unused;
    puts("cleaned up");
}

static int waiting[2];

static void *waits(void *unused)
{
    char bytes[8];
    pthread_cleanup_push(clean_up, unused);
    printf("%zd\n", read(waiting[0], bytes, sizeof bytes));
    pthread_cleanup_pop(0);
    return NULL;
}

static void cancelled(void)
{
    pthread_t thread;
    void *result;
    if (pipe(waiting) != 0 || pthread_create(&thread, NULL, waits, NULL) != 0)
        return;
    usleep(20000);
    pthread_cancel(thread);
    pthread_join(thread, &result);
    printf("%d\n", result == PTHREAD_CANCELED);
}

/* Who gets a block's address frees the block, before the call that has sent it returns. */
static void *frees(void *unused)
{
    char *p;
    while (read(waiting[0], &p, sizeof p) == sizeof p)
        free(p);
    return unused;
}

static void sends_its_own(void)
{
    pthread_t thread;
    if (pipe(waiting) != 0 || pthread_create(&thread, NULL, frees, NULL) != 0)
        return;
    for (int i = 0; i < 20000; i++) {
        char **p = malloc(sizeof *p);
        *p = (char *)p;
        if (write(waiting[1], p, sizeof *p) != sizeof *p)
            puts("not written");
    }
    close(waiting[1]);
    pthread_join(thread, NULL);
}

/* What the caller waits for frees a semaphore before the call that has let it pass returns. */
static void *posts(void *semaphore)
{
    sem_post(semaphore);
    return NULL;
}

static void does_nothing(void)
{
}

static void locks(void)
{
    pthread_mutex_t *lock = malloc(sizeof *lock);
    struct timespec past = {0, 0};
    pthread_once_t once = PTHREAD_ONCE_INIT;
    printf("%d ", pthread_mutex_init(lock, NULL));
    printf("%d ", pthread_mutex_lock(lock));
    printf("%d ", pthread_mutex_trylock(lock));
    printf("%d ", pthread_mutex_timedlock(lock, &past));
    printf("%d ", pthread_mutex_unlock(lock));
    printf("%d ", pthread_mutex_destroy(lock));
    printf("%d\n", pthread_once(&once, does_nothing));
    free(lock);
    for (int i = 0; i < 100; i++) {
        pthread_t thread;
        sem_t *semaphore = malloc(sizeof *semaphore);
        sem_init(semaphore, 0, 0);
        if (pthread_create(&thread, NULL, posts, semaphore) != 0)
            return;
        while (sem_wait(semaphore) != 0)
            puts("not passed");
        free(semaphore);
        pthread_join(thread, NULL);
    }
}

#define REFUSED(call)                                                                                                  \
    errno = 0;                                                                                                         \
    printf("%d ", (call) < 0 ? errno : 0)

/* The system answers EFAULT, and nothing reads missing memory. */
static void refused(void)
{
    char *nowhere = (char *)8, *words[2] = {nowhere, NULL};
    REFUSED(execv(nowhere, words));
    REFUSED(execv("/bin/true", words));
    REFUSED(execve("/bin/true", (char **)nowhere, words));
    REFUSED(fcntl(0, F_GETLK, nowhere));
    REFUSED(sendfile(1, 0, (off_t *)nowhere, 1));
    puts("");
}

/* The addresses of callers, with that of none between. */
__attribute__((noinline)) static void callers(void)
{
    void *all[400], *few[2];
    int there = backtrace(all, 64), more = backtrace(all, 400), two = backtrace(few, 2);
    printf("%d %d %d %d %d\n", there > 2, there == more, two, few[1] == all[1],
           (char *)few[0] > (char *)callers && (char *)few[0] < (char *)callers + 4096);
}

int main(void)
{
    setvbuf(stdout, NULL, _IOLBF, 0);
    partial_results();
    lines_with_room();
    formats();
    wide_formats();
    messages();
    numbers();
    keeps_errno();
    interrupted();
    cancelled();
    sends_its_own();
    locks();
    refused();
    callers();
    return 0;
}

/* Bugs that are often made with the C library: each is named by the argument, and stands on one line. */
#include <arpa/inet.h>
#include <fcntl.h>
#include <netdb.h>
#include <poll.h>
#include <pthread.h>
#include <pwd.h>
#include <regex.h>
#include <semaphore.h>
#include <stdio.h>
#include <stdlib.h>
#include <string.h>
#include <strings.h>
#include <sys/socket.h>
#include <sys/time.h>
#include <sys/uio.h>
#include <sys/utsname.h>
#include <time.h>
#include <unistd.h>
#include <wchar.h>

static volatile size_t eight = 8, nine = 9;
static int zero, pair[2];
static FILE *stream;
static char *block, *gone; /* a block of 8 bytes with its string, and another one that was freed */
static char text[] = "12345678", room[256];
static struct iovec pieces[2];
static socklen_t length = 16;
static regex_t pattern;
static time_t now;
static void *volatile result;
static volatile int number;

static int same(const void *one, const void *other)
{
    (void)one, (void)other;
    return 0;
}

static void bug_sprintf(void) { sprintf(block, "%d", 12345678); }
static void bug_snprintf(void) { snprintf(block, nine, "%d", 12345678); }
static void bug_read(void) { number = (int)read(zero, block, nine); }
static void bug_recv(void) { number = (int)recv(pair[0], block, nine, 0); }
static void bug_fread(void) { number = (int)fread(block, 1, nine, stream); }
static void bug_fgets(void) { number = fgets(block, (int)nine, stream) != NULL; }
static void bug_write(void) { number = (int)write(pair[1], block, nine); }
static void bug_send(void) { number = (int)send(pair[1], block, nine, 0); }
static void bug_puts(void) { puts(gone); }
static void bug_printf(void) { printf("%d %s\n", 1, gone); }
static void bug_sscanf(void) { number = sscanf("123456789", "%s", block); }
static void bug_scanned(void) { number = sscanf(gone, "%d", &zero); }
static void bug_atoi(void) { number = atoi(gone); }
static void bug_getcwd(void) { number = getcwd(block + eight - 1, nine) != NULL; }
static void bug_fwrite(void) { number = (int)fwrite(block, nine, 1, stderr) * 0; }
static void bug_freed_format(void) { number = printf(gone); }
static void bug_strtol(void) { number = (int)strtol(gone, NULL, 10); }
static void bug_open(void) { number = open(gone, O_RDONLY); }
static void bug_memcpy(void) { memcpy(block, text, nine); }
static void bug_copied_from(void) { memcpy(room, block, nine); }
static void bug_memmove(void) { memmove(block, text, nine); }
static void bug_memset(void) { memset(block, 'a', nine); }
static void bug_memcmp(void) { number = memcmp(block, text, nine); }
static void bug_strlen(void) { number = (int)strlen(gone); }
static void bug_strnlen(void) { number = (int)strnlen(gone, nine); }
static void bug_strcpy(void) { strcpy(block, text); }
static void bug_string_copied_from(void) { strcpy(room, gone); }
static void bug_strncpy(void) { strncpy(block, text, nine); }
static void bug_strcat(void) { strcat(block, text + 7); }
static void bug_strncat(void) { strncat(block, text, nine); }
static void bug_strcmp(void) { number = strcmp(gone, text); }
static void bug_strncmp(void) { number = strncmp(gone, text, nine); }
static void bug_strcasecmp(void) { number = strcasecmp(gone, text); }
static void bug_strchr(void) { result = strchr(gone, 'x'); }
static void bug_strrchr(void) { result = strrchr(gone, 'x'); }
static void bug_strstr(void) { result = strstr(gone, text); }
static void bug_strspn(void) { number = (int)strspn(gone, text); }
static void bug_strpbrk(void) { result = strpbrk(gone, text); }
static void bug_strdup(void) { result = strdup(gone); }
static void bug_strtok(void) { result = strtok(gone, text); }
static void bug_atol(void) { number = (int)atol(gone); }
static void bug_strtoll(void) { number = (int)strtoll(gone, NULL, 10); }
static void bug_wcslen(void) { number = (int)wcslen((wchar_t *)gone); }
static void bug_mbstowcs(void) { number = (int)mbstowcs((wchar_t *)block, text, nine); }
static void bug_wcstombs(void) { number = (int)wcstombs(block, L"12345678", nine); }
static void bug_fputs(void) { fputs(gone, stderr); }
static void bug_fprintf(void) { fprintf(stderr, "%s", gone); }
static void bug_count_printed(void) { printf("1%n", (int *)gone); }
static void bug_fscanf(void) { number = fscanf(stream, "%s", block); }
static void bug_scanned_long(void) { number = sscanf("12", "%ld", (long *)(block + 1)); }
static void bug_fopen(void) { result = fopen(gone, "r"); }
static void bug_readlink(void) { number = (int)readlink("/proc/self/exe", block, nine); }
static void bug_realpath(void) { result = realpath("/proc/self", block); }
static void bug_pread(void) { number = (int)pread(zero, block, nine, 0); }
static void bug_readv(void) { number = (int)readv(zero, pieces, 2); }
static void bug_writev(void) { number = (int)writev(pair[1], pieces, 2); }
static void bug_recvfrom(void) { number = (int)recvfrom(pair[0], block, nine, 0, NULL, NULL); }
static void bug_poll(void) { number = poll((struct pollfd *)gone, 1, 0); }
static void bug_getsockname(void) { number = getsockname(pair[0], (struct sockaddr *)gone, &length); }
static void bug_inet_pton(void) { number = inet_pton(AF_INET6, "::1", block); }
static void bug_inet_ntop(void) { result = (void *)inet_ntop(AF_INET6, block, room, 99); }
static void bug_getaddrinfo(void) { number = getaddrinfo(gone, NULL, NULL, (struct addrinfo **)&result); }
static void bug_getpwnam(void) { result = getpwnam(gone); }
static void bug_time(void) { time((time_t *)(block + 1)); }
static void bug_clock_gettime(void) { number = clock_gettime(CLOCK_REALTIME, (struct timespec *)block); }
static void bug_gmtime_r(void) { result = gmtime_r(&now, (struct tm *)block); }
static void bug_ctime_r(void) { result = ctime_r(&now, block); }
static void bug_mktime(void) { number = (int)mktime((struct tm *)gone); }
static void bug_uname(void) { number = uname((struct utsname *)block); }
static void bug_getitimer(void) { number = getitimer(ITIMER_REAL, (struct itimerval *)block); }
static void bug_qsort(void) { qsort(block, nine, 1, same); }
static void bug_regcomp(void) { number = regcomp(&pattern, gone, 0); }
static void bug_locked(void) { number = pthread_mutex_trylock((pthread_mutex_t *)gone); }
static void bug_posted(void) { number = sem_post((sem_t *)gone); }
static void bug_program(void) { number = execl(gone, "program", NULL); }
static void bug_word(void) { number = execv("/no/such", (char *[]){gone, NULL}); }

static const struct {
    const char *name;
    void (*run)(void);
} bugs[] = {
#define BUG(name) {#name, bug_##name}
    BUG(sprintf), BUG(snprintf), BUG(read), BUG(recv), BUG(fread), BUG(fgets), BUG(write), BUG(send), BUG(puts),
    BUG(printf), BUG(sscanf), BUG(scanned), BUG(atoi), BUG(getcwd), BUG(fwrite), BUG(freed_format), BUG(strtol),
    BUG(open), BUG(memcpy), BUG(copied_from), BUG(memmove), BUG(memset), BUG(memcmp), BUG(strlen), BUG(strnlen),
    BUG(strcpy), BUG(string_copied_from), BUG(strncpy), BUG(strcat), BUG(strncat), BUG(strcmp), BUG(strncmp),
    BUG(strcasecmp), BUG(strchr), BUG(strrchr), BUG(strstr), BUG(strspn), BUG(strpbrk), BUG(strdup), BUG(strtok),
    BUG(atol), BUG(strtoll), BUG(wcslen), BUG(mbstowcs), BUG(wcstombs), BUG(fputs), BUG(fprintf), BUG(count_printed),
    BUG(fscanf), BUG(scanned_long), BUG(fopen), BUG(readlink), BUG(realpath), BUG(pread), BUG(readv), BUG(writev),
    BUG(recvfrom), BUG(poll), BUG(getsockname), BUG(inet_pton), BUG(inet_ntop), BUG(getaddrinfo), BUG(getpwnam),
    BUG(time), BUG(clock_gettime), BUG(gmtime_r), BUG(ctime_r), BUG(mktime), BUG(uname), BUG(getitimer), BUG(qsort),
    BUG(regcomp), BUG(locked), BUG(posted), BUG(program), BUG(word),
};

int main(int count, char **argv)
{
    zero = open("/dev/zero", O_RDONLY);
    if (chdir("/") != 0 || socketpair(AF_UNIX, SOCK_STREAM, 0, pair) != 0 || send(pair[1], "123456789", 9, 0) != 9)
        return 9;
    stream = tmpfile();
    fputs("1234567890", stream);
    rewind(stream);
    freopen("/dev/null", "w", stderr);
    block = malloc(eight);
    memcpy(block, "1234567", eight);
    gone = strdup("1234567");
    free(gone);
    pieces[0] = (struct iovec){block, 4};
    pieces[1] = (struct iovec){block + 4, 5};
    for (size_t i = 0; i < sizeof bugs / sizeof *bugs; i++) {
        if (count > 1 && strcmp(argv[1], bugs[i].name) == 0)
            bugs[i].run();
        if (count == 1)
            puts(bugs[i].name);
    }
    return result == &number;
}

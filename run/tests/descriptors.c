/* Says which descriptors a process sees, by each way to look for them: `descriptors WAY`. */
#define _GNU_SOURCE
#include <dirent.h>
#include <fcntl.h>
#include <poll.h>
#include <stdio.h>
#include <stdlib.h>
#include <string.h>
#include <sys/resource.h>
#include <sys/select.h>
#include <sys/stat.h>
#include <sys/wait.h>
#include <unistd.h>

/* The system passes over numbers past its table of descriptors, which is at least this long. */
enum { MOST = 2000, LEAST_TABLE = 64 };

static int by_fstat(int i)
{
    struct stat seen;
    return fstat(i, &seen) == 0;
}

static int by_fcntl(int i)
{
    return fcntl(i, F_GETFD) >= 0;
}

static int by_poll(int i)
{
    struct pollfd file = {i, POLLIN, 0};
    return poll(&file, 1, 0) == 0 || (file.revents & POLLNVAL) == 0;
}

static int by_select(int i)
{
    fd_set set;
    struct timeval none = {0, 0};
    FD_ZERO(&set);
    if (i < LEAST_TABLE)
        FD_SET(i, &set);
    return i < LEAST_TABLE && select(i + 1, &set, NULL, NULL, &none) >= 0;
}

static int by_dup(int i)
{
    int made = dup(i);
    return made >= 0 && close(made) == 0;
}

static void say(const char *way, int is_there(int))
{
    printf("%s:", way);
    for (int i = 0; i < MOST; i++)
        if (is_there(i))
            printf(" %d", i);
    puts("");
}

static void list(const char *path)
{
    DIR *folder = opendir(path);
    int count = 0;
    for (struct dirent *entry; folder != NULL && (entry = readdir(folder)) != NULL; count++)
        if (entry->d_name[0] != '.' && atoi(entry->d_name) >= MOST)
            printf("%s has %s\n", path, entry->d_name);
    closedir(folder);
    printf("%s: %d\n", path, count);
}

static void say_all(void)
{
    say("fstat", by_fstat);
    say("fcntl", by_fcntl);
    say("poll", by_poll);
    say("dup", by_dup);
    list("/proc/self/fd");
    list("/dev/fd");
    say("select", by_select);
    fflush(stdout);
}

/* So much that memory that was freed is given back. */
static void allocate(void)
{
    static char *volatile blocks[4000];
    for (int round = 0; round < 3; round++) {
        for (int i = 0; i < 4000; i++)
            blocks[i] = memset(malloc(60000), 1, 60000);
        for (int i = 0; i < 4000; i++)
            free(blocks[i]);
    }
}

static void open_all(void)
{
    int count = 0, last = -1, file;
    while ((file = open("/dev/null", O_RDONLY)) >= 0) {
        count++;
        last = file;
    }
    printf("%d were opened, the last is %d\n", count, last);
}

static void take_each(void)
{
    int wrong = 0;
    for (int i = 3; i < 200; i++)
        wrong += dup2(0, i) != i;
    for (int i = 500; i < 1200; i++)
        wrong += dup3(0, i, O_CLOEXEC) != i && i < sysconf(_SC_OPEN_MAX);
    printf("%d are wrong\n", wrong);
}

static void lower_limit(void)
{
    int child, status;
    if (setrlimit(RLIMIT_NOFILE, &(struct rlimit){28, 256}) != 0)
        exit(8);
    fflush(stdout);
    if ((child = fork()) == 0) {
        say_all();
        exit(0);
    }
    waitpid(child, &status, 0);
    printf("%#x\n", status);
}

static void close_each(void)
{
    for (int i = 3; i < MOST; i++)
        if (close(i) == 0)
            printf("%d was open\n", i);
}

int main(int count, char **argv)
{
    static char *volatile block;
    const char *way = count > 1 ? argv[1] : "";
    if (strcmp(way, "allocates") == 0)
        allocate();
    if (strcmp(way, "opens") == 0)
        open_all();
    if (strcmp(way, "takes") == 0)
        take_each();
    if (strcmp(way, "lowers") == 0)
        lower_limit();
    if (strcmp(way, "closes") == 0)
        close_each();
    if (strcmp(way, "closes_range") == 0)
        printf("%d\n", close_range(3, ~0U, 0) + close_range(3, 600, 0));
    if (strcmp(way, "closes_from") == 0)
        closefrom(3);
    if (strcmp(way, "opens") != 0)
        say_all();
    block = malloc(5);
    block[count > 2 ? 5 : 4] = 1; /* a bug, where another word follows */
    free(block);
    return 0;
}

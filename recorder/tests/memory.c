/* What memory a process has, as the system counts it: `memory NAME` ends with 0 if it is as it should be. */
#define _GNU_SOURCE
#include <fcntl.h>
#include <link.h>
#include <malloc.h>
#include <stdint.h>
#include <stdio.h>
#include <stdlib.h>
#include <string.h>
#include <sys/mman.h>
#include <sys/resource.h>
#include <sys/wait.h>
#include <time.h>
#include <unistd.h>

enum { KB = 1 << 10, MB = 1 << 20, MANY = 10000 };

static char *volatile blocks[MANY];

static void want(int holds, const char *what)
{
    if (!holds) {
        fprintf(stderr, "not so: %s\n", what);
        exit(9);
    }
}

#define WANT(condition) want(condition, #condition)

/* What the system counts in pages, in MB. Its first number is all addresses, and its second the resident ones. */
static long counted(int number)
{
    char text[200] = "", *at = text;
    int file = open("/proc/self/statm", O_RDONLY);
    WANT(file >= 0 && read(file, text, sizeof text - 1) > 0);
    close(file);
    for (; number > 0; number--)
        strtol(at, &at, 10);
    return strtol(at, &at, 10) / (MB / 4096);
}

static long resident(void)
{
    return counted(1);
}

static long faults(void)
{
    struct rusage used;
    WANT(getrusage(RUSAGE_SELF, &used) == 0);
    return used.ru_minflt;
}

/* The most that was resident since the program began. getrusage counts earlier memory, too. */
static long most_resident(void)
{
    char line[200];
    long kb = 0;
    FILE *file = fopen("/proc/self/status", "r");
    WANT(file != NULL);
    while (kb == 0 && fgets(line, sizeof line, file) != NULL)
        if (strncmp(line, "VmHWM:", 6) == 0)
            kb = strtol(line + 6, NULL, 10);
    fclose(file);
    return kb / KB;
}

static void fill(int count, size_t size)
{
    for (int i = 0; i < count; i++) {
        blocks[i] = malloc(size);
        WANT(blocks[i] != NULL);
        memset(blocks[i], i + 1, size);
    }
}

static void free_all(int count)
{
    for (int i = 0; i < count; i++)
        free(blocks[i]);
}

static void fill_and_free(int count, size_t size)
{
    fill(count, size);
    free_all(count);
}

/* For a little longer than memory waits. */
static void go_on(void)
{
    for (int i = 0; i < 250; i++) {
        for (int call = 0; call < 20; call++)
            free((void *volatile){malloc(10)});
        nanosleep(&(struct timespec){.tv_nsec = 10000000}, NULL);
    }
}

/* Freed memory is gone after a while if the process goes on. Shadow stays. */
static void falls(void)
{
    long before = resident();
    fill(5000, 40 * KB);
    WANT(resident() > before + 150);
    free_all(5000);
    go_on();
    WANT(resident() < before + 60);
}

/* Memory that is freed and taken again costs no fault. */
static void stays(void)
{
    fill_and_free(10, 100 * KB);
    long before = faults();
    for (int i = 0; i < 1000; i++)
        fill_and_free(10, (size_t)(20 + i % 80) * KB);
    WANT(faults() < before + 2000);
}

static void never_grows(void)
{
    uint32_t state = 1;
    long before = resident();
    for (int i = 0; i < 1000000; i++) {
        state = state * 1664525 + 1013904223;
        char *volatile *place = &blocks[state >> 16 & 63];
        free(*place);
        *place = malloc((size_t)(16 + (state >> 8 & 127)) * KB);
        WANT(*place != NULL);
        **place = 1;
    }
    WANT(resident() < before + 64);
}

/* A block of more than the greatest that was there before: what waits is gone when it comes. */
static void grows_by_doubling(void)
{
    long before = resident();
    blocks[0] = NULL;
    for (size_t size = MB; size <= 128 * MB; size *= 2) {
        blocks[0] = realloc(blocks[0], size);
        WANT(blocks[0] != NULL);
        memset(blocks[0], 1, size);
    }
    WANT(most_resident() > 128 && most_resident() < before + (128 + 64) * 9 / 8 + 32);
    free_all(1);
}

static void falls_at_once_if_large(void)
{
    long before = resident();
    fill(1, 100 * MB);
    WANT(resident() > before + 90);
    free_all(1);
    WANT(resident() < before + 20);
}

/* Much that waits, of which each block has little. */
static void is_bounded(void)
{
    for (int i = 0; i < MANY; i++) {
        blocks[i] = malloc(60 * KB);
        WANT(blocks[i] != NULL);
        blocks[i][0] = blocks[i][30 * KB] = 1;
    }
    long before = resident();
    free_all(MANY);
    WANT(resident() < before - MANY / 256);
}

static void trims(void)
{
    long before = resident();
    fill_and_free(2000, 40 * KB);
    WANT(malloc_trim(0) == 1);
    WANT(resident() < before + 30);
    WANT(malloc_trim(0) == 0);
}

static void takes_zeros(size_t size)
{
    const char *volatile block = calloc(1, size);
    WANT(block != NULL);
    for (size_t i = 0; i < size; i++)
        WANT(block[i] == 0);
    free((void *)block);
}

static void gets_zeros(void)
{
    static const size_t sizes[] = {17 * KB, 60 * KB, 100 * KB, 128 * KB, 128 * KB + 1, 500 * KB, 3 * MB, 40 * MB};
    for (size_t i = 0; i < sizeof sizes / sizeof *sizes; i++) {
        fill_and_free(1, sizes[i]);
        takes_zeros(sizes[i]);
        fill_and_free(20, 50 * KB);
        fill(1, 50 * KB);
        malloc_trim(0);
        fill_and_free(1, 300 * KB);
        takes_zeros(sizes[i]);
        free(blocks[0]);
    }
}

/* What a process has locked the system does not take back. */
static void is_locked(void)
{
    fill(1, 300 * KB);
    WANT(mlock(blocks[0], 300 * KB) == 0);
    free(blocks[0]);
    takes_zeros(300 * KB);
    fill_and_free(1, 300 * KB);
    malloc_trim(0);
    takes_zeros(300 * KB);
}

/* Both processes have what waits, and each gives its own back. */
static void forks(void)
{
    fill_and_free(1000, 40 * KB);
    pid_t child = fork();
    WANT(child >= 0);
    fill(500, 40 * KB);
    for (int i = 0; i < 500; i++)
        WANT(blocks[i][0] == (char)(i + 1) && blocks[i][40 * KB - 1] == (char)(i + 1));
    takes_zeros(100 * KB);
    takes_zeros(10 * MB);
    free_all(500);
    WANT(malloc_trim(0) == 1);
    WANT(resident() < 60);
    int status = 0;
    if (child == 0)
        exit(0);
    WANT(waitpid(child, &status, 0) == child && status == 0);
}

/* There are no more addresses: what waits is used again, and given back before a malloc is refused. */
static void is_refused(void)
{
    long before = resident();
    fill_and_free(2000, 40 * KB);
    size_t room = (size_t)counted(0) * MB;
    WANT(setrlimit(RLIMIT_AS, &(struct rlimit){room, room}) == 0);
    fill(500, 40 * KB);
    blocks[500] = malloc(300 * MB);
    WANT(blocks[500] == NULL);
    WANT(resident() < before + 55);
    fill(1500, 40 * KB);
}

static int add_data(struct dl_phdr_info *module, size_t size, void *data)
{
    (void)size;
    for (int i = 0; i < module->dlpi_phnum; i++)
        if (module->dlpi_phdr[i].p_type == PT_LOAD && (module->dlpi_phdr[i].p_flags & PF_W))
            *(size_t *)data += module->dlpi_phdr[i].p_memsz;
    return 0;
}

/* What a conservative collector goes through. */
static void has_little_data(void)
{
    size_t data = 0;
    dl_iterate_phdr(add_data, &data);
    WANT(data != 0 && data < MB);
}

int main(int count, char **argv)
{
    static const struct {
        const char *name;
        void (*run)(void);
    } programs[] = {{"falls", falls},
                    {"stays", stays},
                    {"never_grows", never_grows},
                    {"grows_by_doubling", grows_by_doubling},
                    {"falls_at_once_if_large", falls_at_once_if_large},
                    {"is_bounded", is_bounded},
                    {"trims", trims},
                    {"gets_zeros", gets_zeros},
                    {"is_locked", is_locked},
                    {"forks", forks},
                    {"is_refused", is_refused},
                    {"has_little_data", has_little_data}};
    for (size_t i = 0; count > 1 && i < sizeof programs / sizeof *programs; i++)
        if (strcmp(argv[1], programs[i].name) == 0)
            return programs[i].run(), 0;
    return 99;
}

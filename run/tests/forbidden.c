/* A stack of which a page can't be read while memory is allocated below: `forbidden WAY`. */
#define _GNU_SOURCE
#include <pthread.h>
#include <stdint.h>
#include <stdio.h>
#include <stdlib.h>
#include <string.h>
#include <sys/mman.h>
#include <sys/syscall.h>
#include <unistd.h>

enum { PAGE = 4096, DEEP = 12, MANY = 300 };

static int is_raw;
static char *volatile block;

static void forbid(char *page, int rights)
{
    if ((is_raw ? syscall(SYS_mprotect, page, PAGE, rights) : mprotect(page, PAGE, rights)) != 0)
        exit(9);
}

__attribute__((noinline)) static void allocate(int count)
{
    for (int i = 0; i < count; i++) {
        block = malloc((size_t)i + 1);
        free(block);
    }
}

__attribute__((noinline)) static int go_down(int depth, char *page)
{
    char room[1024];
    memset(room, depth, sizeof room);
    if (depth > 0)
        return go_down(depth - 1, page) + room[depth];
    allocate(MANY);
    forbid(page, PROT_NONE);
    allocate(MANY);
    forbid(page, PROT_READ | PROT_WRITE);
    allocate(MANY);
    return room[0];
}

static void *run(void *unused)
{
    char room[3 * PAGE];
    memset(room, 1, sizeof room);
    char *page = (char *)((uintptr_t)__builtin_frame_address(0) & ~(uintptr_t)(PAGE - 1));
    for (int i = 0; i < 3; i++)
        go_down(DEEP, page);
    return room[5] == 1 ? unused : (void *)1;
}

int main(int count, char **argv)
{
    const char *way = count > 1 ? argv[1] : "";
    pthread_t thread;
    is_raw = strcmp(way, "raw") == 0;
    if (strcmp(way, "thread") != 0)
        run(NULL);
    else if (pthread_create(&thread, NULL, run, NULL) != 0 || pthread_join(thread, NULL) != 0)
        return 8;
    puts("end");
    block = malloc(5);
    block[5] = 1;
    free(block);
    return 0;
}

/* Memory: maps, their places, refused calls, and the allocator. */
#define _GNU_SOURCE
#include <fcntl.h>
#include <malloc.h>
#include <signal.h>
#include <stdalign.h>
#include <stdbool.h>
#include <stdint.h>
#include <sys/mman.h>
#include <sys/resource.h>
#include <sys/shm.h>
#include <sys/syscall.h>
#include <sys/wait.h>

#include "alone.h"

static char *pages(size_t count)
{
    return mmap(NULL, count * 4096, PROT_READ | PROT_WRITE, MAP_PRIVATE | MAP_ANONYMOUS, -1, 0);
}

static void say_hint(size_t hint, size_t size, int flags)
{
    errno = 0;
    void *got = mmap((void *)hint, size, PROT_NONE, MAP_PRIVATE | MAP_ANONYMOUS | MAP_NORESERVE | flags, -1, 0);
    say("%zx, %zx: %s %s", hint, size,
        got == MAP_FAILED     ? "refused"
        : got == (void *)hint ? "there"
                              : "elsewhere",
        errno ? strerrorname_np(errno) : "");
    if (got != MAP_FAILED)
        munmap(got, size);
}

SITUATION(hints_of_maps)
{
    static const size_t hints[] = {0x10000,        0x1000000,      0x40000000,    0x80000000,
                                   0x100000000,    0x1000000000,   0x8000000000,  0x20000000000,
                                   0x300000000000, 0x500000000000, 0x660000000000};
    for (size_t i = 0; i < sizeof hints / sizeof *hints; i++) {
        say_hint(hints[i], 4096, 0);
        say_hint(hints[i], 1 << 20, MAP_FIXED_NOREPLACE);
    }
    say_hint(0x300000000000, 4096, MAP_FIXED);
    say_hint(0x7fffffffffff0000, 4096, MAP_FIXED);
    say_hint(0x1001, 4096, MAP_FIXED);
    say_hint(0x1000, 0, 0);
}

SITUATION(low_maps)
{
    void *low = mmap(NULL, 1 << 20, PROT_READ, MAP_PRIVATE | MAP_ANONYMOUS | MAP_32BIT, -1, 0);
    say("%d", (size_t)low < 1ul << 31);
    TELL(munmap(low, 1 << 20));
}

SITUATION(large_maps)
{
    for (int i = 30; i < 48; i++) {
        errno = 0;
        void *got = mmap(NULL, 1ul << i, PROT_NONE, MAP_PRIVATE | MAP_ANONYMOUS | MAP_NORESERVE, -1, 0);
        say("%d: %d %s", i, got != MAP_FAILED, errno ? strerrorname_np(errno) : "");
        if (got != MAP_FAILED)
            munmap(got, 1ul << i);
    }
}

SITUATION(heap_at_break)
{
    int ends[2];
    free(malloc(100));
    say("%d %zd", pipe(ends), write(ends[1], (char *)sbrk(0) - 4096, 1));
}

SITUATION(maps_changed)
{
    char *at = pages(8);
    memset(at, 1, 8 * 4096);
    TELL(mprotect(at, 4096, PROT_READ));
    TELL(mprotect(at + 1, 4096, PROT_READ));
    TELL(munmap(at + 1, 4096));
    TELL(munmap(at, 0));
    TELL(munmap(at, (size_t)1 << 62));
    TELL(munmap(at + 4096, 4096));
    TELL(mprotect(at, 3 * 4096, PROT_READ | PROT_WRITE));
    TELL(madvise(at + 4096, 4096, MADV_DONTNEED));
    TELL(madvise(at + 2 * 4096, 4096, MADV_DONTNEED));
    say("%d %d", at[2 * 4096], at[3 * 4096]);
    TELL(madvise(at + 3 * 4096, 4096, MADV_FREE));
    TELL(madvise(at, 4096, 12345));
    TELL(msync(at, 4096, MS_SYNC));
    TELL(msync(at + 4096, 4096, MS_SYNC));
    unsigned char in[8];
    TELL(mincore(at + 4 * 4096, 4 * 4096, in));
    say("%d %d %d %d", in[0] & 1, in[1] & 1, in[2] & 1, in[3] & 1);
    TELL(mincore(at, 2 * 4096, in));
    TELL(mlock(at, 4096));
    TELL(munlock(at, 4096));
    TELL(mlockall(77));
    TELL(posix_madvise(at, 4096, POSIX_MADV_WILLNEED));
}

SITUATION(maps_moved)
{
    char *at = pages(4), *moved, *other = pages(8);
    at[0] = 9;
    moved = mremap(at, 4 * 4096, 400 * 4096, MREMAP_MAYMOVE);
    say("%d %d", moved != MAP_FAILED, moved[0]);
    TELL(mremap(moved, 400 * 4096, 4096, 0) == moved);
    TELL(mremap(moved, 4096, 4096, MREMAP_MAYMOVE | MREMAP_FIXED, other) == other);
    say("%d", other[0]);
    TELL(mremap(moved, 4096, 8192, MREMAP_MAYMOVE) == MAP_FAILED);
    TELL(mremap((char *)1, 4096, 8192, MREMAP_MAYMOVE) == MAP_FAILED);
    TELL(mremap(other, 4096, (size_t)1 << 62, MREMAP_MAYMOVE) == MAP_FAILED);
}

SITUATION(maps_of_files)
{
    int file = open("file", O_RDWR | O_CREAT, 0600);
    TELL(ftruncate(file, 8192));
    char *at = mmap(NULL, 8192, PROT_READ | PROT_WRITE, MAP_SHARED, file, 0);
    strcpy(at, "text in the file");
    TELL(msync(at, 8192, MS_SYNC));
    TELL(mmap(NULL, 4096, PROT_READ, MAP_SHARED, 99, 0) == MAP_FAILED);
    TELL(mmap(NULL, 4096, PROT_READ, MAP_SHARED, file, 1) == MAP_FAILED);
    TELL(mmap(NULL, 4096, PROT_READ, 0, file, 0) == MAP_FAILED);
    close(file);
    TELL(munmap(at, 8192));
    int shared = shmget(IPC_PRIVATE, 8192, 0600 | IPC_CREAT);
    char *there = shmat(shared, NULL, 0);
    there[8191] = 1;
    TELL(shmctl(shared, IPC_RMID, NULL));
    TELL(shmdt(there + 4096));
    TELL(shmdt(there));
    TELL(shmdt(there));
    TELL(shmat(999999, NULL, 0) == (void *)-1);
}

SITUATION(break_of_data)
{
    char *before = sbrk(0);
    TELL(sbrk(0) == before);
    TELL(sbrk(4096) == before);
    before[4095] = 1;
    TELL((char *)sbrk(0) - before);
    TELL(brk(before + 100000));
    before[99999] = 1;
    TELL((char *)sbrk(-50000) - before);
    TELL((char *)sbrk(0) - before);
    TELL(brk(before));
    TELL(sbrk((intptr_t)1 << 60) == (void *)-1);
}

SITUATION(code_made)
{
#ifdef __x86_64__
    unsigned char *code = mmap(NULL, 4096, PROT_READ | PROT_WRITE | PROT_EXEC, MAP_PRIVATE | MAP_ANONYMOUS, -1, 0);
    static const unsigned char bytes[] = {0xb8, 42, 0, 0, 0, 0xc3};
    memcpy(code, bytes, sizeof bytes);
    say("%d", ((int (*)(void))(uintptr_t)code)());
    TELL(mprotect(code, 4096, PROT_READ | PROT_EXEC));
    say("%d", ((int (*)(void))(uintptr_t)code)());
#endif
}

SITUATION(many_maps)
{
    char *all[3000];
    int made = 0;
    for (int i = 0; i < 3000; i++) {
        all[i] = pages(2);
        made += all[i] != MAP_FAILED && mprotect(all[i], 4096, PROT_READ) == 0;
    }
    say("%d", made);
    for (int i = 0; i < 3000; i++)
        munmap(all[i], 2 * 4096);
}

SITUATION(requests_refused)
{
    static volatile size_t huge = PTRDIFF_MAX, most = SIZE_MAX;
    TELL(malloc(most) == NULL);
    TELL(malloc(huge + 1) == NULL);
    TELL(malloc(huge - 100) == NULL);
    TELL(calloc(huge, 4) == NULL);
    TELL(calloc(most, most) == NULL);
    void *nothing = calloc(most, 0);
    TELL(nothing != NULL);
    free(nothing);
    char *kept = malloc(100);
    strcpy(kept, "kept");
    TELL(realloc(kept, most - 10) == NULL);
    say("%s", kept);
    TELL(reallocarray(kept, huge, 3) == NULL);
    TELL(realloc(NULL, most) == NULL);
    free(kept);
    void *got = &got;
    TELL(posix_memalign(&got, 3, 10));
    TELL(posix_memalign(&got, 0, 10));
    TELL(posix_memalign(&got, 4, 10));
    say("%d", posix_memalign(&got, 64, most));
    say("%d", got == &got);
    TELL(aligned_alloc(64, most) == NULL);
    TELL(valloc(most) == NULL);
    TELL(pvalloc(most) == NULL);
    TELL(memalign(most / 2 + 1, 1) == NULL);
    TELL(malloc(most / 2 + 100) == NULL);
}

SITUATION(small_requests)
{
    char *nothing = malloc(0), *other = malloc(0);
    TELL(nothing != NULL && other != NULL && nothing != other);
    TELL(realloc(nothing, 0) == NULL);
    free(other);
    other = calloc(0, 5);
    TELL(other != NULL);
    free(other);
    char *block = malloc(10);
    TELL(malloc_usable_size(block) >= 10);
    TELL(malloc_usable_size(NULL));
    free(block);
    free(NULL);
    errno = 77;
    free(malloc(1000));
    free(malloc(1 << 20));
    free(malloc(100 << 20));
    say("%d", errno);
    block = realloc(malloc(10), 1 << 20);
    say("%d", errno);
    free(block);
    say("%d", errno);
}

SITUATION(alignments)
{
    for (size_t i = 0; i < 300; i++) {
        void *block = malloc(i);
        if ((size_t)block % alignof(max_align_t) != 0)
            say("%zu", i);
        free(block);
    }
    for (size_t i = 8; i <= 1 << 22; i *= 2) {
        void *block = NULL;
        if (posix_memalign(&block, i, 100) || (size_t)block % i != 0)
            say("%zu", i);
        free(block);
        block = aligned_alloc(i, i);
        if (!block || (size_t)block % i != 0)
            say("%zu", i);
        free(block);
        block = memalign(i, 1);
        if (!block || (size_t)block % i != 0)
            say("%zu", i);
        free(block);
    }
    void *block = valloc(10);
    TELL((size_t)block % 4096);
    free(block);
    block = pvalloc(10);
    TELL((size_t)block % 4096);
    TELL(malloc_usable_size(block) >= 4096);
    free(block);
    void *wide = NULL;
    TELL(posix_memalign(&wide, 1ul << 31, 100));
    free(wide);
}

SITUATION(calls_of_allocator)
{
    TELL(mallopt(M_MMAP_THRESHOLD, 100000));
    TELL(mallopt(M_ARENA_MAX, 1));
    TELL(malloc_info(1, stdout));
    void *volatile kept = malloc(1000);
    TELL(mallinfo2().uordblks >= 1000);
    free(kept);
    TELL(malloc_trim(0) >= 0);
    char *zeroed = calloc(1000, 1000);
    bool is_zero = true;
    for (int i = 0; i < 1000000; i++)
        is_zero &= zeroed[i] == 0;
    say("%d", is_zero);
    free(zeroed);
    char *grown = NULL;
    for (size_t i = 1; i < 2000; i++) {
        grown = realloc(grown, i * 10);
        grown[i * 10 - 1] = (char)i;
    }
    say("%d", grown[19]);
    free(grown);
    char *copy = strdup("text");
    say("%s", copy);
    free(copy);
    char *line = NULL;
    TELL(asprintf(&line, "%d %s", 5, "words"));
    free(line);
}

SITUATION(files_in_memory)
{
    int file = memfd_create("name", MFD_ALLOW_SEALING);
    TELL(ftruncate(file, 4096));
    TELL(fcntl(file, F_ADD_SEALS, F_SEAL_SHRINK | F_SEAL_GROW));
    TELL(ftruncate(file, 1));
    TELL(fcntl(file, F_GET_SEALS));
    TELL(shm_open("/alone-none", O_RDWR, 0600));
    TELL(memfd_create("name", 0x8000));
    TELL(syscall(SYS_memfd_secret, 0) >= 0 || errno == ENOSYS);
}

SITUATION(locked_memory)
{
    TELL(mlockall(MCL_CURRENT | MCL_FUTURE));
    char *at = pages(4);
    at[0] = 1;
    void *volatile block = malloc(100000);
    free(block);
    TELL(munlockall());
}

SITUATION(memory_not_in_children)
{
    char *at = pages(4);
    at[0] = 5;
    TELL(madvise(at, 4096, MADV_WIPEONFORK));
    TELL(madvise(at + 4096, 4096, MADV_DONTFORK));
    pid_t child = fork();
    if (child == 0) {
        say("%d", at[0]);
        unsigned char in;
        TELL(mincore(at + 4096, 4096, &in));
        _exit(0);
    }
    say_end("child", child);
}

SITUATION(memory_by_proc)
{
    static int value = 55;
    int file = open("/proc/self/mem", O_RDWR), seen = 0;
    TELL(pread(file, &seen, sizeof seen, (off_t)(size_t)&value));
    say("%d", seen);
    seen = 66;
    TELL(pwrite(file, &seen, sizeof seen, (off_t)(size_t)&value));
    say("%d", *(int *)hide(&value));
    TELL(pread(file, &seen, sizeof seen, 16));
}

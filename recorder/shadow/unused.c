/* One file of 4 MB that is mapped at each part of the shadow that says "poison". */
#define _GNU_SOURCE
#include "shadow/unused.h"

#include <string.h>
#include <sys/mman.h>
#include <sys/stat.h>

#include "base/descriptors.h"
#include "base/system.h"
#include "shadow/shadow.h"

enum { FILE_BYTES = SHADOW_OF_FILE / GRANULE };

/* The file, and how it is known: the process may close it, and open another one with its number. */
static struct {
    int descriptor;
    dev_t device;
    ino_t node;
} file = {.descriptor = -1};

static bool is_still_open(void)
{
    struct stat seen;
    return file.descriptor >= 0 && system_fstat(file.descriptor, &seen) == 0 && seen.st_dev == file.device
           && seen.st_ino == file.node;
}

/* Beyond a limit on the size of files a signal would come. */
static bool has_room(void)
{
    struct rlimit limit;
    return system_getrlimit(RLIMIT_FSIZE, &limit) == 0 && limit.rlim_cur >= FILE_BYTES;
}

/* Gives a new file its bytes. */
static bool fill(int descriptor)
{
    if (!has_room() || system_ftruncate(descriptor, FILE_BYTES) != 0)
        return false;
    long bytes = system_mmap(NULL, FILE_BYTES, PROT_READ | PROT_WRITE, MAP_SHARED | MAP_POPULATE, descriptor, 0);
    if (bytes < 0)
        return false;
    memset((void *)bytes, SHADE_USER, FILE_BYTES);
    system_munmap((void *)bytes, FILE_BYTES);
    return true;
}

/* Makes the file, unless there is one. */
static bool find_file(void)
{
    struct stat seen;
    if (is_still_open())
        return true;
    int made = descriptor_of_memory(UNUSED_NAME, MFD_CLOEXEC);
    file.descriptor = -1;
    if (made < 0)
        return false;
    if (!fill(made) || system_fstat(made, &seen) != 0) {
        system_close(made);
        return false;
    }
    file.descriptor = descriptor_moved_up(made);
    descriptor_keep(KEPT_UNUSED, file.descriptor, &seen);
    file.device = seen.st_dev;
    file.node = seen.st_ino;
    return true;
}

static void *shadow_at(uint64_t address)
{
    return (void *)(uintptr_t)(SHADOW_START + address / GRANULE);
}

/* Puts the file, or plain memory, in the place of a part of the shadow. */
static bool map(uint64_t address, int flags, int descriptor)
{
    void *at = shadow_at(address);
    flags |= MAP_PRIVATE | MAP_NORESERVE | MAP_FIXED;
    if (system_mmap(at, FILE_BYTES, PROT_READ | PROT_WRITE, flags, descriptor, 0) != (long)at)
        return false;
    system_madvise(at, FILE_BYTES, MADV_DONTDUMP);
    return true;
}

bool unused_show(uint64_t address)
{
    bool is_done = find_file() && map(address, 0, file.descriptor);
    if (is_done)
        shadow_note_file(address, true);
    return is_done;
}

bool unused_show_again(uint64_t address, uint64_t size)
{
    for (uint64_t at = address; at < address + size; at = (at / SHADOW_OF_FILE + 1) * SHADOW_OF_FILE)
        if (!shadow_is_of_file(at))
            return false;
    return system_madvise(shadow_at(address), size / GRANULE, MADV_DONTNEED) == 0;
}

void unused_hide(uint64_t address)
{
    if (!shadow_is_of_file(address) || !map(address, MAP_ANONYMOUS, -1))
        return;
    system_madvise(shadow_at(address), FILE_BYTES, MADV_NOHUGEPAGE);
    shadow_note_file(address, false);
}

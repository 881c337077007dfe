/* A table, whose memory doubles. What of a region is there is asked of the map of the process when leaks are looked
   for. */
#define _GNU_SOURCE
#include "leaks/root_regions.h"

#include <fcntl.h>
#include <stdbool.h>
#include <string.h>
#include <sys/mman.h>

#include "base/platform.h"
#include "base/say.h"
#include "base/system.h"
#include "heap/heap.h"
#include "stream/maps.h"

struct region {
    uintptr_t start, size;
};

static struct region *regions;
static size_t region_count, region_room;

/* Whether there is room for one more. */
static bool make_room(void)
{
    enum { FIRST_ROOM = PAGE / sizeof(struct region) };
    size_t room = region_room != 0 ? 2 * region_room : FIRST_ROOM;
    if (region_count < region_room)
        return true;
    long made = system_mmap(NULL, room * sizeof *regions, PROT_READ | PROT_WRITE, MAP_PRIVATE | MAP_ANONYMOUS, -1, 0);
    if (made < 0)
        return false;
    if (region_count != 0) {
        memcpy((void *)made, regions, region_count * sizeof *regions);
        system_munmap(regions, region_room * sizeof *regions);
    }
    regions = (struct region *)made;
    region_room = room;
    return true;
}

void root_region_add(const void *start, size_t size)
{
    if (size == 0)
        return;
    heap_lock();
    bool has_room = make_room();
    if (has_room)
        regions[region_count++] = (struct region){(uintptr_t)start, size};
    heap_unlock();
    if (!has_room)
        recorder_say("false leaks are possible: ", "__lsan_register_root_region", "there is no memory for the region");
}

void root_region_remove(const void *start, size_t size)
{
    heap_lock();
    size_t i = 0;
    while (i < region_count && (regions[i].start != (uintptr_t)start || regions[i].size != size))
        i++;
    if (i < region_count)
        regions[i] = regions[--region_count];
    heap_unlock();
}

/* The map of modules of the process: of a region there may be much that is only reserved. */

enum { MAPS_ROOM = 1 << 26 };

/* Reads it into this much memory, with a zero after it. False: it can't be read. */
static bool read_maps(char *text, size_t room)
{
    int file = system_open("/proc/self/maps", O_RDONLY | O_CLOEXEC, 0);
    size_t length = 0;
    ssize_t more = 0;
    while (file >= 0 && length < room - 1 && (more = system_read(file, text + length, room - 1 - length)) > 0)
        length += (size_t)more;
    if (file >= 0)
        system_close(file);
    text[length] = 0;
    return file >= 0 && more == 0;
}

static bool is_readable(const struct map_line *line)
{
    const char *rights = strchr(line->text, ' ');
    return rights != NULL && rights[1] == 'r';
}

static void visit_parts(const struct map_line *line, void (*visit)(uintptr_t start, uintptr_t end))
{
    for (size_t i = 0; i < region_count; i++) {
        uintptr_t start = regions[i].start, end = start + regions[i].size;
        start = start > line->start ? start : line->start;
        end = end < line->end ? end : line->end;
        if (start < end)
            visit(start, end);
    }
}

void root_regions_visit(void (*visit)(uintptr_t start, uintptr_t end))
{
    int flags = MAP_PRIVATE | MAP_ANONYMOUS | MAP_NORESERVE;
    long made = region_count != 0 ? system_mmap(NULL, MAPS_ROOM, PROT_READ | PROT_WRITE, flags, -1, 0) : -1;
    if (made < 0)
        return;
    char *text = (char *)made;
    struct map_line line;
    bool is_read = read_maps(text, MAPS_ROOM);
    for (const char *at = text; is_read && maps_take_line(at, &line); at = line.next)
        if (is_readable(&line))
            visit_parts(&line, visit);
    for (size_t i = 0; !is_read && i < region_count; i++)
        visit(regions[i].start, regions[i].start + regions[i].size);
    system_munmap(text, MAPS_ROOM);
}

/* A table of groups by call site and kind, which is then sorted in its place: direct leaks first, the most bytes
   first. */
#define _GNU_SOURCE
#include "leaks/lost.h"

#include <sys/mman.h>

#include "base/system.h"
#include "heap/blocks.h"
#include "leaks/marking.h"

/* More groups than there can be stacks: what comes after is counted with those of which no call site is known. */
enum { MOST_GROUPS = 1 << 20 };

static bool is_lost(const struct block *block)
{
    return is_in_use(block) && mark_of(block) != MARK_REACHABLE;
}

static void count_if_lost(const struct block *block, void *count)
{
    *(size_t *)count += is_lost(block);
}

static call_site call_site_of_block(const struct block *block)
{
    return arena.call_sites != NULL ? arena.call_sites[block - arena.blocks].allocated : 0;
}

/* The group of a call site in a table of which a part is free. */
static struct lost_group *group_for(struct lost *lost, call_site site, bool is_indirect)
{
    call_site key = call_site_of_any_thread(lost->count < MOST_GROUPS / 2 ? site : 0);
    uint64_t hash = (key ^ is_indirect) * UINT64_C(0x9e3779b97f4a7c15) >> 20;
    for (;; hash++) {
        struct lost_group *group = &lost->groups[hash & (lost->room - 1)];
        if (group->count == 0) {
            *group = (struct lost_group){.call_site = key == 0 ? 0 : site, .is_indirect = is_indirect};
            lost->count++;
            return group;
        }
        if (call_site_of_any_thread(group->call_site) == key && group->is_indirect == is_indirect)
            return group;
    }
}

/* A block of no bytes counts as one of a byte, as with LeakSanitizer: it is one that is lost. */
static void add_if_lost(const struct block *block, void *to)
{
    if (!is_lost(block))
        return;
    uint64_t size = size_of(block) != 0 ? size_of(block) : 1;
    struct lost_group *group = group_for(to, call_site_of_block(block), mark_of(block) == MARK_INDIRECT);
    if (group->count++ == 0) {
        group->block = (uintptr_t)block_start(block);
        group->size = size;
    }
    group->bytes += size;
}

static bool comes_before(const struct lost_group *one, const struct lost_group *other)
{
    if (one->is_indirect != other->is_indirect)
        return other->is_indirect;
    return one->bytes != other->bytes ? one->bytes > other->bytes : one->block < other->block;
}

/* Moves one down in a heap, at whose top is what comes last. */
static void sift(struct lost_group *groups, size_t at, size_t count)
{
    for (size_t child; (child = 2 * at + 1) < count; at = child) {
        if (child + 1 < count && comes_before(&groups[child], &groups[child + 1]))
            child++;
        if (!comes_before(&groups[at], &groups[child]))
            return;
        struct lost_group moved = groups[at];
        groups[at] = groups[child];
        groups[child] = moved;
    }
}

static void sort(struct lost_group *groups, size_t count)
{
    for (size_t i = count / 2; i-- > 0;)
        sift(groups, i, count);
    for (size_t end = count; end-- > 1;) {
        struct lost_group last = groups[0];
        groups[0] = groups[end];
        groups[end] = last;
        sift(groups, 0, end);
    }
}

static void close_up(struct lost *lost)
{
    size_t count = 0;
    for (size_t i = 0; i < lost->room; i++)
        if (lost->groups[i].count != 0)
            lost->groups[count++] = lost->groups[i];
}

bool lost_find(struct lost *lost)
{
    size_t blocks = 0;
    heap_for_each(count_if_lost, &blocks);
    *lost = (struct lost){.room = 1};
    if (blocks == 0)
        return true;
    while (lost->room < 2 * blocks && lost->room < MOST_GROUPS)
        lost->room *= 2;
    int flags = MAP_PRIVATE | MAP_ANONYMOUS | MAP_NORESERVE;
    long made = system_mmap(NULL, lost->room * sizeof *lost->groups, PROT_READ | PROT_WRITE, flags, -1, 0);
    if (made < 0)
        return false;
    lost->groups = (struct lost_group *)made;
    heap_for_each(add_if_lost, lost);
    close_up(lost);
    sort(lost->groups, lost->count);
    return true;
}

void lost_forget(struct lost *lost)
{
    if (lost->groups != NULL)
        system_munmap(lost->groups, lost->room * sizeof *lost->groups);
}

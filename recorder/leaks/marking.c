/* A byte for each block, and a list of those that were reached and not looked through, the last one first. No
   recursion, and no memory of the allocator's. */
#define _GNU_SOURCE
#include "leaks/marking.h"

#include <sys/mman.h>

#include "base/memory.h"
#include "base/platform.h"
#include "base/system.h"
#include "shadow/shadow.h"

static struct {
    unsigned char *marks; /* for each of arena.blocks, as far as units are used; and behind them: */
    uint32_t *found;      /* blocks that are reachable, and were not looked through yet, by their numbers */
    size_t found_count, bytes;
} marking;

static void *take_memory(size_t bytes)
{
    int flags = MAP_PRIVATE | MAP_ANONYMOUS | MAP_NORESERVE;
    long made = system_mmap(NULL, bytes, PROT_READ | PROT_WRITE, flags, -1, 0);
    return made < 0 ? NULL : (void *)made;
}

static void count_in_use(const struct block *block, void *count)
{
    *(size_t *)count += is_in_use(block);
}

bool marking_begin(void)
{
    size_t count = 1;
    heap_for_each(count_in_use, &count);
    size_t marks = (size_t)block_number(arena.top, 1); /* which is greater than all numbers so far */
    marks = (marks + sizeof *marking.found - 1) / sizeof *marking.found * sizeof *marking.found;
    marking.bytes = marks + count * sizeof *marking.found;
    marking.found_count = 0;
    marking.marks = take_memory(marking.bytes);
    if (marking.marks == NULL)
        return false;
    marking.found = (uint32_t *)(void *)(marking.marks + marks);
    return true;
}

void marking_end(void)
{
    system_munmap(marking.marks, marking.bytes);
    marking.marks = NULL;
}

enum mark mark_of(const struct block *block)
{
    return marking.marks[block - arena.blocks];
}

/* Each block is marked as reachable once, so there is always room. */
void mark_block(const struct block *block)
{
    size_t number = (size_t)(block - arena.blocks);
    if (marking.marks[number] == MARK_REACHABLE)
        return;
    marking.marks[number] = MARK_REACHABLE;
    marking.found[marking.found_count++] = (uint32_t)number;
}

/* An array of no elements, of a class with a destructor: the block holds their count alone, which is 0, and the program
   the address behind that. */
static const struct block *block_before(uintptr_t address)
{
    const struct block *block = block_in_use(address - sizeof(size_t));
    bool is_count = block != NULL && size_of(block) == sizeof(size_t)
                    && (uintptr_t)block_start(block) == address - sizeof(size_t);
    return is_count && *(const size_t *)block_start(block) == 0 ? block : NULL;
}

/* The block in use to which a word leads, or null. */
static inline const struct block *block_led_to(uintptr_t word)
{
    if (LIKELY(!is_in_arena(word)))
        return NULL;
    const struct block *block = block_in_use(word);
    return block != NULL ? block : block_before(word);
}

/* Goes through words. `from` is the block in which they lie, or null. */
static void scan(uintptr_t start, uintptr_t end, enum mark mark, const struct block *from)
{
    uintptr_t at = (start + sizeof at - 1) / sizeof at * sizeof at;
    for (; at + sizeof at <= end; at += sizeof at) {
        const struct block *block = block_led_to(*(const volatile uintptr_t *)at);
        if (LIKELY(block == NULL) || block == from || mark_of(block) == MARK_REACHABLE || *shadow_of(at) != 0)
            continue;
        if (mark == MARK_REACHABLE)
            mark_block(block);
        else
            marking.marks[block - arena.blocks] = MARK_INDIRECT;
    }
}

/* Goes through memory of which a part may be gone, page by page. False: it has stopped at a gap. */
static bool scan_pages(uintptr_t start, uintptr_t end, enum mark mark, const struct block *from, bool stops_at_gap)
{
    for (uintptr_t at = start, next; at < end; at = next) {
        struct known_page known = {0};
        next = at / PAGE * PAGE + PAGE;
        if (memory_is_there(&known, at / PAGE * PAGE, sizeof at))
            scan(at, next < end ? next : end, mark, from);
        else if (stops_at_gap)
            return false;
    }
    return true;
}

/* The same, and many pages at once where all of them are there. */
static void scan_parts(uintptr_t start, uintptr_t end, enum mark mark, const struct block *from, bool stops_at_gap)
{
    enum { PART = 1 << 21 };
    for (uintptr_t at = start, next; at < end; at = next) {
        next = at / PART * PART + PART < end ? at / PART * PART + PART : end;
        bool has_pages = next - at / PAGE * PAGE > PAGE;
        if (has_pages && memory_is_all_there(at, next))
            scan(at, next, mark, from);
        else if (!scan_pages(at, next, mark, from, stops_at_gap))
            return;
    }
}

/* The process may have taken the rights from pages that it has allocated. */
static void scan_block(const struct block *block, enum mark mark)
{
    uintptr_t start = (uintptr_t)block_start(block), end = start + size_of(block);
    if (size_of(block) < PAGE && start % PAGE != 0)
        scan(start, end, mark, block);
    else
        scan_parts(start, end, mark, block, false);
}

void mark_word(uintptr_t word)
{
    const struct block *block = block_led_to(word);
    if (block != NULL)
        mark_block(block);
}

void mark_range(uintptr_t start, uintptr_t end)
{
    scan_parts(start, end, MARK_REACHABLE, NULL, false);
}

void mark_up_to_gap(uintptr_t start, uintptr_t end)
{
    scan_parts(start, end, MARK_REACHABLE, NULL, true);
}

void mark_reachable(void)
{
    while (marking.found_count > 0)
        scan_block(arena.blocks + marking.found[--marking.found_count], MARK_REACHABLE);
}

static void scan_if_lost(const struct block *block, void *unused)
{
    (void)unused;
    if (is_in_use(block) && mark_of(block) != MARK_REACHABLE)
        scan_block(block, MARK_INDIRECT);
}

void mark_indirect(void)
{
    heap_for_each(scan_if_lost, NULL);
}

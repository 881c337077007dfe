/* Tables are noted by the constructors of their objects, and may be looked for at any time, in a signal handler too. So
   there is no lock: an entry is whole once it has its count, and the tables are read by way of the system. */
#define _GNU_SOURCE
#include "shadow/globals.h"

#include <stdatomic.h>
#include <sys/mman.h>

#include "base/memory.h"
#include "base/platform.h"
#include "base/system.h"

enum { ENTRIES = 100 };
/* So far from a table an address may be nearest to one of its globals. */
enum { REACH = 256 };
/* The number of globals that are read at a time. */
enum { AT_ONCE = 4, VISITED_AT_ONCE = 64 };

struct entry {
    const struct global *_Atomic table;
    _Atomic uint64_t count;      /* 0: not noted yet, or closed */
    _Atomic uint64_t start, end; /* of the memory that its globals have */
};

static AS_TABLE struct page {
    struct page *_Atomic next;
    struct entry entries[ENTRIES];
} first;

static _Atomic uint64_t generation;

uint64_t globals_generation(void)
{
    return atomic_load(&generation);
}

/* The page after this one, which is made. Null: there is no memory. */
static struct page *page_after(struct page *page)
{
    struct page *next = atomic_load(&page->next), *made;
    if (next != NULL)
        return next;
    long start = system_mmap(NULL, sizeof *made, PROT_READ | PROT_WRITE, MAP_PRIVATE | MAP_ANONYMOUS, -1, 0);
    if (start < 0)
        return NULL;
    made = (struct page *)start;
    if (atomic_compare_exchange_strong(&page->next, &next, made))
        return made;
    system_munmap(made, sizeof *made);
    return next;
}

/* An entry for this table: of one that was closed, or one that was never used. */
static struct entry *take_entry(const struct global *table)
{
    for (struct page *page = &first; page != NULL; page = page_after(page)) {
        for (uint32_t i = 0; i < ENTRIES; i++) {
            const struct global *none = NULL;
            if (atomic_load_explicit(&page->entries[i].table, memory_order_relaxed) == NULL
                && atomic_compare_exchange_strong(&page->entries[i].table, &none, table))
                return &page->entries[i];
        }
    }
    return NULL;
}

/* Notes a table. Its count goes last: by that the entry is whole. */
static void add(const struct global *table, uint64_t count)
{
    uint64_t start = UINT64_MAX, end = 0;
    struct entry *entry = take_entry(table);
    if (entry == NULL)
        return;
    for (uint64_t i = 0; i < count; i++) {
        uint64_t global_end = table[i].start + table[i].size_with_redzone;
        start = table[i].start < start ? table[i].start : start;
        end = global_end > end ? global_end : end;
    }
    atomic_store(&entry->start, start);
    atomic_store(&entry->end, end);
    atomic_store_explicit(&entry->count, count, memory_order_release);
}

/* Those that lie in this memory. */
static void take_away(const struct global *from, const struct global *to)
{
    for (struct page *page = &first; page != NULL; page = atomic_load(&page->next)) {
        for (uint32_t i = 0; i < ENTRIES; i++) {
            const struct global *table = atomic_load(&page->entries[i].table);
            if (table == NULL || (uintptr_t)table < (uintptr_t)from || (uintptr_t)table >= (uintptr_t)to)
                continue;
            atomic_store(&page->entries[i].count, 0);
            atomic_store(&page->entries[i].table, NULL);
        }
    }
}

void globals_note(const struct global *table, uint64_t count, bool is_there)
{
    if (is_there && count != 0)
        add(table, count);
    else
        take_away(table, table + count);
    atomic_fetch_add(&generation, 1);
}

static uint64_t distance(uint64_t address, const struct global *global)
{
    if (address < global->start)
        return global->start - address;
    uint64_t into = address - global->start;
    return into < global->size ? 0 : into - global->size + 1;
}

/* Whether an address is in the span of a global, or as near before it as the redzone of another one may be. */
static bool is_near(uint64_t address, const struct global *global)
{
    return address + REACH >= global->start && address < global->start + global->size_with_redzone;
}

static bool may_have(const struct entry *entry, uint64_t address)
{
    return atomic_load_explicit(&entry->count, memory_order_acquire) != 0
           && address + REACH >= atomic_load_explicit(&entry->start, memory_order_relaxed)
           && address < atomic_load_explicit(&entry->end, memory_order_relaxed);
}

bool globals_may_have(uint64_t address)
{
    for (struct page *page = &first; page != NULL; page = atomic_load(&page->next))
        for (uint32_t i = 0; i < ENTRIES; i++)
            if (may_have(&page->entries[i], address))
                return true;
    return false;
}

/* Looks for a nearer one than so far. Of two that are as near it is the one before the address. */
static void look_at(const struct entry *entry, uint64_t address, struct global *nearest, uint64_t *least)
{
    struct global globals[AT_ONCE];
    uint64_t count = atomic_load(&entry->count), from = (uintptr_t)atomic_load(&entry->table);
    if (!may_have(entry, address))
        return;
    for (uint64_t i = 0, more; i < count; i += more) {
        more = count - i < AT_ONCE ? count - i : AT_ONCE;
        if (!memory_read(from + i * sizeof *globals, globals, more * sizeof *globals))
            return;
        for (uint64_t k = 0; k < more; k++) {
            uint64_t far = distance(address, &globals[k]);
            if (is_near(address, &globals[k]) && (far < *least || (far == *least && globals[k].start < address))) {
                *least = far;
                *nearest = globals[k];
            }
        }
    }
}

bool globals_find(uint64_t address, struct global *nearest)
{
    uint64_t least = UINT64_MAX;
    for (struct page *page = &first; page != NULL; page = atomic_load(&page->next))
        for (uint32_t i = 0; i < ENTRIES; i++)
            look_at(&page->entries[i], address, nearest, &least);
    return least != UINT64_MAX;
}

static void visit_table(const struct entry *entry, void visit(const struct global *global, void *with), void *with)
{
    struct global globals[VISITED_AT_ONCE];
    uint64_t count = atomic_load_explicit(&entry->count, memory_order_acquire);
    uint64_t from = (uintptr_t)atomic_load(&entry->table);
    for (uint64_t i = 0, more; i < count; i += more) {
        more = count - i < VISITED_AT_ONCE ? count - i : VISITED_AT_ONCE;
        if (!memory_read(from + i * sizeof *globals, globals, more * sizeof *globals))
            return;
        for (uint64_t k = 0; k < more; k++)
            visit(&globals[k], with);
    }
}

void globals_each(void visit(const struct global *global, void *with), void *with)
{
    for (struct page *page = &first; page != NULL; page = atomic_load(&page->next))
        for (uint32_t i = 0; i < ENTRIES; i++)
            visit_table(&page->entries[i], visit, with);
}

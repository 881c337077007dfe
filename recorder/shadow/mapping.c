/* Where the shadow lies. This is linked into the program and into each shared object: one may be opened by a program
   that has no recorder, and its code reads and writes the shadow all the same. Each object knows of itself whether it
   has mapped (`is_mapped`), and where its code lies (`own_code`). In shared objects the dynamic linker calls
   map_at_relocation, and gets do_nothing, which nobody calls. */
#define _GNU_SOURCE
#include "shadow/mapping.h"

#include <elf.h>
#include <errno.h>
#include <stdatomic.h>
#include <string.h>
#include <sys/mman.h>
#include <unistd.h>

#include "base/errors.h"
#include "base/system.h"
#include "shadow/shadow.h"

#ifndef IN_SHARED_OBJECT
#include "base/tables.h"
#include "libc/library.h"
#include "environment/orphan.h"
#include "environment/settings.h"
#include "environment/hub_word.h"

extern const struct recorder_hooks asancol_hooks;
#endif

/* Its code reads the shadow before each access, so nothing of the program can run without it. */
static _Noreturn void fail(const char *why)
{
    static const char front[] = "asancol: the program cannot run without room for its shadow: ";
    static const char advice[] = "; build it without asancol-cc to run it so\n";
    const char *const pieces[] = {front, why, advice};
    for (size_t i = 0; i < sizeof pieces / sizeof *pieces; i++)
        if (system_write(STDERR_FILENO, pieces[i], strlen(pieces[i])) < 0)
            break;
#ifndef IN_SHARED_OBJECT
    if (settings_hub() != NULL)
        hub_word_note(settings_hub(), why);
    else
        orphan_say(why);
#endif
    system_exit(127);
}

static const char taken[] = "something else has its addresses";

/* Why the system does not map it. No system refuses its addresses as invalid, but Valgrind keeps them for itself. */
static const char *refusal(int error)
{
    if (error == EINVAL)
        return "its addresses are refused, as by Valgrind, under which it cannot run";
    if (error == ENOMEM)
        return "address space is limited (ulimit -v or -d, or vm.overcommit_memory=2)";
    return error_text(error);
}

#if MAY_BE_EMULATED

/* As memory.c asks. */
static bool is_there(uint64_t page)
{
    return system_sigprocmask(-1, (const uint64_t *)page, NULL) == -EINVAL;
}

#endif

enum { MAP_FLAGS = MAP_PRIVATE | MAP_ANONYMOUS | MAP_NORESERVE | MAP_FIXED_NOREPLACE };

/* Why it can't be mapped; null: it is, by this call or another object's. */
static const char *map_part(uint64_t address, uint64_t bytes, int rights, bool *is_new)
{
    void *at = (void *)address;
    long start = system_mmap(at, bytes, rights, MAP_FLAGS, -1, 0);
    /* A system that does not know MAP_FIXED_NOREPLACE takes the address for a hint. */
#if MAY_BE_EMULATED
    if (start > 0 && start != (long)at && is_there(address) && is_there(address + bytes - PAGE)) {
        system_munmap((void *)start, bytes);
        start = -EEXIST;
    }
#endif
    if (start < 0 && start != -EEXIST)
        return refusal((int)-start);
    if (start > 0 && start != (long)at)
        return taken;
    /* Where another object of the process came first, the whole range is mapped. If anything else has a part of it, the
       rest is a hole, of which the system says ENOMEM here. */
    *is_new = start > 0;
    if (!*is_new && system_madvise(at, bytes, MADV_DONTDUMP) == -ENOMEM)
        return taken;
    return NULL;
}

#if MEMORY_VARIES

uint64_t memory_end = FEWEST_END;
uintptr_t system_page = PAGE;

/* How many bytes a page has: advice on no bytes is refused at any address that begins none. */
static void find_page(void)
{
    while (system_page < MOST_PAGE && system_madvise((const void *)system_page, 0, MADV_NORMAL) == -EINVAL)
        system_page *= 2;
}

/* Whether the system has this address for processes. */
static bool has_address(uint64_t address)
{
    long start = system_mmap((void *)address, SYSTEM_PAGE, PROT_NONE, MAP_FLAGS, -1, 0);
    if (start > 0)
        system_munmap((void *)start, SYSTEM_PAGE);
    return start == (long)address || start == -EEXIST;
}

/* And how many bits the addresses have, as far as there is a shadow for them. It calls the system alone. */
static void find_system(void)
{
    find_page();
    if (processor_is_emulated((uintptr_t)__builtin_frame_address(0)))
        return;
    for (unsigned bits = ADDRESS_BITS; bits >= MORE_BITS; bits--) {
        if (!has_address((uint64_t)1 << (bits - 1)))
            continue;
        memory_end = (uint64_t)1 << bits;
        return;
    }
}

/* Which parts of memory have a shadow: the last one has no bytes. */
struct parts {
    struct code_range each[EMULATED_COUNT + 1];
};

static void parts_of(struct parts *parts)
{
    static const struct code_range emulated[] = {EMULATED_PARTS};
    _Static_assert(sizeof emulated / sizeof *emulated == EMULATED_COUNT, "there is room");
    struct code_range *next = parts->each;
    if (processor_is_emulated((uintptr_t)__builtin_frame_address(0))) {
        for (size_t i = 0; i < EMULATED_COUNT; i++)
            *next++ = emulated[i];
    } else if (memory_end > FEWEST_END) {
        *next++ = (struct code_range){0, FEWEST_END};
        *next++ = (struct code_range){HOLE_END, memory_end - HOLE_END};
    } else {
        *next++ = (struct code_range){0, memory_end};
    }
    *next = (struct code_range){0, 0};
}

/* Nothing lies where it would be spelled as memory below the hole's end. The lower hole is in the part of the shadow
   that can't be read, the shadow's own (guard). */
static const char *keep_hole_empty(void)
{
    bool is_new;
    return memory_end > ADDRESS_END ? map_part(ADDRESS_END, HOLE_END, PROT_NONE, &is_new) : NULL;
}

#else

struct parts {
    struct code_range each[2];
};

static inline void parts_of(struct parts *parts)
{
    *parts = (struct parts){{{0, MEMORY_END}, {0, 0}}};
}

static inline void find_system(void)
{
}

static inline const char *keep_hole_empty(void)
{
    return NULL;
}

#endif

#ifdef IN_SHARED_OBJECT

static void map_at_once(void)
{
    struct parts parts;
    parts_of(&parts);
    for (const struct code_range *it = parts.each; it->size != 0; it++)
        system_mmap((void *)(SHADOW_START + it->start / GRANULE), it->size / GRANULE, PROT_READ | PROT_WRITE, MAP_FLAGS,
                    -1, 0);
}

#endif

/* Maps the shadow, part by part. Answers what went wrong, or null. */
static const char *map_shadow(bool *is_new)
{
    struct parts parts;
    const char *why = NULL;
    parts_of(&parts);
    for (const struct code_range *it = parts.each; it->size != 0 && why == NULL; it++)
        why = map_part(SHADOW_START + it->start / GRANULE, it->size / GRANULE, PROT_READ | PROT_WRITE, is_new);
    return why;
}

static void advise_shadow(int advice)
{
    struct parts parts;
    parts_of(&parts);
    for (const struct code_range *it = parts.each; it->size != 0; it++)
        system_madvise((void *)(SHADOW_START + it->start / GRANULE), it->size / GRANULE, advice);
}

#ifdef IN_SHARED_OBJECT

enum { TABLES_BYTES = 0 };
#define TABLES HOOK_PAGE_START

static inline const char *map_tables(void)
{
    return NULL;
}

#else

enum { TABLES_BYTES = sizeof(struct tables) };

/* They are of this recorder alone. */
static const char *map_tables(void)
{
    bool is_new = false;
    const char *why = map_part((uint64_t)TABLES, TABLES_BYTES, PROT_READ | PROT_WRITE, &is_new);
    return why == NULL && !is_new ? taken : why;
}

#endif

static void advise(int advice)
{
    advise_shadow(advice);
    system_madvise((void *)TABLES, TABLES_BYTES, advice);
}

/* What shadow_map_early has mapped. */
static struct {
    bool shadow, is_new, page;
} early;

/* Maps the shadow and the tables. Answers what went wrong, or null. */
static const char *map_both(void)
{
    bool is_new = early.is_new;
    const char *why = keep_hole_empty();
    if (why == NULL && !early.shadow)
        why = map_shadow(&is_new);
    if (why == NULL)
        why = map_tables();
    if (why != NULL)
        return why;
    advise(MADV_DONTDUMP);
    advise(MADV_NOHUGEPAGE);
    return NULL;
}

/* The shadow of what lies in one part of memory. */
static void guard_part(uint64_t start, uint64_t end, const struct code_range *part)
{
    uint64_t part_end = part->start + part->size;
    start = start > part->start ? start : part->start;
    end = end < part_end ? end : part_end;
    if (start < end)
        system_mprotect((void *)shadow_of(start), (end - start) / GRANULE, PROT_NONE);
}

/* A wild pointer into the shadow faults as it would without that: in the compilers' check, which reads the shadow's
   own. */
static void guard(void)
{
    struct parts parts;
    parts_of(&parts);
    for (const struct code_range *it = parts.each; it->size != 0; it++) {
        uint64_t start = SHADOW_START + it->start / GRANULE;
        for (const struct code_range *part = parts.each; part->size != 0; part++)
            guard_part(start, start + it->size / GRANULE, part);
    }
}

#ifndef IN_SHARED_OBJECT

bool is_in_guard(uint64_t address)
{
#if MEMORY_VARIES
    return address - SHADOW_START < SHADOW_BYTES && !is_in_arena(address);
#else
    return address - (uintptr_t)shadow_of(SHADOW_START) < SHADOW_BYTES / GRANULE;
#endif
}

#endif

enum { HOOK_PAGE_FLAGS = MAP_PRIVATE | MAP_ANONYMOUS | MAP_FIXED_NOREPLACE };

/* The program writes into it before the constructors of the objects that are loaded with it. */
static const char *map_hook_page(void)
{
    void *at = (void *)HOOK_PAGE_START;
    long start = early.page ? (long)at : system_mmap(at, PAGE, PROT_READ | PROT_WRITE, HOOK_PAGE_FLAGS, -1, 0);
#if MAY_BE_EMULATED
    if (start > 0 && start != (long)at && is_there(HOOK_PAGE_START)) {
        system_munmap((void *)start, PAGE);
        start = -EEXIST;
    }
#endif
#ifdef IN_SHARED_OBJECT
    if (start == -EEXIST)
        return NULL;
#else
    /* An object has mapped an empty one when it was relocated. */
    if (start == -EEXIST && system_mprotect(at, PAGE, PROT_READ | PROT_WRITE) == 0)
        start = (long)at;
#endif
    if (start != (long)at)
        return taken;
#ifndef IN_SHARED_OBJECT
#ifndef IS_PRELOAD
    ((struct hook_page *)at)->program = own_code;
#endif
    library_find(at);
    struct hook_page *page = at;
    page->hooks = &asancol_hooks;
    page->functions = &library;
    page->release = RELEASE;
#endif
    system_mprotect(at, PAGE, PROT_READ);
    return NULL;
}

#ifndef IN_SHARED_OBJECT

void shadow_switch(const struct switches *switches)
{
    struct hook_page *page = (struct hook_page *)HOOK_PAGE_START;
    if (memcmp(&page->switches, switches, sizeof *switches) == 0
        || system_mprotect(page, PAGE, PROT_READ | PROT_WRITE) != 0)
        return;
    page->switches = *switches;
    system_mprotect(page, PAGE, PROT_READ);
}

#endif

/* The header of the object's own file, made by the linker. */
extern const Elf64_Ehdr __ehdr_start __attribute__((visibility("hidden"), weak));

struct code_range own_code;
/* Its offset from the addresses in its headers. */
static uintptr_t own_base;

static const Elf64_Phdr *segments_of(const Elf64_Ehdr *header)
{
    return (const Elf64_Phdr *)((const unsigned char *)header + header->e_phoff);
}

/* Finds the object's code by its own header, from the first segment to the last. */
static void find_own_code(void)
{
    const Elf64_Ehdr *header = &__ehdr_start;
    if (header == NULL)
        return;
    const Elf64_Phdr *segment = segments_of(header);
    uintptr_t start = UINTPTR_MAX, end = 0;
    for (unsigned i = 0; i < header->e_phnum; i++) {
        if (segment[i].p_type != PT_LOAD)
            continue;
        start = segment[i].p_vaddr < start ? segment[i].p_vaddr : start;
        end = segment[i].p_vaddr + segment[i].p_memsz;
    }
    own_code = (struct code_range){(uintptr_t)header, end - start};
    own_base = (uintptr_t)header - start;
}

#ifndef IN_SHARED_OBJECT

bool is_in_own_file(uint64_t start, uint64_t size)
{
    if (start - own_code.start >= own_code.size)
        return false;
    const Elf64_Phdr *segment = segments_of(&__ehdr_start);
    for (unsigned i = 0; i < __ehdr_start.e_phnum; i++) {
        uint64_t into = start - own_base - segment[i].p_vaddr;
        if (segment[i].p_type == PT_LOAD && into < segment[i].p_memsz && size <= segment[i].p_memsz - into)
            return (segment[i].p_flags & PF_R) != 0;
    }
    return false;
}

#endif

#ifdef IN_SHARED_OBJECT

static void do_nothing(void)
{
}

/* Code of this object may run before its constructors: libstdc++ has the same functions as each object that was made of
   its headers, and takes those of the object that comes first. So the pages that such code reads are mapped when the
   object is relocated, which is when the dynamic linker asks a resolver. No call of a library works yet. */
__attribute__((used)) static void (*map_at_relocation(void))(void)
{
    find_system();
    map_at_once();
    system_mmap((void *)HOOK_PAGE_START, PAGE, PROT_READ, HOOK_PAGE_FLAGS, -1, 0);
    return do_nothing;
}

static void at_relocation(void) __attribute__((ifunc("map_at_relocation")));
__attribute__((used)) static void (*const relocated)(void) = at_relocation;

#endif

/* Why the process is none that this is made for; or null. */
static const char *misfit(void)
{
#if MAY_HAVE_LARGER_PAGES
    if (system_madvise((const void *)SYSTEM_PAGE, 0, MADV_NORMAL) == -EINVAL)
        return "the system has pages of more than 64 KiB";
#endif
#if MEMORY_VARIES
    if ((uintptr_t)__builtin_frame_address(0) >= MEMORY_END)
        return "its addresses have neither 39 nor 47 or 48 bits";
#endif
    return NULL;
}

/* The first call into the object: all that it needs. Answers what went wrong, or null. */
static const char *map_all(void)
{
    find_system();
    const char *why = misfit();
    if (why != NULL)
        return why;
    find_own_code();
#ifndef IN_SHARED_OBJECT
    library_begin();
#endif
    why = map_both();
    if (why == NULL)
        why = map_hook_page();
    if (why != NULL)
        return why;
    guard();
    return NULL;
}

#if !defined IN_SHARED_OBJECT && !defined IS_STATIC && !defined IS_PRELOAD

void shadow_map_early(void)
{
    find_system();
    if (misfit() != NULL)
        return;
    early.shadow = map_shadow(&early.is_new) == NULL;
    early.page = system_mmap((void *)HOOK_PAGE_START, PAGE, PROT_READ | PROT_WRITE, HOOK_PAGE_FLAGS, -1, 0)
                 == HOOK_PAGE_START;
}

#endif

static bool is_mapped;

void shadow_map(void)
{
    if (is_mapped)
        return;
    is_mapped = true;
    const char *why = map_all();
    if (why != NULL)
        fail(why);
}

#ifdef IS_PRELOAD

bool shadow_try_to_map(void)
{
    if (!is_mapped)
        is_mapped = map_all() == NULL;
    return is_mapped;
}

#endif

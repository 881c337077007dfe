/* No list of roots: each is visited, and its words are marked at once (marking.h). All other threads stand still. */
#define _GNU_SOURCE
#include "leaks/roots.h"

#include <link.h>
#include <stdatomic.h>
#include <string.h>

#include "base/memory.h"
#include "base/own_zeros.h"
#include "base/platform.h"
#include "environment/startup.h"
#include "libc/library.h"
#include "heap/blocks.h"
#include "heap/heap.h"
#include "leaks/marking.h"
#include "leaks/root_regions.h"
#include "process/world.h"
#include "process/threads.h"
#include "shadow/shadow.h"
#include "stacks/fake_stack.h"
#include "stacks/own_stack.h"

/* The state of all threads and modules, in one search. */
static struct {
    size_t static_size;             /* of the memory before a thread's control block, which is that of modules */
    size_t control_size;            /* of the control block */
    uintptr_t loader, loader_end;   /* the loader's code */
} seen;

/* Modules. */

/* The recorder's own variables lie in one piece, and lead nowhere. */
static void mark_outside_own(uintptr_t start, uintptr_t end)
{
    uintptr_t own = (uintptr_t)own_zeros_begin, own_end = (uintptr_t)own_zeros_end;
    if (own_end <= start || own >= end) {
        mark_range(start, end);
        return;
    }
    mark_range(start, own);
    mark_range(own_end, end);
}

static void mark_segments(uintptr_t base, const ElfW(Phdr) *parts, size_t count)
{
    for (size_t i = 0; i < count; i++)
        if (parts[i].p_type == PT_LOAD && (parts[i].p_flags & PF_W))
            mark_outside_own(base + parts[i].p_vaddr, base + parts[i].p_vaddr + parts[i].p_memsz);
}

/* How much of thread-local memory a module has at most. */
static size_t local_size(const ElfW(Phdr) *parts, size_t count)
{
    size_t size = 0;
    for (size_t i = 0; i < count; i++)
        if (parts[i].p_type == PT_TLS)
            size += parts[i].p_memsz + parts[i].p_align;
    return size;
}

#ifdef IS_STATIC

extern const ElfW(Ehdr) header_of_program NAMED("__ehdr_start") __attribute__((visibility("hidden")));

/* There is one module. Of an object that it opens nothing is known. */
static void mark_modules(void)
{
    const ElfW(Phdr) *parts = (const ElfW(Phdr) *)((uintptr_t)&header_of_program + header_of_program.e_phoff);
    uintptr_t base = (uintptr_t)&header_of_program;
    for (size_t i = 0; i < header_of_program.e_phnum; i++)
        if (parts[i].p_type == PT_LOAD && parts[i].p_offset == 0)
            base -= parts[i].p_vaddr;
    mark_segments(base, parts, header_of_program.e_phnum);
    seen.static_size = local_size(parts, header_of_program.e_phnum);
}

#else

static bool is_loader(const char *path)
{
    static const char front[] = "ld-linux";
    const char *slash = strrchr(path, '/');
    return strncmp(slash != NULL ? slash + 1 : path, front, sizeof front - 1) == 0;
}

static void note_loader(uintptr_t base, const ElfW(Phdr) *parts, size_t count)
{
    for (size_t i = 0; i < count; i++)
        if (parts[i].p_type == PT_LOAD && (parts[i].p_flags & PF_X)) {
            seen.loader = base + parts[i].p_vaddr;
            seen.loader_end = seen.loader + parts[i].p_memsz;
        }
}

static int mark_module(struct dl_phdr_info *module, size_t size, void *unused)
{
    (void)size, (void)unused;
    mark_segments(module->dlpi_addr, module->dlpi_phdr, module->dlpi_phnum);
    seen.static_size += local_size(module->dlpi_phdr, module->dlpi_phnum);
    if (is_loader(module->dlpi_name))
        note_loader(module->dlpi_addr, module->dlpi_phdr, module->dlpi_phnum);
    return 0;
}

static void mark_modules(void)
{
    size_t size = 0, alignment;
    library.dl_iterate_phdr(mark_module, NULL);
    if (library._dl_get_tls_static_info != NULL)
        library._dl_get_tls_static_info(&size, &alignment);
    if (size != 0)
        seen.static_size = size;
}

#endif

/* Threads. */

/* A stack that is not known reaches so far up. */
enum { UNKNOWN_REACH = 8 << 20 };
#define MOST_OF_STACK ((uintptr_t)1 << 30)

/* The modules' thread-local memory, and what the C library keeps of the thread: keys, its result, and where dynamic
   memory of modules lies, which is in blocks. */
static void mark_local(uintptr_t control)
{
    uintptr_t now[2], vector, count; /* the vector has pairs of words, after one with how many there are */
    enum { PAIR = 2 * sizeof count, MOST_PAIRS = 1 << 16 };
    struct known_page page = {0}; /* no other thread runs that could take one away */
    if (control == 0)
        return;
    mark_range(LOCAL_START(control, seen.static_size, seen.control_size),
               LOCAL_END(control, seen.static_size, seen.control_size));
    if (!memory_is_there(&page, control, sizeof now))
        return;
    memcpy(now, (const void *)control, sizeof now);
    vector = now[LOCAL_VECTOR_WORD];
    if (!memory_is_there(&page, vector - PAIR, sizeof count))
        return;
    memcpy(&count, (const void *)(vector - PAIR), sizeof count);
    mark_range(vector, vector + (count < MOST_PAIRS ? count : 0) * PAIR + PAIR);
}

static bool is_on(const struct own_stack *own, uintptr_t stack)
{
    if (stack >= own->top)
        return false;
    return stack >= own->low || (own->may_grow && stack >= own->other && own->top - stack < MOST_OF_STACK);
}

/* A thread whose stack pointer is not on its own stack is in a handler, or on the stack of a coroutine: then nobody
   knows how much of its own is in use. A stack in a block is gone through with that. */
static void mark_stack(const struct own_stack *own, uintptr_t stack, uintptr_t control)
{
    if (is_on(own, stack)) {
        mark_range(stack, own->top);
        return;
    }
    mark_range(own->low, own->top);
    if (own->top == 0 && stack < control && control - stack < MOST_OF_STACK)
        mark_up_to_gap(stack, control);
    else if (!is_in_arena(stack))
        mark_up_to_gap(stack, stack + UNKNOWN_REACH);
}

/* Of another thread: it has that at the same distance from its control block as this one. */
static struct own_stack stack_of(uintptr_t control)
{
    struct own_stack own = {.top = 0};
    uintptr_t distance = (uintptr_t)&own_stack - world_own_control();
    if (control != 0 && !memory_read(control + distance, &own, sizeof own))
        own = (struct own_stack){.top = 0};
    return own;
}

/* The registers, also those of vectors. */
static void mark_registers(const ucontext_t *context)
{
    const uintptr_t *registers = CONTEXT_WORDS(context);
    uintptr_t vectors = CONTEXT_VECTORS(context);
    for (int i = 0; i < CONTEXT_WORD_COUNT; i++)
        mark_word(registers[i]);
    if (vectors != 0)
        mark_range(vectors, vectors + processor_vectors_size(vectors));
}

static void mark_thread(const struct stopped_thread *thread)
{
    struct own_stack own = stack_of(thread->control);
    mark_registers(thread->context);
    mark_stack(&own, CONTEXT_STACK(thread->context) - RED_ZONE, thread->control);
    mark_local(thread->control);
}

/* Blocks that are roots. */

/* What the loader has allocated is reachable, as with LeakSanitizer: it is thread-local memory of modules, which only
   the loader knows how to find. So is a block of unknown origin: it came before all others.
   */
static void mark_if_root(const struct block *block, void *unused)
{
    (void)unused;
    if (!is_in_use(block) || mark_of(block) == MARK_REACHABLE)
        return;
    uintptr_t caller =
        arena.call_sites != NULL ? call_site_address(arena.call_sites[block - arena.blocks].allocated) : 0;
    bool is_of_loader = caller > seen.loader && caller <= seen.loader_end;
    if (block->is_ignored || is_of_loader || caller == 0)
        mark_block(block);
}

void roots_mark(uintptr_t frame)
{
    seen.static_size = 0;
    seen.control_size = library_control_size();
    mark_modules();
    mark_stack(&own_stack, frame, world_own_control());
    mark_up_to_gap((uintptr_t)startup.argv, startup.end); /* programs put their own words in its place */
    mark_local(world_own_control());
    world_visit(mark_thread);
    fake_each_frame(mark_range);
    threads_visit_waiting(mark_word);
    root_regions_visit(mark_range);
    mark_range((uintptr_t)arena.spare, (uintptr_t)arena.spare + atomic_load(&heap.spare_used));
    mark_reachable();
    heap_for_each(mark_if_root, NULL);
    mark_reachable();
}

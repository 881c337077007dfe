/* The locks are taken in this order: the loader's, the allocator's. A thread that has the loader's may wait for the
   allocator's, and no thread the other way round. Then the other threads are stopped, and until they go on nothing is
   called that takes a lock of others than the recorder: it may be held by a thread that stands still. So of the C
   library only dl_iterate_phdr is called, whose lock this thread has, and what takes none (roots.c). This thread is
   undisturbed (base/disturbance.h) all the time. find_lost alone has both; is_wanted, look_from and note have none.
   At an exit the others stay stopped until the process is gone.

   `struct search` is what one search has found: groups of lost blocks (lost.h), or why there is none. */
#define _GNU_SOURCE
#include "leaks/leaks.h"

#include <errno.h>
#include <link.h>
#include <stdatomic.h>
#include <stddef.h>
#include <stdint.h>

#include "base/disturbance.h"
#include "base/platform.h"
#include "base/processor_stubs.h"
#include "base/say.h"
#include "base/self.h"
#include "libc/library.h"
#include "heap/blocks.h"
#include "heap/heap.h"
#include "leaks/lost.h"
#include "leaks/marking.h"
#include "leaks/roots.h"
#include "process/world.h"
#include "environment/startup.h"
#include "stream/findings.h"
#include "stream/side.h"
#include "stream/state.h"

/* The process may say so by a function of this name. */
extern int __lsan_is_turned_off(void) __attribute__((weak));

static _Atomic bool is_over, is_at_end;

struct search {
    uintptr_t frame; /* of the running thread's stack all above is in use */
    const char *why; /* nothing was found out; or null */
    struct lost lost;
};

/* The others stand still, perhaps in another process with this memory. */
static void mark_all(void *of)
{
    const struct search *search = of;
    roots_mark(search->frame);
    mark_indirect();
}

/* With the lock of the allocator, which is held until the end. Returns why it can't be done, or null. */
static const char *find_lost(struct search *search)
{
    if (!arena_is_found())
        return NULL;
    if (!marking_begin())
        return "there is no memory for it";
    const char *why = world_stop_for(mark_all, search, atomic_load(&is_at_end));
    if (why == NULL)
        why = lost_find(&search->lost) ? NULL : "there is no memory for it";
    marking_end();
    return why;
}

static void search_with_heap(struct search *search)
{
    heap_lock();
    search->why = find_lost(search);
    heap_unlock();
}

#ifdef IS_STATIC

static void search_all(struct search *search)
{
    search_with_heap(search);
}

#else

static int search_in_loader(struct dl_phdr_info *module, size_t size, void *search)
{
    (void)module, (void)size;
    search_with_heap(search);
    return 1;
}

/* While the loader goes through its modules there are no other ones, and no thread has its lock. */
static void search_all(struct search *search)
{
    library.dl_iterate_phdr(search_in_loader, search);
}

#endif

/* Makes a finding of each group, once the locks are given back. */
static void note(const struct lost *lost)
{
    for (size_t i = 0; i < lost->count; i++) {
        const struct lost_group *group = &lost->groups[i];
        struct block block = {.family = FAMILY_ANY};
        uintptr_t start;
        arena_find_around(group->block, &block, &start);
        finding_note(&(struct finding){.kind = group->is_indirect ? FINDING_INDIRECT_LEAK : FINDING_LEAK,
                                       .name = family_name((enum family)block.family),
                                       .call_site = group->call_site,
                                       .block = group->block,
                                       .block_size = group->size,
                                       .size = group->bytes,
                                       .count = group->count});
    }
}

static bool is_wanted(void)
{
    return atomic_load(&STREAM->has_side) && plan.settings->with_leaks && recorder_is_own_process()
           && (__lsan_is_turned_off == NULL || !__lsan_is_turned_off());
}

/* Who calls it has stored the registers of its callers, from here on. */
__attribute__((used)) static bool look_from(uintptr_t frame) OWN_NAME(look_from);
static bool look_from(uintptr_t frame)
{
    struct search search = {.frame = frame};
    struct disturbance before;
    if (heap_is_entered()) {
        search.why = "a signal interrupted the allocator"; /* which a correct program may do: it is said, and no more */
    } else {
        _Atomic uint64_t *calls = side_begin_calls(false);
        undisturbed_begin(&before);
        search_all(&search);
        undisturbed_end(&before);
        side_end_calls(calls);
        side_note_leaks_missed(search.why != NULL);
    }
    if (search.why != NULL)
        recorder_say("leaks are not looked for: ", startup_name(), search.why);
    note(&search.lost);
    bool has_found = search.lost.count != 0;
    lost_forget(&search.lost);
    return has_found;
}

/* Stores the registers that belong to the caller, and goes on in look_from. What lies below is the recorder's own, and
   may lead to blocks that were freed of all else long ago. */
bool look(void) OWN_NAME(look);
TOP_ASM(".pushsection .text\n"
        ".p2align 4\n"
        ".hidden asancol_look\n"
        ".globl asancol_look\n"
        ".type asancol_look,@function\n"
        "asancol_look:\n"
        ".cfi_startproc\n"
        CALL_WITH_REGISTERS("asancol_look_from")
        ".cfi_endproc\n"
        ".size asancol_look, .-asancol_look\n"
        ".popsection\n");

bool leaks_look_now(void)
{
    int error = errno;
    bool has_found = is_wanted() && look();
    errno = error;
    return has_found;
}

void leaks_look_once(void)
{
    if (!atomic_exchange(&is_over, true))
        leaks_look_now();
}

bool leaks_are_wanted(void)
{
    return !atomic_load(&is_over) && is_wanted();
}

void leaks_look_at_end(bool is_end)
{
    atomic_store(&is_at_end, is_end);
    leaks_look_once();
}

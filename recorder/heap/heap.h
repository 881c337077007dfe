/* The allocator.

   Called: as each function says, in any thread, also in a handler; what stream/ calls goes by `above`
   (stream/state.h). Lock: heap_lock takes the allocator's, which is the gate's, with no thread in a shard
   (blocks.h): then "the heap is locked". heap_ignore, heap_count, heap_trim, heap_paint, heap_live_size,
   heap_say_allocated and heap_thread_ends take it too, or the shard, unless this thread is in there; so do
   heap_ends_here and heap_left_by_jump if a handler has left something. The others need none, if they do not say so,
   and it may be held. */
#ifndef ASANCOL_HEAP_H
#define ASANCOL_HEAP_H

#include <stdbool.h>
#include <stddef.h>
#include <stdint.h>

#include "base/platform.h"
#include "libc/family.h"

/* How many bytes of freed spans are held from now on. (process/process.c, stream/state.c) */
void heap_set_bound(uint64_t bytes);
/* More may be held since before. The heap is locked. (process/process.c) */
void heap_release_down_to_bound(void);
/* This thread ends, and allocates hardly anything any more. (process/threads.c) */
void heap_thread_ends(void);
/* In a child of a fork: the other threads are gone, and none was in the allocator. (process/process.c) */
void heap_is_alone(void);
/* No other thread is in the allocator between these two. A signal handler may come between and do the same.
   (process/, leaks/, stream/, allocating.c) */
void heap_lock(void);
void heap_unlock(void);
/* Whether this thread is in the allocator. (process/, leaks/, start/, stream/, interface/reports.c) */
bool heap_is_entered(void);
/* This thread is about to jump to this stack pointer: maybe out of the allocator, which a signal handler of it has
   interrupted. (process/threads.c) */
void heap_left_by_jump(uintptr_t target);
/* This thread ends the process, maybe in a signal handler that has interrupted it in the allocator: blocks freed
   there are freed now. (process/process.c, start/start.c) */
void heap_ends_here(void);
/* Records what stands: a malloc for each block that is live, a malloc and a free for each that is held, and poison
   for released memory and the process's own poison. Of the held blocks the oldest are released until at most this
   many are held and the events fit into the room. In lean recording nothing is recorded. The heap is
   locked. (process/process.c, stream/switching.c) */
void heap_snapshot(uint64_t most_held, uint64_t room);
/* Whether the shadow shows the state of blocks from now on (process/process.c). If nothing is recorded it need not, */
void heap_paint(bool is_painted);
/* until the process poisons a part of one (stream/record.c). */
void heap_is_poisoned(void);
/* The next malloc of this thread is recorded with this call site, and not with that of libc's code which calls it.
   (calls/) */
void heap_called_from(uintptr_t caller);

/* The next malloc or free of this thread is that of an operator, which has this caller. `before` is the operator's own,
   up to its end: it keeps the word of an operator that a signal handler has interrupted to come here.
   (interface/hooks.h) */
void heap_operator_begins(struct said *before, uintptr_t caller, struct use use) OWN_NAME(heap_operator_begins);
void heap_operator_ends(const struct said *before) OWN_NAME(heap_operator_ends);
/* Whether the next malloc of this thread is that of an operator of a library's. (replaced.c) */
bool heap_is_called_by_operator(void);
/* Whether a free of another family is noted; and a delete with another size or alignment. (process/process.c) */
void heap_check_families(bool families, bool sizes);
/* Whether a request is noted that can't be met. (process/process.c) */
void heap_check_requests(bool is_on);
/* Whether realloc to no bytes gives a block, in place of null. (process/process.c) */
void heap_keep_empty(bool is_on);

/* The call sites of mallocs and frees are noted from now on. (process/process.c) */
void heap_keep_call_sites(void);
/* What this thread allocates from now on is no leak, until that is taken back as often as it was said. (interface/,
   for the program) */
void heap_ignore_next(bool is_on) OWN_NAME(heap_ignore_next);
/* The block that has this byte is no leak; if there is none, nothing. (interface/, for the program) */
void heap_ignore(const void *pointer) OWN_NAME(heap_ignore);

/* A block was allocated for an array, and holds the count of its elements here. That is the compiler's.
   (interface/variables.c, for compiled code) */
void heap_poison_count(uintptr_t address) OWN_NAME(heap_poison_count);
/* The end of the live block around an address; the address itself if there is none. (process/threads.c) */
uintptr_t heap_end_around(uintptr_t address);
/* The start of the live block that has an address, or 0. (process/threads.c; interface/, for the program) */
uintptr_t heap_start_around(uintptr_t address) OWN_NAME(heap_start_around);
/* The shadow byte of a granule, if it is not the allocator's poison: outside of live blocks that is a redzone, or freed
   memory. At any time. (start/start.c, for stream/; report/) */
unsigned char heap_shade_of(uint64_t granule, unsigned char shade);

/* What the allocator holds. */
struct heap_numbers {
    uint64_t system_bytes; /* taken from the system */
    uint64_t live_bytes;   /* of blocks that the process has, as it asked for them */
    uint64_t live_count;
};

/* The numbers of now. (allocation.c; interface/, for the program) */
struct heap_numbers heap_count(void) OWN_NAME(heap_count);
/* Gives back the memory of free blocks that waits for that. False: there is none. (allocation.c) */
bool heap_trim(void) OWN_NAME(heap_trim);
/* The size of a block that is live, or SIZE_MAX. (replaced.c, interface/) */
size_t heap_live_size(void *pointer) OWN_NAME(heap_live_size);

/* A live block begins here: it counts as allocated by this caller, and this thread, from now on. False: there is none.
   (interface/, for the program) */
bool heap_say_allocated(const void *pointer, uintptr_t caller) OWN_NAME(heap_say_allocated);

/* What the program wants to be called after each malloc and before each free, without the lock. */
struct heap_hooks {
    void (*after_malloc)(const volatile void *start, size_t size);
    void (*before_free)(const volatile void *start);
    int (*ignores_free)(const volatile void *start); /* not 0: the block stays. Or null */
    bool is_by_name; /* the program defines them, and does not count them */
};
/* Answers how many were added then, or 0: there is no room for more. (interface/) */
int heap_add_hooks(struct heap_hooks hooks) OWN_NAME(heap_add_hooks);

/* The recorder's malloc, whatever stands in its place. (replaced.c, where it is malloc) */
void *heap_own_malloc(size_t size);
/* Whether what stands in its place takes its blocks from the recorder. (process/unchecked.c) */
bool heap_is_below(void);
/* The recorder's function of this name (base/behind.h). (process/plain.c) */
uintptr_t heap_function_behind(const char *name);

#endif

/* A table of six, which only grows. Who adds an entry takes the first place that is free, and an entry is counted once
   it and all before it are whole. */
#include "heap/program_hooks.h"

#include "heap/heap.h"

/* Five, and one of those that the program defines. */
enum { MAX_ADDED = 5, MAX_HOOKS };
static struct {
    struct heap_hooks hooks;
    _Atomic bool is_whole;
} all[MAX_HOOKS];
static _Atomic int taken;
static _Atomic bool has_by_name;
_Atomic int hook_count;

/* Answers the place of an entry that nobody else has. From this one on there is none. */
static int take_entry(int end)
{
    int place = atomic_load(&taken);
    while (place < end && !atomic_compare_exchange_weak(&taken, &place, place + 1))
        ;
    return place;
}

/* Another thread, or a handler, may count this one's entry: who makes an entry whole looks at all after that. */
static void count_whole(void)
{
    int count = atomic_load(&hook_count);
    while (count < MAX_HOOKS && atomic_load(&all[count].is_whole))
        if (atomic_compare_exchange_strong(&hook_count, &count, count + 1))
            count++;
}

int heap_add_hooks(struct heap_hooks hooks)
{
    if (hooks.is_by_name)
        atomic_store(&has_by_name, true);
    int by_name = atomic_load(&has_by_name), end = MAX_ADDED + by_name, place = take_entry(end);
    if (place == end)
        return 0;
    all[place].hooks = hooks;
    atomic_store(&all[place].is_whole, true);
    count_whole();
    return place + 1 - by_name;
}

void hooks_after_malloc(const void *start, size_t size)
{
    for (int i = 0; i < atomic_load(&hook_count); i++)
        if (all[i].hooks.after_malloc != NULL)
            all[i].hooks.after_malloc(start, size);
}

bool hooks_before_free(const void *start)
{
    int count = atomic_load(&hook_count);
    for (int i = 0; i < count; i++)
        if (all[i].hooks.ignores_free != NULL && all[i].hooks.ignores_free(start) != 0)
            return false;
    for (int i = 0; i < count; i++)
        if (all[i].hooks.before_free != NULL)
            all[i].hooks.before_free(start);
    return true;
}

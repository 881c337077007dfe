/* What sanitizer/asan_interface.h, allocator_interface.h, common_interface_defs.h, coverage_interface.h and
   lsan_interface.h declare. A program that is built for AddressSanitizer may call these, and has to link and run.
   docs/RECORDER.md says which do something here.

   Called: by the program, in any thread, also in a signal handler; interface_start by start.c. Lock: none is taken
   here. The caller has none of the recorder's, except that a handler may have interrupted the allocator, and that a
   callback for a report has the one of reports.c: so nothing here may wait for that. By the table of hooks.def sizes,
   counts and origins of blocks, ignored blocks, root regions and a search for leaks (after the loader's) take the
   allocator's, and a record of poison or of an access that and the stream's. A wrong call (note_wrong_call) may take
   the stream's; after that the program's callbacks for a report run, with the lock of reports.c. Before the recorder's
   start (start.h) poison, an access or a wrong call begins it, which takes the loader's and the allocator's.

   Poison and unpoison are recorded, and questions about them are answered by the shadow. Reports are not there: they
   come from the collector. All are weak: a program has its own callbacks and options, and another sanitizer of the
   program may bring its own functions. */
#include <string.h>

#include "interface/hooks.h"
#include "interface/interface.h"
#include "interface/reports.h"
#include "libc/hook_page.h"

#ifdef IN_SHARED_OBJECT
#define INTERFACE __attribute__((weak)) /* hidden: each shared object calls its own */
#else
#define INTERFACE VISIBLE __attribute__((weak))
#endif

/* Poison. */

INTERFACE void __asan_poison_memory_region(const volatile void *start, size_t size)
{
    if (!HOOK_PAGE->switches.has_no_poison)
        note_regions(CODE_POISON, (uintptr_t)start, size);
}

INTERFACE void __asan_unpoison_memory_region(const volatile void *start, size_t size)
{
    if (!HOOK_PAGE->switches.has_no_poison)
        note_regions(CODE_UNPOISON, (uintptr_t)start, size);
}

static bool is_poisoned(uintptr_t address)
{
    return shadow_first_bad(address, 1) == address;
}

static uintptr_t least(uintptr_t one, uintptr_t other)
{
    return one < other ? one : other;
}

static uintptr_t greatest(uintptr_t one, uintptr_t other)
{
    return one > other ? one : other;
}

static void poison_as_container(uintptr_t from, uintptr_t to)
{
    if (from < to && (to - from >= GRANULE || !is_poisoned(from)))
        note_poison_as(SHADE_CONTAINER, from, to - from);
}

/* Whether one of the places in a container lies outside it, which is noted. */
static bool lies_outside(enum finding_kind kind, uintptr_t start, uintptr_t end, const uintptr_t places[4],
                         uintptr_t caller)
{
    for (int i = 0; i < 4; i++) {
        if (start <= places[i] && places[i] <= end)
            continue;
        note_wrong_call(&(struct wrong_call){.kind = kind, .caller = caller, .start = start, .size = end - start,
                                             .other = places[i]});
        return true;
    }
    return false;
}

/* A container owns the bytes from `start` up to `end`, and those from `new_middle` on are not in use. It may call this
   for each element: so what lies neither between both middles nor in a granule of theirs is left as it is, as with
   AddressSanitizer. */
INTERFACE void __sanitizer_annotate_contiguous_container(const void *start, const void *end, const void *old_middle,
                                                         const void *new_middle)
{
    uintptr_t before = (uintptr_t)old_middle, middle = (uintptr_t)new_middle;
    const uintptr_t places[] = {before, middle, before, middle};
    if (HOOK_PAGE->switches.has_no_containers
        || lies_outside(FINDING_CONTAINER, (uintptr_t)start, (uintptr_t)end, places, CALLER()))
        return;
    uintptr_t low = greatest(least(before, middle) / GRANULE * GRANULE, (uintptr_t)start);
    uintptr_t high = least((greatest(before, middle) + GRANULE - 1) / GRANULE * GRANULE, (uintptr_t)end);
    if (low < middle)
        note_regions(CODE_UNPOISON, low, middle - low);
    poison_as_container(middle, high);
}

/* The same for a container with two ends, whose bytes in use are those from `new_first` up to `new_last`. The
   granule of the first byte is in use from its start on, since no shadow says otherwise. */
INTERFACE void __sanitizer_annotate_double_ended_contiguous_container(const void *start, const void *end,
                                                                      const void *old_first, const void *old_last,
                                                                      const void *new_first, const void *new_last)
{
    const uintptr_t places[] = {(uintptr_t)old_first, (uintptr_t)old_last, (uintptr_t)new_first, (uintptr_t)new_last};
    if (HOOK_PAGE->switches.has_no_containers
        || lies_outside(FINDING_DOUBLE_ENDED, (uintptr_t)start, (uintptr_t)end, places, CALLER()))
        return;
    bool was_empty = old_first == old_last, is_empty = new_first == new_last;
    uintptr_t first = (uintptr_t)new_first / GRANULE * GRANULE, last = (uintptr_t)new_last;
    uintptr_t low = was_empty ? first : (uintptr_t)old_first, high = was_empty ? last : (uintptr_t)old_last;
    low = greatest((is_empty ? low : least(low, first)) / GRANULE * GRANULE, (uintptr_t)start);
    high = is_empty ? high : greatest(high, last);
    high = least((high + GRANULE - 1) / GRANULE * GRANULE, (uintptr_t)end);
    first = greatest(first, low);
    if (is_empty) {
        poison_as_container(low, high);
        return;
    }
    poison_as_container(low, first);
    note_regions(CODE_UNPOISON, first, last - first);
    poison_as_container(last, high);
}

/* How many bytes from each end of a container are looked at, as AddressSanitizer does. */
enum { LOOKED_AT = 32 };

/* The first byte near the ends of a part that is poisoned or not, as it should not be; or null. */
static const void *find_wrong(uintptr_t start, uintptr_t end, bool should_be_poisoned)
{
    for (uintptr_t at = start; at < end; at++) {
        if (at - start == LOOKED_AT && end - at > LOOKED_AT)
            at = end - LOOKED_AT;
        if (is_poisoned(at) != should_be_poisoned)
            return (const void *)at;
    }
    return NULL;
}

INTERFACE const void *__sanitizer_contiguous_container_find_bad_address(const void *start, const void *middle,
                                                                        const void *end)
{
    const void *wrong = find_wrong((uintptr_t)start, (uintptr_t)middle, false);
    return wrong != NULL ? wrong : find_wrong((uintptr_t)middle, (uintptr_t)end, true);
}

INTERFACE int __sanitizer_verify_contiguous_container(const void *start, const void *middle, const void *end)
{
    return __sanitizer_contiguous_container_find_bad_address(start, middle, end) == NULL;
}

INTERFACE const void *__sanitizer_double_ended_contiguous_container_find_bad_address(const void *start,
                                                                                     const void *first,
                                                                                     const void *last, const void *end)
{
    uintptr_t from = (uintptr_t)first, before = first != last ? from / GRANULE * GRANULE : from;
    const void *wrong = find_wrong((uintptr_t)start, greatest(before, (uintptr_t)start), true);
    if (wrong == NULL)
        wrong = find_wrong(from, (uintptr_t)last, false);
    return wrong != NULL ? wrong : find_wrong((uintptr_t)last, (uintptr_t)end, true);
}

INTERFACE int __sanitizer_verify_double_ended_contiguous_container(const void *start, const void *first,
                                                                   const void *last, const void *end)
{
    return __sanitizer_double_ended_contiguous_container_find_bad_address(start, first, last, end) == NULL;
}

INTERFACE int __asan_address_is_poisoned(const volatile void *address)
{
    return is_poisoned((uintptr_t)address);
}

INTERFACE void *__asan_region_is_poisoned(void *start, size_t size)
{
    uint64_t bad = shadow_first_bad((uintptr_t)start, size);
    return bad < (uintptr_t)start + size ? (void *)(uintptr_t)bad : NULL;
}

/* Accesses that a program makes by a call. */

#define UNALIGNED(bits)                                                                                                \
    INTERFACE uint##bits##_t __sanitizer_unaligned_load##bits(const void *at)                                          \
    {                                                                                                                  \
        uint##bits##_t value;                                                                                          \
        note_range(CODE_LOAD, (uintptr_t)at, sizeof value, CALLER());                                                  \
        __builtin_memcpy(&value, at, sizeof value);                                                                    \
        return value;                                                                                                  \
    }                                                                                                                  \
    INTERFACE void __sanitizer_unaligned_store##bits(void *at, uint##bits##_t value)                                   \
    {                                                                                                                  \
        note_range(CODE_STORE, (uintptr_t)at, sizeof value, CALLER());                                                 \
        __builtin_memcpy(at, &value, sizeof value);                                                                    \
    }

UNALIGNED(16)
UNALIGNED(32)
UNALIGNED(64)

/* A bad access that the program has found: it is recorded as an access, and the checker decides. */
INTERFACE void __asan_report_error(void *place, void *frame, void *stack, void *address, int is_store, size_t size)
{
    (void)frame, (void)stack;
    note_range(is_store ? CODE_STORE : CODE_LOAD, (uintptr_t)address, size, (uintptr_t)place);
}

/* The report that the process is told of just now, as __asan_on_error and a callback may ask for it. */

static const struct report *report_now(void)
{
    static const struct report none = {.description = ""};
    const struct report *now = HAS_HOOKS ? asancol_hooks.reports->now() : NULL;
    return now != NULL ? now : &none;
}

INTERFACE int __asan_report_present(void)
{
    return report_now()->description[0] != 0;
}

#define OF_REPORT(type, what, answer)                                                                                  \
    INTERFACE type __asan_get_report_##what(void)                                                                      \
    {                                                                                                                  \
        const struct report *now = report_now();                                                                       \
        return answer;                                                                                                 \
    }

OF_REPORT(void *, pc, now->is_access ? (void *)now->instruction : NULL)
OF_REPORT(void *, bp, now->is_access ? (void *)now->frame : NULL)
OF_REPORT(void *, sp, now->is_access ? (void *)now->stack : NULL)
OF_REPORT(void *, address, (void *)now->address)
OF_REPORT(int, access_type, now->is_store)
OF_REPORT(size_t, access_size, now->size)
OF_REPORT(const char *, description, now->description)

INTERFACE void __asan_describe_address(void *address)
{
    if (HAS_HOOKS)
        asancol_hooks.reports->describe((uintptr_t)address);
}

INTERFACE const char *__asan_locate_address(void *address, char *name, size_t name_size, void **region, size_t *size)
{
    uintptr_t start = 0;
    size_t length = 0;
    const char *found = "heap-invalid"; /* AddressSanitizer's word for an address that it knows nothing of */
    if (name != NULL && name_size != 0)
        name[0] = 0;
    if (HAS_HOOKS)
        found = asancol_hooks.reports->locate((uintptr_t)address, name, name_size, &start, &length);
    if (region != NULL)
        *region = (void *)start;
    if (size != NULL)
        *size = length;
    return found;
}

static size_t stack_of(void *address, bool of_free, void **frames, size_t size, int *thread)
{
    if (thread != NULL)
        *thread = 0;
    return HAS_HOOKS ? asancol_hooks.reports->stack_of((uintptr_t)address, of_free, (uintptr_t *)frames, size,
                                                               thread)
                             : 0;
}

INTERFACE size_t __asan_get_alloc_stack(void *address, void **frames, size_t size, int *thread)
{
    return stack_of(address, false, frames, size, thread);
}

INTERFACE size_t __asan_get_free_stack(void *address, void **frames, size_t size, int *thread)
{
    return stack_of(address, true, frames, size, thread);
}

INTERFACE void __asan_get_shadow_mapping(size_t *scale, size_t *offset)
{
    *scale = 3;
    *offset = SHADOW_START;
}

INTERFACE int __asan_update_allocation_context(void *address)
{
    return ask_say_allocated(address, CALLER());
}

INTERFACE void *__asan_get_current_fake_stack(void)
{
    return ask_fake_current();
}

INTERFACE void *__asan_addr_is_in_fake_stack(void *stack, void *address, void **start, void **end)
{
    uintptr_t first, last;
    void *real = ask_fake_real_of(stack, (uintptr_t)address, &first, &last);
    if (real != NULL && start != NULL)
        *start = (void *)first;
    if (real != NULL && end != NULL)
        *end = (void *)last;
    return real;
}

/* Called before the process ends by ASANCOL_HALT, as before AddressSanitizer ends it. */

INTERFACE void __asan_set_death_callback(void (*callback)(void))
{
    note_death_callback(callback);
}

INTERFACE void __sanitizer_set_death_callback(void (*callback)(void))
{
    note_death_callback(callback);
}

/* Called with the text of each report, as the process is told of it. */
INTERFACE void __asan_set_error_report_callback(void (*callback)(const char *))
{
    if (HAS_HOOKS)
        asancol_hooks.reports->set_callback(callback);
}

/* The first thread that asks may treat the crash. */
INTERFACE int __sanitizer_acquire_crash_state(void)
{
    return is_first_crash();
}

/* What a program may define itself. asan_options.c calls those of them that answer a text. */

static void no_error(void)
{
}

INTERFACE void __asan_on_error(void) __attribute__((alias("no_error")));

#define NO_TEXT(name)                                                                                                  \
    INTERFACE const char *name(void)                                                                                   \
    {                                                                                                                  \
        return "";                                                                                                     \
    }

NO_TEXT(__asan_default_options)
NO_TEXT(__lsan_default_options)
NO_TEXT(__asan_default_suppressions)
NO_TEXT(__lsan_default_suppressions)

INTERFACE int __lsan_is_turned_off(void)
{
    return 0;
}

/* Output: what the program asks to be printed. Reports are the collector's. */

INTERFACE void __sanitizer_set_report_path(const char *path)
{
    if (HAS_HOOKS)
        asancol_hooks.reports->set_path(path);
}

INTERFACE void __sanitizer_set_report_fd(void *descriptor)
{
    if (HAS_HOOKS)
        asancol_hooks.reports->set_descriptor((int)(uintptr_t)descriptor);
}

INTERFACE const char *__sanitizer_get_report_path(void)
{
    return HAS_HOOKS ? asancol_hooks.reports->path() : "";
}

INTERFACE void __sanitizer_report_error_summary(const char *summary)
{
    (void)summary;
}

INTERFACE void __sanitizer_print_stack_trace(void)
{
    if (HAS_HOOKS)
        asancol_hooks.reports->print_stack(CALLER());
}

INTERFACE void __sanitizer_print_memory_profile(size_t percent, size_t contexts)
{
    (void)percent, (void)contexts;
}

INTERFACE void __asan_print_accumulated_stats(void)
{
}

INTERFACE void __sanitizer_sandbox_on_notify(void *arguments)
{
    (void)arguments;
}

/* Symbols: none is known. */

static void no_symbol(char *text, size_t room)
{
    if (text != NULL && room != 0)
        text[0] = 0;
}

INTERFACE void __sanitizer_symbolize_pc(void *place, const char *format, char *text, size_t room)
{
    (void)place, (void)format;
    no_symbol(text, room);
}

INTERFACE void __sanitizer_symbolize_global(void *data, const char *format, char *text, size_t room)
{
    (void)data, (void)format;
    no_symbol(text, room);
}

INTERFACE int __sanitizer_get_module_and_offset_for_pc(void *place, char *path, size_t room, void **offset)
{
    char none[1];
    uintptr_t found = 0;
    bool has_room = path != NULL && room != 0;
    bool is_found = HAS_HOOKS
                    && asancol_hooks.reports->module((uintptr_t)place, has_room ? path : none,
                                                     has_room ? room : sizeof none, &found);
    if (!is_found)
        no_symbol(path, room);
    if (offset != NULL)
        *offset = (void *)found;
    return is_found;
}

/* Fibers: which stack a thread is on. A fake stack stays with its thread. */

INTERFACE void __sanitizer_start_switch_fiber(void **save, const void *bottom, size_t size)
{
    uintptr_t start = (uintptr_t)bottom;
    if (save != NULL)
        *save = NULL;
    note_fiber_leaves((uintptr_t)__builtin_frame_address(0), save != NULL, (struct span){start, start + size});
}

INTERFACE void __sanitizer_finish_switch_fiber(void *save, const void **bottom, size_t *size)
{
    struct span before = ask_fiber_comes();
    (void)save;
    if (bottom != NULL)
        *bottom = (const void *)before.low;
    if (size != NULL)
        *size = before.top - before.low;
}

/* The allocator. */

static size_t live_size(const volatile void *start)
{
    return start != NULL ? ask_live_size((void *)(uintptr_t)start) : SIZE_MAX;
}

INTERFACE size_t __sanitizer_get_estimated_allocated_size(size_t size)
{
    return size;
}

INTERFACE int __sanitizer_get_ownership(const volatile void *start)
{
    return live_size(start) != SIZE_MAX;
}

static size_t allocated_size(const volatile void *start, uintptr_t caller)
{
    size_t size = live_size(start);
    if (size != SIZE_MAX)
        return size;
    if (start != NULL)
        note_wrong_call(&(struct wrong_call){.kind = FINDING_NOT_OWNED, .caller = caller,
                                             .call = "__sanitizer_get_allocated_size", .start = (uintptr_t)start});
    return 0;
}

INTERFACE size_t __sanitizer_get_allocated_size(const volatile void *start)
{
    return allocated_size(start, CALLER());
}

INTERFACE size_t __sanitizer_get_allocated_size_fast(const volatile void *start)
{
    return allocated_size(start, CALLER());
}

INTERFACE const void *__sanitizer_get_allocated_begin(const void *inside)
{
    return (const void *)ask_live_start((uintptr_t)inside);
}

INTERFACE size_t __sanitizer_get_current_allocated_bytes(void)
{
    return ask_heap_count().live_bytes;
}

INTERFACE size_t __sanitizer_get_heap_size(void)
{
    return ask_heap_count().system_bytes;
}

/* With the blocks in quarantine. */
INTERFACE size_t __sanitizer_get_free_bytes(void)
{
    struct heap_numbers now = ask_heap_count();
    return now.system_bytes > now.live_bytes ? now.system_bytes - now.live_bytes : 0;
}

INTERFACE size_t __sanitizer_get_unmapped_bytes(void)
{
    return 0;
}

INTERFACE void __sanitizer_purge_allocator(void)
{
}

INTERFACE int __sanitizer_install_malloc_and_free_hooks(void (*after_malloc)(const volatile void *, size_t),
                                                        void (*before_free)(const volatile void *))
{
    struct heap_hooks hooks = {after_malloc, before_free, NULL, false};
    return ask_add_hooks(hooks);
}

/* A program may define these three, and then they are called. */

static void no_malloc_hook(const volatile void *start, size_t size)
{
    (void)start, (void)size;
}

static void no_free_hook(const volatile void *start)
{
    (void)start;
}

static int no_ignore_hook(const volatile void *start)
{
    (void)start;
    return 0;
}

INTERFACE void __sanitizer_malloc_hook(const volatile void *start, size_t size)
    __attribute__((alias("no_malloc_hook")));
INTERFACE void __sanitizer_free_hook(const volatile void *start) __attribute__((alias("no_free_hook")));
INTERFACE int __sanitizer_ignore_free_hook(const volatile void *start) __attribute__((alias("no_ignore_hook")));

#ifndef IN_SHARED_OBJECT

void interface_start(void)
{
    if (__asan_on_error != no_error)
        reports_call_on_error(__asan_on_error);
    bool has_malloc = __sanitizer_malloc_hook != no_malloc_hook, has_free = __sanitizer_free_hook != no_free_hook;
    bool has_ignore = __sanitizer_ignore_free_hook != no_ignore_hook;
    if (has_malloc || has_free || has_ignore)
        heap_add_hooks((struct heap_hooks){__sanitizer_malloc_hook, __sanitizer_free_hook,
                                           __sanitizer_ignore_free_hook, .is_by_name = true});
}

#endif

/* Coverage: none is kept. */

INTERFACE void __sanitizer_cov_dump(void)
{
}

INTERFACE void __sanitizer_cov_reset(void)
{
}

INTERFACE void __sanitizer_dump_coverage(const uintptr_t *places, uintptr_t count)
{
    (void)places, (void)count;
}

/* A fuzzer's hooks: the recorder's string functions call none of them. */

#define HOOK(name, ...)                                                                                                \
    INTERFACE void __sanitizer_weak_hook_##name(void *place, const void *one, __VA_ARGS__)                             \
    {                                                                                                                  \
        (void)place, (void)one, (void)other, (void)result;                                                             \
    }

HOOK(strcmp, const void *other, int result)
HOOK(strcasecmp, const void *other, int result)
HOOK(strstr, const void *other, char *result)
HOOK(strcasestr, const void *other, char *result)

#define SIZED_HOOK(name, ...)                                                                                          \
    INTERFACE void __sanitizer_weak_hook_##name(void *place, const void *one, __VA_ARGS__)                             \
    {                                                                                                                  \
        (void)place, (void)one, (void)other, (void)size, (void)result;                                                 \
    }

SIZED_HOOK(memcmp, const void *other, size_t size, int result)
SIZED_HOOK(strncmp, const void *other, size_t size, int result)
SIZED_HOOK(strncasecmp, const void *other, size_t size, int result)

INTERFACE void __sanitizer_weak_hook_memmem(void *place, const void *one, size_t one_size, const void *other,
                                            size_t other_size, void *result)
{
    (void)place, (void)one, (void)one_size, (void)other, (void)other_size, (void)result;
}

/* Leaks. A process goes on, whatever is found. */

INTERFACE void __lsan_disable(void)
{
    note_ignore_next_blocks(true);
}

INTERFACE void __lsan_enable(void)
{
    note_ignore_next_blocks(false);
}

INTERFACE void __lsan_ignore_object(const void *object)
{
    note_ignore_block(object);
}

INTERFACE void __lsan_register_root_region(const void *start, size_t size)
{
    note_add_root_region(start, size);
}

INTERFACE void __lsan_unregister_root_region(const void *start, size_t size)
{
    note_remove_root_region(start, size);
}

INTERFACE void __lsan_do_leak_check(void)
{
    note_look_for_leaks_once();
}

INTERFACE int __lsan_do_recoverable_leak_check(void)
{
    return ask_look_for_leaks();
}

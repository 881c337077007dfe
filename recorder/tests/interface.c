/* Calls each function that asan_interface.h, common_interface_defs.h and lsan_interface.h declare, and fails where one
   answers what a program would not expect that finds nothing wrong. check.py sees that none of them is missing here. */
#define _GNU_SOURCE
#include <sanitizer/asan_interface.h>
#if __has_include(<sanitizer/allocator_interface.h>)
#include <sanitizer/allocator_interface.h>
#include <sanitizer/coverage_interface.h>
#else
#include <stddef.h>
#include <stdint.h>
size_t __sanitizer_get_estimated_allocated_size(size_t size);
int __sanitizer_get_ownership(const volatile void *start);
size_t __sanitizer_get_allocated_size(const volatile void *start);
size_t __sanitizer_get_current_allocated_bytes(void);
size_t __sanitizer_get_heap_size(void);
size_t __sanitizer_get_free_bytes(void);
size_t __sanitizer_get_unmapped_bytes(void);
void __sanitizer_malloc_hook(const volatile void *start, size_t size);
void __sanitizer_free_hook(const volatile void *start);
int __sanitizer_install_malloc_and_free_hooks(void (*)(const volatile void *, size_t), void (*)(const volatile void *));
void __sanitizer_purge_allocator(void);
void __sanitizer_cov_dump(void);
void __sanitizer_cov_reset(void);
void __sanitizer_dump_coverage(const uintptr_t *places, uintptr_t count);
#endif
/* Of newer headers. */
const void *__sanitizer_get_allocated_begin(const void *inside);
size_t __sanitizer_get_allocated_size_fast(const volatile void *start);
int __sanitizer_ignore_free_hook(const volatile void *start);
void __sanitizer_annotate_double_ended_contiguous_container(const void *start, const void *end, const void *old_first,
                                                            const void *old_last, const void *new_first,
                                                            const void *new_last);
int __sanitizer_verify_double_ended_contiguous_container(const void *start, const void *first, const void *last,
                                                         const void *end);
const void *__sanitizer_double_ended_contiguous_container_find_bad_address(const void *start, const void *first,
                                                                           const void *last, const void *end);
#include <sanitizer/lsan_interface.h>
#include <stdio.h>
#include <stdlib.h>
#include <string.h>

static int failures;

static void want(int holds, const char *what)
{
    if (!holds) {
        fprintf(stderr, "not so: %s\n", what);
        failures++;
    }
}

#define WANT(condition) want(condition, #condition)

static void on_death(void)
{
    failures++;
}

static void on_report(const char *text)
{
    (void)text;
    failures++;
}

/* A container with two ends: it is filled, moves on, and is empty. Nothing is known of it without a recorder. */
static void poison_both_ends(char *block)
{
    char *end = block + 64;
    __sanitizer_annotate_double_ended_contiguous_container(block, end, block, end, block + 20, block + 45);
    int knows = __asan_address_is_poisoned(block);
    WANT(__asan_address_is_poisoned(block + 15) == knows && __asan_address_is_poisoned(block + 16) == 0);
    WANT(__asan_address_is_poisoned(block + 44) == 0 && __asan_address_is_poisoned(block + 45) == knows);
    WANT(__sanitizer_verify_double_ended_contiguous_container(block, block + 20, block + 45, end) == knows);
    __sanitizer_annotate_double_ended_contiguous_container(block, end, block + 20, block + 45, block + 32, block + 64);
    WANT(__asan_address_is_poisoned(block + 31) == knows && __asan_address_is_poisoned(block + 32) == 0);
    WANT(__asan_address_is_poisoned(block + 63) == 0);
    const void *bad = __sanitizer_double_ended_contiguous_container_find_bad_address(block, block + 32, end, end);
    WANT(knows == (bad == NULL));
    __sanitizer_annotate_double_ended_contiguous_container(block, end, block + 32, end, block, block);
    WANT(__asan_address_is_poisoned(block + 32) == knows && __asan_address_is_poisoned(block + 63) == knows);
    __sanitizer_annotate_double_ended_contiguous_container(block, end, block, block, block, end);
    WANT(__asan_region_is_poisoned(block, 64) == NULL);
}

/* Poison, and the bytes of a container in use. */
static void poison(char *block)
{
    __asan_poison_memory_region(block, 8);
    __asan_unpoison_memory_region(block, 8);
    __sanitizer_annotate_contiguous_container(block, block + 64, block + 64, block + 32);
    __sanitizer_annotate_contiguous_container(block, block + 64, block + 32, block + 64);
    WANT(__asan_address_is_poisoned(block) == 0);
    WANT(__asan_region_is_poisoned(block, 64) == NULL);
    WANT(__sanitizer_verify_contiguous_container(block, block + 64, block + 64) == 1);
    WANT(__sanitizer_contiguous_container_find_bad_address(block, block + 64, block + 64) == NULL);
    poison_both_ends(block);
}

/* The allocator. In a process without a recorder it knows nothing. */

static const volatile void *last_made, *last_freed;

static void after_malloc(const volatile void *start, size_t size)
{
    if (size == 77)
        last_made = start;
}

static void before_free(const volatile void *start)
{
    last_freed = start;
}

static void allocator(void)
{
    size_t before = __sanitizer_get_current_allocated_bytes();
    int added = __sanitizer_install_malloc_and_free_hooks(after_malloc, before_free);
    char *volatile block = malloc(77);
    if (added != 0) {
        WANT(added == 1);
        WANT(last_made == block);
        WANT(__sanitizer_get_ownership(block) == 1);
        WANT(__sanitizer_get_allocated_size(block) == 77);
        WANT(__sanitizer_get_allocated_size_fast(block) == 77);
        WANT(__sanitizer_get_allocated_begin(block + 76) == block);
        WANT(__sanitizer_get_current_allocated_bytes() == before + 77);
        WANT(__sanitizer_get_heap_size() >= before + 77);
        WANT(__sanitizer_get_free_bytes() > 0);
    }
    WANT(__sanitizer_get_ownership(&block) == 0);
    WANT(__sanitizer_get_allocated_size(NULL) == 0);
    WANT(__sanitizer_get_allocated_begin(&block) == NULL);
    WANT(__sanitizer_ignore_free_hook(block) == 0);
    WANT(__sanitizer_get_estimated_allocated_size(77) == 77);
    WANT(__sanitizer_get_unmapped_bytes() == 0);
    __sanitizer_malloc_hook(block, 77);
    __sanitizer_free_hook(block);
    __sanitizer_purge_allocator();
    free(block);
    if (added != 0) {
        WANT(last_freed == block);
        WANT(__sanitizer_get_ownership(block) == 0);
        WANT(__sanitizer_get_current_allocated_bytes() == before);
    }
    __sanitizer_cov_dump();
    __sanitizer_cov_reset();
    __sanitizer_dump_coverage(NULL, 0);
}

/* Accesses that are no multiple of their width. */
static void unaligned(char *block)
{
    __sanitizer_unaligned_store16(block + 1, 0x1234);
    WANT(__sanitizer_unaligned_load16(block + 1) == 0x1234);
    __sanitizer_unaligned_store32(block + 1, 0x12345678);
    WANT(__sanitizer_unaligned_load32(block + 1) == 0x12345678);
    __sanitizer_unaligned_store64(block + 1, 0x123456789abcdef0);
    WANT(__sanitizer_unaligned_load64(block + 1) == 0x123456789abcdef0);
}

static void reports(char *block)
{
    char name[8] = "x";
    void *start = block;
    size_t size = 1;
    WANT(__asan_report_present() == 0);
    WANT(__asan_get_report_pc() == NULL && __asan_get_report_bp() == NULL && __asan_get_report_sp() == NULL);
    WANT(__asan_get_report_address() == NULL && __asan_get_report_access_type() == 0);
    WANT(__asan_get_report_access_size() == 0 && strlen(__asan_get_report_description()) == 0);
    WANT(__asan_locate_address(block, name, sizeof name, &start, &size) != NULL);
    __sanitizer_set_report_fd((void *)2);
    __sanitizer_set_report_path("asancol.report");
    WANT(__sanitizer_get_report_path() != NULL);
    __asan_describe_address(block);
    __asan_report_error(__builtin_return_address(0), NULL, NULL, block, 0, 4);
    __sanitizer_report_error_summary("none");
    __sanitizer_print_stack_trace();
    __sanitizer_print_memory_profile(100, 10);
    __asan_print_accumulated_stats();
}

static void callbacks(void)
{
    __asan_set_death_callback(on_death);
    __sanitizer_set_death_callback(on_death);
    __asan_set_error_report_callback(on_report);
    __asan_on_error();
    __asan_handle_no_return();
    WANT(__sanitizer_acquire_crash_state() != 0);
    WANT(__sanitizer_acquire_crash_state() == 0);
    WANT(__asan_default_options() != NULL);
    WANT(__lsan_default_options() != NULL && __lsan_default_suppressions() != NULL);
    WANT(__lsan_is_turned_off() == 0);
}

static void places(char *block)
{
    char text[64] = "x";
    void *frames[4], *offset = block;
    size_t scale = 1, shadow = 1;
    int thread = 0;
    WANT(__asan_get_alloc_stack(block, frames, 4, &thread) <= 4);
    WANT(__asan_get_free_stack(block, frames, 4, &thread) == 0);
    __asan_get_shadow_mapping(&scale, &shadow);
    WANT(__asan_update_allocation_context(block) == (int)__sanitizer_get_ownership(block));
    WANT(__asan_update_allocation_context(block + 1) == 0);
    __sanitizer_symbolize_pc(__builtin_return_address(0), "%f", text, sizeof text);
    __sanitizer_symbolize_global(block, "%g", text, sizeof text);
    WANT(memchr(text, 0, sizeof text) != NULL);
    WANT(__sanitizer_get_module_and_offset_for_pc((void *)places, text, sizeof text, &offset) <= 1);
}

static void fibers(char *block)
{
    void *saved = NULL;
    const void *bottom = block;
    size_t size = 1;
    WANT(__asan_addr_is_in_fake_stack(__asan_get_current_fake_stack(), block, NULL, NULL) == NULL);
    __sanitizer_start_switch_fiber(&saved, block, 64);
    __sanitizer_finish_switch_fiber(saved, &bottom, &size);
}

static void hooks(char *block)
{
    __sanitizer_weak_hook_memcmp(NULL, block, block, 1, 0);
    __sanitizer_weak_hook_strcmp(NULL, "a", "b", -1);
    __sanitizer_weak_hook_strncmp(NULL, "a", "b", 1, -1);
    __sanitizer_weak_hook_strcasecmp(NULL, "a", "b", -1);
    __sanitizer_weak_hook_strncasecmp(NULL, "a", "b", 1, -1);
    __sanitizer_weak_hook_strstr(NULL, "a", "b", NULL);
    __sanitizer_weak_hook_strcasestr(NULL, "a", "b", NULL);
    __sanitizer_weak_hook_memmem(NULL, block, 1, block, 1, block);
}

static void leaks(char *block)
{
    __sanitizer_sandbox_arguments sandbox = {0};
    __lsan_disable();
    __lsan_enable();
    __lsan_ignore_object(block);
    __lsan_register_root_region(block, 64);
    __lsan_unregister_root_region(block, 64);
    WANT(__lsan_do_recoverable_leak_check() == 0);
    __lsan_do_leak_check();
    __sanitizer_sandbox_on_notify(&sandbox);
}

int interface(void)
{
    char *block = malloc(64);
    poison(block);
    unaligned(block);
    allocator();
    reports(block);
    callbacks();
    places(block);
    fibers(block);
    hooks(block);
    leaks(block);
    free(block);
    return failures != 0;
}

#ifndef IN_LIBRARY
int main(void)
{
    return interface();
}
#endif

/* asancol_report/asan_text.py makes the same of the trace, with functions and lines. */
#define _GNU_SOURCE
#include "report/wording.h"

#include <string.h>

#include "base/system.h"
#include "heap/arena.h"
#include "heap/heap.h"
#include "report/code.h"
#include "report/describing.h"
#include "shadow/shadow.h"
#include "stacks/stacks.h"
#include "stacks/thread_notes.h"
#include "stream/near.h"

/* Names. */

/* The shadow byte of a granule. Poison that lies in no block is as a redzone. */
static unsigned char shade_at(uint64_t granule, uint64_t bad)
{
    struct nearest block;
    unsigned char shade = *shadow_of(granule);
    if (shade != SHADE_USER || !is_in_arena(granule))
        return shade;
    shade = heap_shade_of(granule, shade);
    bool is_past = shade == SHADE_USER && arena_find_nearest(bad, &block) && block.start != 0
                   && bad - block.start >= block.size;
    return is_past ? SHADE_HEAP : shade;
}

static bool is_negative(const struct told *told)
{
    return told->call != NULL && told->size > PTRDIFF_MAX;
}

static uint64_t bad_byte_of(const struct told *told)
{
    bool is_range = told->code != CODE_FREE && !is_negative(told);
    return is_range ? shadow_first_bad(told->address, told->size) : told->address;
}

static const char *class_of_access(const struct told *told)
{
    if (is_negative(told))
        return "negative-size-param";
    uint64_t bad = bad_byte_of(told), granule = bad / GRANULE * GRANULE;
    if (is_beyond(bad, 1))
        return "unknown-crash";
    unsigned char shade = *shadow_of(bad);
    return shade_class(shade_at(shade != 0 && shade < GRANULE ? granule + GRANULE : granule, bad));
}

/* The text may be put together here: one is made at a time. */
static const char *class_of_finding(const struct told *told)
{
    static char name[SIDE_CALL + 16];
    struct text text = text_in(name, sizeof name);
    switch (told->finding) {
    case FINDING_FAMILY:
        return "alloc-dealloc-mismatch";
    case FINDING_SIZE:
    case FINDING_OTHER_ALIGNMENT:
        return "new-delete-type-mismatch";
    case FINDING_ALIGNMENT:
        return "invalid-allocation-alignment";
    case FINDING_TOO_BIG:
        return "allocation-size-too-big";
    case FINDING_NO_MEMORY:
        return "out-of-memory";
    case FINDING_ODR:
        return "odr-violation";
    case FINDING_SHADOW:
        return "bad-shadow";
    case FINDING_POINTERS:
        return "invalid-pointer-pair";
    case FINDING_CONTAINER:
        return "bad-__sanitizer_annotate_contiguous_container";
    case FINDING_DOUBLE_ENDED:
        return "bad-__sanitizer_annotate_double_ended_contiguous_container";
    case FINDING_NOT_OWNED:
        text_put(&text, "bad-");
        break;
    default:
        break;
    }
    text_put(&text, told->call != NULL ? told->call : "unknown");
    if (told->finding == FINDING_OVERLAP || told->finding == FINDING_OVERFLOW)
        text_put(&text, told->finding == FINDING_OVERLAP ? "-param-overlap" : "-overflow");
    return name;
}

/* Whether a freed block begins there. Of one that was freed long ago only the memory is known. */
static bool is_double(const struct told *told)
{
    struct nearest nearest;
    struct block block;
    uintptr_t start;
    if (!is_in_arena(told->address) || !arena_find_nearest(told->address, &nearest))
        return false;
    if (nearest.is_forgotten)
        return true;
    return arena_find_around(told->address, &block, &start) && block.state == BLOCK_HELD && start == told->address;
}

static const char *class_of(const struct told *told)
{
    if (told->finding != FINDING_NONE)
        return class_of_finding(told);
    if (told->code != CODE_FREE)
        return class_of_access(told);
    return is_double(told) ? "double-free" : "bad-free";
}

void report_make(struct report *report, const struct told *told, uintptr_t frame)
{
    bool is_access = told->finding == FINDING_NONE && told->code != CODE_FREE;
    *report = (struct report){.description = class_of(told),
                              .instruction = told->caller,
                              .frame = frame,
                              .stack = frame - sizeof frame,
                              .address = told->address,
                              .is_access = is_access};
    report->is_store = told->code == CODE_STORE;
    report->size = is_access ? told->size : 0;
}

/* The text. */

static void put_access(struct text *text, const struct report *report, const struct told *told)
{
    text_put(text, report->description);
    text_put(text, " on address ");
    text_put_address(text, report->address);
    text_put(text, " at pc ");
    text_put_address(text, report->instruction);
    text_put(text, " bp ");
    text_put_address(text, report->frame);
    text_put(text, " sp ");
    text_put_address(text, report->stack);
    text_put(text, told->code == CODE_STORE ? "\nWRITE of size " : "\nREAD of size ");
    text_put_number(text, report->size);
    text_put(text, " at ");
    text_put_address(text, report->address);
    text_put(text, " thread ");
    text_put_thread(text, thread_number());
}

static void put_free(struct text *text, const struct report *report)
{
    bool is_again = strcmp(report->description, "double-free") == 0;
    text_put(text, is_again ? "attempting double-free on " : "attempting free on address which was not malloc()-ed: ");
    text_put_address(text, report->address);
    text_put(text, " in thread ");
    text_put_thread(text, thread_number());
    text_put(text, is_again ? ":" : "");
}

static void put_head(struct text *text, const struct report *report, const struct told *told)
{
    text_put(text, "=================================================================\n==");
    text_put_number(text, (unsigned)system_getpid());
    text_put(text, "==ERROR: AddressSanitizer: ");
    if (told->finding != FINDING_NONE) {
        text_put(text, report->description);
    } else if (is_negative(told)) {
        text_put(text, report->description);
        text_put(text, ": (size=-");
        text_put_number(text, -told->size);
        text_put(text, ")");
    } else if (report->is_access) {
        put_access(text, report, told);
    } else {
        put_free(text, report);
    }
    text_put(text, "\n");
}

/* The function of a library in which it was found; null: in the program. */
static const char *function_of(const struct told *told)
{
    struct nearest block = {.family = FAMILY_ANY};
    const char *call = told->call;
    if (told->finding == FINDING_NONE && told->code == CODE_FREE && (call == NULL || strcmp(call, "free") == 0)) {
        if (is_in_arena(told->address))
            arena_find_nearest(told->address, &block);
        return family_free_name(block.family);
    }
    if (call != NULL && strcmp(call, "operator delete") == 0)
        return family_free_name(FAMILY_NEW);
    return call != NULL && strcmp(call, "operator delete []") == 0 ? family_free_name(FAMILY_NEW_ARRAY) : call;
}

static void put_hint(struct text *text, const struct report *report)
{
    if (report->is_access && strcmp(report->description, shade_class(SHADE_CONTAINER)) == 0)
        text_put(text, "HINT: if you don't care about these errors you may set "
                       "ASAN_OPTIONS=detect_container_overflow=0.\nIf you suspect a false positive see also: "
                       "https://github.com/google/sanitizers/wiki/AddressSanitizerContainerOverflow.\n");
}

void report_put(struct text *text, const struct report *report, const struct told *told)
{
    bool is_range = report->is_access && told->call == NULL && told->size != 0;
    put_head(text, report, told);
    text_put_stack(text, call_site_of(told->caller), 0, function_of(told));
    if (told->finding == FINDING_NONE)
        text_put_description(text, &(struct place){bad_byte_of(told), told->address, is_range ? told->size : 1});
    put_hint(text, report);
    text_put(text, "SUMMARY: AddressSanitizer: ");
    text_put(text, report->description);
    text_put(text, " ");
    text_put_module(text, call_site_address(call_site_of(told->caller)) - 1);
    text_put(text, "\n");
}

/* The environment is that of the C library now: a program may have changed it, and also spoiled it. */
#define _GNU_SOURCE
#include "stream/test_name.h"

#include <stdatomic.h>
#include <string.h>

#include "base/memory.h"
#include "environment/startup.h"
#include "libc/library.h"
#include "stream/fault_list.h"

/* The first one that is there counts. */
static const struct wanted {
    char text[24];
    size_t length;
} variables[] = {{"ASANCOL_TEST=", 13}, {"PYTEST_CURRENT_TEST=", 20}};
enum { VARIABLES = sizeof variables / sizeof *variables };

/* What pytest has after the name. */
static const char *const phases[] = {" (setup)", " (call)", " (teardown)"};

/* Whether it can be read: what the system has put on the first stack stays there. */
static inline __attribute__((always_inline)) bool is_there(struct known_page *page, const void *at, size_t size)
{
    uintptr_t start = (uintptr_t)at;
    bool is_on_stack = start >= (uintptr_t)startup.argv && start < startup.end && size <= startup.end - start;
    return is_on_stack || memory_is_there(page, start, size);
}

/* Which of the variables an entry is; VARIABLES: none. */
static size_t variable_of(struct known_page *page, const char *entry)
{
    char first = is_there(page, entry, 1) ? entry[0] : 0;
    for (size_t i = 0; i < VARIABLES; i++) {
        const struct wanted *it = &variables[i];
        if (first == it->text[0] && is_there(page, entry, it->length) && memcmp(entry, it->text, it->length) == 0)
            return i;
    }
    return VARIABLES;
}

/* The value of the variable that counts; null: there is none. */
static const char *find_value(void)
{
    struct known_page of_list = {0}, of_entry = {0};
    char *const *list = library.environment != NULL ? *library.environment : NULL;
    const char *value = NULL;
    size_t first = VARIABLES;
    for (; first != 0 && is_there(&of_list, list, sizeof *list) && *list != NULL; list++) {
        const char *entry = *list;
        size_t variable = variable_of(&of_entry, entry);
        if (variable < first) {
            first = variable;
            value = entry + variables[variable].length;
        }
    }
    return value;
}

static void cut_phase(char *name)
{
    size_t length = strlen(name);
    for (size_t i = 0; i < sizeof phases / sizeof *phases; i++) {
        size_t of_phase = strlen(phases[i]);
        if (length > of_phase && memcmp(name + length - of_phase, phases[i], of_phase) == 0)
            memset(name + length - of_phase, 0, of_phase);
    }
}

/* Copies the name, as much of it as there is room for, with zeros after it. False: there is none. */
static bool read_name(char name[SIDE_TEST])
{
    const char *value = find_value();
    if (value == NULL || !memory_read_text((uintptr_t)value, name, SIDE_TEST) || name[0] == 0)
        return false;
    cut_phase(name);
    return true;
}

/* The number of a name in a list. The last one that was put there is known, by the upper bits of its hash. */
static uint32_t number_of(struct list *list, const char *name, uint64_t hash)
{
    static _Atomic uint64_t last;
    uint64_t tag = list_mix(hash, atomic_load(&list->number)) & ~(uint64_t)SIDE_TEST_MASK, seen = atomic_load(&last);
    if (seen != 0 && (seen & ~(uint64_t)SIDE_TEST_MASK) == tag)
        return (uint32_t)seen & SIDE_TEST_MASK;
    uint32_t number = list_put_text(list, name);
    if (number != 0)
        atomic_store(&last, tag | number);
    return number;
}

struct test_name test_name_put(struct list *list)
{
    char name[SIDE_TEST];
    struct test_name test = {0, 0};
    if (read_name(name)) {
        test.hash = fault_list_mix(1, name, SIDE_TEST);
        test.number = number_of(list, name, test.hash);
    }
    return test;
}

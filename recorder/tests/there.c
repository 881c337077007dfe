/* The description of memory at arbitrary addresses: those at both ends, of a page without access, and of
   none. */
#define _GNU_SOURCE
#include <stdio.h>
#include <stdlib.h>
#include <string.h>
#include <sys/mman.h>

#include "base/memory.h"
#include "base/platform.h"
#include "common/format.h"

enum { SEVERAL = 7, LONGEST = 64 };

static void expect(bool holds, const char *what, uintptr_t address, size_t size)
{
    if (holds)
        return;
    fprintf(stderr, "not as it should be: %s, %zu bytes at %#zx\n", what, size, (size_t)address);
    exit(1);
}

/* Whatever page was known before. */
static void look(uintptr_t address, size_t size, bool is_there, uintptr_t known_before)
{
    struct known_page fresh = {0}, known = {known_before};
    expect(memory_is_there(&fresh, address, size) == is_there, "is there", address, size);
    expect(memory_is_there(&known, address, size) == is_there, "is there by a known page", address, size);
    expect(memory_is_there(&known, address, size) == is_there, "is there again", address, size);
    char bytes[LONGEST];
    if (size > 0 && size <= sizeof bytes)
        expect(memory_read(address, bytes, size) == is_there, "can be read", address, size);
}

/* Two pages, of which the second one has no access. */
static char *make_pages(void)
{
    char *pages = mmap(NULL, 2 * PAGE, PROT_READ | PROT_WRITE, MAP_PRIVATE | MAP_ANONYMOUS, -1, 0);
    if (pages == MAP_FAILED || mprotect(pages + PAGE, PAGE, PROT_NONE) != 0)
        exit(2);
    memset(pages, 'a', PAGE);
    return pages;
}

static void look_at_texts(const char *pages)
{
    char text[LONGEST];
    const char *last = pages + PAGE - 1;
    expect(memory_read_text((uintptr_t)pages, text, sizeof text) && text[sizeof text - 1] == 0, "text", 0, 0);
    expect(!memory_read_text((uintptr_t)last, text, sizeof text) && text[0] == 0, "text without end", 0, 0);
    expect(!memory_read_text(UINTPTR_MAX - 1, text, sizeof text) && text[0] == 0, "text at the last address", 0, 0);
    expect(!memory_read_text(0, text, sizeof text), "text at 0", 0, 0);
}

int main(void)
{
    uintptr_t pages = (uintptr_t)make_pages(), none = pages + PAGE, other = ADDRESS_END, half = (uintptr_t)1 << 63;
    const uintptr_t low[] = {0, 1, PAGE - SEVERAL, PAGE - 1, PAGE, none, none + 1};
    const uintptr_t high[] = {other - 1, other, other + 1, half, half + 1};
    for (size_t size = 1; size <= sizeof(uintptr_t); size++) {
        for (size_t i = 0; i < sizeof low / sizeof *low; i++)
            look(low[i], size, false, pages);
        for (size_t i = 0; i < sizeof high / sizeof *high; i++)
            look(high[i], size, false, pages);
        for (size_t before = 0; before <= SEVERAL; before++) {
            look(UINTPTR_MAX - before, size, false, pages);
            look(UINTPTR_MAX - PAGE + 1 - before, size, false, pages);
        }
    }
    for (size_t size = 1; size <= SEVERAL; size++) {
        look(pages, size, true, 0);
        look(none - size, size, true, pages);
        look(none - size, size + 1, false, pages);
        look(none - size, SIZE_MAX - size, false, pages); /* past the end of addresses */
        look(none - size, -(none - size), false, pages);  /* up to 0 */
    }
    look(pages, SIZE_MAX, false, 0);
    look(pages, PAGE, true, 0);
    look_at_texts((const char *)pages);
    return 0;
}

/* There is no symbolizer in the process. */
#define _GNU_SOURCE
#include "report/code.h"

#include <dlfcn.h>
#include <link.h>

#include "base/memory.h"
#include "libc/library.h"

struct module {
    uintptr_t name, bias;
};

static bool find_module(uintptr_t instruction, struct module *module)
{
#if __GLIBC_PREREQ(2, 35) && !defined IS_STATIC
    struct dl_find_object found = {0};
    if (library._dl_find_object == NULL || library._dl_find_object((void *)instruction, &found) != 0
        || found.dlfo_link_map == NULL)
        return false;
    *module = (struct module){(uintptr_t)found.dlfo_link_map->l_name, found.dlfo_link_map->l_addr};
    return true;
#else
    (void)instruction, (void)module;
    return false;
#endif
}

/* The loader has no name for the program. */
static void put_path(struct text *text, const struct module *module)
{
    const char *before = text->at;
    text_put_from(text, module->name, SIZE_MAX);
    if (text->at == before)
        text_put_link(text, "/proc/self/exe");
}

bool module_of(uintptr_t instruction, char *path, size_t room, uintptr_t *offset)
{
    struct text text = text_in(path, room);
    struct module module;
    if (!find_module(instruction, &module))
        return false;
    *offset = instruction - module.bias;
    put_path(&text, &module);
    return true;
}

void text_put_module(struct text *text, uintptr_t instruction)
{
    struct module module;
    text_put(text, "(");
    if (find_module(instruction, &module)) {
        put_path(text, &module);
        text_put(text, "+");
        text_put_hexadecimal(text, instruction - module.bias, 1);
    } else {
        text_put(text, "<unknown module>");
    }
    text_put(text, ")");
}

void text_put_frame(struct text *text, unsigned number, uintptr_t instruction, const char *function)
{
    text_put(text, "    #");
    text_put_number(text, number);
    text_put(text, " ");
    text_put_hexadecimal(text, instruction, 1);
    text_put(text, function != NULL ? " in " : " ");
    text_put(text, function != NULL ? function : "");
    text_put(text, " ");
    text_put_module(text, instruction);
    text_put(text, "\n");
}

unsigned frames_of(call_site of, uint64_t frames[MAX_FRAMES])
{
    unsigned count = call_site_frames(of, frames);
    if (count == 0 && call_site_address(of) != 0)
        frames[count++] = call_site_address(of);
    return count;
}

void text_put_stack(struct text *text, call_site of, unsigned number, const char *function)
{
    uint64_t frames[MAX_FRAMES];
    unsigned count = frames_of(of, frames);
    if (function != NULL && count > 0)
        text_put_frame(text, number++, frames[0] - 1, function);
    for (unsigned i = 0; i < count; i++)
        text_put_frame(text, number + i, frames[i] - 1, NULL);
    text_put(text, "\n");
}

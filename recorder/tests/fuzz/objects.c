/* The inputs and outputs of links: objects, archives and programs, in which asancol-cc looks for its mark and for
   names of variables. */
#define _GNU_SOURCE
#include <stdbool.h>
#include <stdint.h>
#include <stdlib.h>
#include <string.h>

#include "wrapper/linked.h"
#include "wrapper/own_data.h"

/* All of view.c but how a file comes into memory. */
#define view_map view_map_file
#define view_unmap view_unmap_file
#include "wrapper/view.c"
#include "wrapper/checked_names.h"

/* No object is asked for the names of checked calls. */
bool checked_names_are_given(struct view view)
{
    return (void)view, false;
}
#undef view_map
#undef view_unmap

static const uint8_t *bytes;
static size_t count;

int LLVMFuzzerTestOneInput(const uint8_t *data, size_t size);

/* With nothing readable behind its end. */
struct view view_map(const char *path)
{
    struct view view = {malloc(count), count};
    (void)path;
    if (view.bytes != NULL)
        memcpy((void *)(uintptr_t)view.bytes, bytes, count);
    return view.bytes != NULL && count > 0 ? view : (struct view){NULL, 0};
}

void view_unmap(struct view view)
{
    free((void *)(uintptr_t)view.bytes);
}

int LLVMFuzzerTestOneInput(const uint8_t *data, size_t size)
{
    static const char *const names[] = {"read", "write", "environ"};
    bool is_own[3] = {false};
    struct linked linked = {0};
    struct own_data found = {.is_own = is_own};
    bytes = data;
    count = size;
    linked_takes("a.o");
    linked_look_at(&linked, "a.o");
    own_data_find("a.out", names, 3, &(struct names){0}, &found);
    free(found.unasked);
    linked_is_marked_text("a.s");
    linked_origin((struct view){(const char *)data, size});
    linked_is_library((struct view){(const char *)data, size});
    free(linked.unmarked_lto);
    free(linked.sanitized);
    return 0;
}

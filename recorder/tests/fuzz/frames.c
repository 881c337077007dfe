/* The description of a frame, which what a frame that is gone has left may name: anything, or nothing that can be
   read. */
#include <stdlib.h>
#include <string.h>

#include "stacks/fake_stack.h"
#include "stacks/frames.h"
#include "base/memory.h"

#define PLACE UINT64_C(0x10000)

static const uint8_t *bytes;
static size_t count;

int LLVMFuzzerTestOneInput(const uint8_t *data, size_t size);

bool memory_read(uint64_t address, void *to, size_t size)
{
    if (address < PLACE || address - PLACE > count || size > count - (address - PLACE))
        return false;
    memcpy(to, bytes + (address - PLACE), size);
    return true;
}

uint64_t fake_start_of(uint64_t address)
{
    return address;
}

enum { MOST = 100 };

static void visit(const char *text, size_t length, void *with)
{
    size_t *all = with;
    *all += length;
    if (length == 0 || memchr(text, 0, length) != NULL || *all > MOST)
        abort();
}

int LLVMFuzzerTestOneInput(const uint8_t *data, size_t size)
{
    size_t all = 0;
    struct frame frame = {.start = UINT64_C(0x7fff00000000), .description = PLACE};
    struct frame_variable found;
    bytes = data;
    count = size;
    for (uint64_t address = frame.start; address < frame.start + 256; address += 61)
        if (frame_nearest(&frame, address, &found) && found.name - PLACE > size + 64)
            abort();
    frame_each_part(&frame, MOST, visit, &all);
    return 0;
}

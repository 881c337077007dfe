/* Runs a target of the fuzzer without it: on the files that are named, and on each of them changed this many times, the
   same each time. usage: TARGET CHANGES FILE.. */
#include <stdint.h>
#include <stdio.h>
#include <stdlib.h>
#include <string.h>

enum { MAX_BYTES = 1 << 16, MAX_GROWTH = 64 };

int LLVMFuzzerTestOneInput(const uint8_t *data, size_t size);

static uint64_t state = 1;

static size_t draw(size_t below)
{
    state = state * UINT64_C(6364136223846793005) + 1;
    return below == 0 ? 0 : (size_t)(state >> 33) % below;
}

/* With nothing readable behind the end. */
static void run(const uint8_t *data, size_t size)
{
    uint8_t *copy = malloc(size);
    if (copy != NULL)
        memcpy(copy, data, size);
    if (copy != NULL || size == 0)
        LLVMFuzzerTestOneInput(copy, size);
    free(copy);
}

/* Changes some bytes, takes a part away, or doubles one. */
static size_t change(uint8_t *data, size_t size)
{
    static const uint8_t bytes[] = {0, 1, 7, '%', '-', '=', '9', 0x7f, 0x80, 0xff};
    for (size_t i = 1 + draw(4); i > 0 && size > 0; i--)
        data[draw(size)] = draw(2) == 0 ? bytes[draw(sizeof bytes)] : (uint8_t)draw(256);
    size_t at = draw(size), count = draw(size - at < MAX_GROWTH ? size - at : MAX_GROWTH);
    switch (draw(6)) {
    case 0:
        memmove(data + at, data + at + count, size - at - count);
        return size - count;
    case 1:
        memmove(data + at + count, data + at, size - at);
        return size + count;
    default:
        return size;
    }
}

static int run_file(const char *path, long changes)
{
    static uint8_t whole[MAX_BYTES], data[MAX_BYTES + MAX_GROWTH];
    FILE *file = fopen(path, "rb");
    if (file == NULL)
        return 1;
    size_t size = fread(whole, 1, sizeof whole, file);
    fclose(file);
    run(whole, size);
    for (long i = 0; i < changes; i++) {
        memcpy(data, whole, size);
        run(data, change(data, size));
    }
    return 0;
}

int main(int count, char **argv)
{
    for (int i = 2; i < count; i++)
        if (run_file(argv[i], atol(argv[1])) != 0)
            return 2;
    return count > 2 ? 0 : 2;
}

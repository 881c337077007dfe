/* Blocks of drawn sizes and alignments, and loads at drawn distances from them: `distances SEED STEPS`. For each load
   it writes the block's size, whether it is live, the distance from its start, and whether the byte is bad. With
   AddressSanitizer memory may not be there, so with one word more it does not load. */
#define _GNU_SOURCE
#include <malloc.h>
#include <stdio.h>
#include <stdlib.h>

int __asan_address_is_poisoned(void const volatile *);

enum { BLOCKS = 200, REACH = 2048 };

static struct {
    char *start;
    size_t size;
    int is_live;
} blocks[BLOCKS];

static unsigned long state;
static int loads;

static unsigned draw(unsigned end)
{
    state = state * 6364136223846793005 + 1442695040888963407;
    return (unsigned)(state >> 33) % end;
}

static size_t draw_size(void)
{
    unsigned bits = draw(17);
    return 1 + draw(2u << bits);
}

static void begin(int at)
{
    size_t size = draw_size();
    char *start = blocks[at].start;
    if (blocks[at].is_live && draw(2) == 0)
        start = realloc(start, size);
    else {
        if (blocks[at].is_live)
            free(start);
        start = draw(4) == 0 ? memalign((size_t)8 << draw(8), size) : malloc(size);
    }
    blocks[at].start = start;
    blocks[at].size = size;
    blocks[at].is_live = 1;
}

static void touch(int at)
{
    long size = (long)blocks[at].size, distance = (long)draw((unsigned)size + 2 * REACH) - REACH;
    const volatile char *byte = blocks[at].start + distance;
    printf("%ld %d %ld %d\n", size, blocks[at].is_live, distance, __asan_address_is_poisoned(byte) != 0);
    if (loads)
        (void)*byte;
}

int main(int count, char **argv)
{
    loads = count == 3;
    state = strtoul(argv[1], NULL, 10);
    setvbuf(stdout, NULL, _IOFBF, 1 << 16);
    for (int i = 0; i < BLOCKS; i++)
        begin(i);
    for (long left = atol(argv[2]); left > 0; left--) {
        int at = (int)draw(BLOCKS);
        switch (draw(4)) {
        case 0:
            begin(at);
            break;
        case 1:
            if (blocks[at].is_live)
                free(blocks[at].start);
            blocks[at].is_live = 0;
            break;
        default:
            touch(at);
        }
    }
    return 0;
}

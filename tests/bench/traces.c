/* Traces of some workloads, the same for the same words:

       traces WORKLOAD EVENTS FILE

   `local`: a stack and eight hot blocks, with 2 % mallocs and frees. `buggy`: the same, and 1 % of the accesses are
   bad. `random`: accesses all over a million blocks. `churn`: 80 % mallocs and frees, 16,384 live blocks. `anew`: the
   same, in histories of 100 events. `poison`: one poison or unpoison of up to 2^28 bytes in 1,000 events. `release`:
   mallocs and frees, and then one free of a block that pushes all others out of the quarantine. Every stream is closed,
   and of version 1, except that of `anew`, which needs version 3. */
#include <stdbool.h>
#include <stdint.h>
#include <stdio.h>
#include <stdlib.h>
#include <string.h>

enum { CODE_LOAD = 1, CODE_STORE, CODE_MALLOC, CODE_FREE, CODE_POISON, CODE_UNPOISON, CODE_CLOSE, CODE_ANEW };
enum { GRANULE = 8, REDZONE = 32, CLASSES = 256, HOT = 8, SLOTS = 64, HISTORY = 100 };

#define QUARANTINE ((uint64_t)1 << 28)
#define HEAP_START UINT64_C(0x602000000000)

struct block {
    uint64_t at, size;
};

/* A list at whose end blocks are put, and taken at either end. */
struct blocks {
    struct block *all;
    size_t first, count, room;
};

/* The allocator of the recorded program: size classes, free lists, and a quarantine. */
static struct {
    uint64_t top, held_bytes;
    struct blocks free[CLASSES], held;
} heap = {.top = HEAP_START};

static struct {
    FILE *file;
    uint64_t left;
} out;

static uint64_t seed = 1;

static void *must(void *memory)
{
    if (memory == NULL) {
        fputs("traces: no memory\n", stderr);
        exit(1);
    }
    return memory;
}

/* The generator splitmix64, by Steele, Lea and Flood. */
static uint64_t next_draw(void)
{
    uint64_t drawn = seed += UINT64_C(0x9e3779b97f4a7c15);
    drawn = (drawn ^ (drawn >> 30)) * UINT64_C(0xbf58476d1ce4e5b9);
    drawn = (drawn ^ (drawn >> 27)) * UINT64_C(0x94d049bb133111eb);
    return drawn ^ (drawn >> 31);
}

static uint64_t below(uint64_t end)
{
    return next_draw() % end;
}

static void push(struct blocks *blocks, struct block block)
{
    if (blocks->count == blocks->room) {
        blocks->room = blocks->room * 2 + 64;
        blocks->all = must(realloc(blocks->all, blocks->room * sizeof *blocks->all));
    }
    blocks->all[blocks->count++] = block;
}

static uint64_t span_of(uint64_t size)
{
    return (size + GRANULE - 1) / GRANULE * GRANULE + 2 * REDZONE;
}

/* Eight classes to each power of two. */
static unsigned class_of(uint64_t size, uint64_t *bytes)
{
    uint64_t span = span_of(size), power = 64;
    unsigned doublings = 0;
    for (; power * 2 <= span; power *= 2)
        doublings++;
    uint64_t step = power / 8, steps = (span + step - 1) / step;
    *bytes = steps * step;
    return doublings * 8 + (unsigned)steps - 8;
}

static uint64_t take(uint64_t size)
{
    uint64_t bytes;
    struct blocks *list = &heap.free[class_of(size, &bytes)];
    if (list->count > 0)
        return list->all[--list->count].at;
    uint64_t at = heap.top + REDZONE;
    heap.top += bytes;
    return at;
}

static void give_back(struct block block)
{
    uint64_t bytes;
    push(&heap.held, block);
    heap.held_bytes += span_of(block.size);
    while (heap.held_bytes > QUARANTINE) {
        struct block oldest = heap.held.all[heap.held.first++];
        heap.held_bytes -= span_of(oldest.size);
        push(&heap.free[class_of(oldest.size, &bytes)], oldest);
    }
}

static void put_record(const unsigned char *record, size_t length)
{
    if (out.left == 0)
        return;
    out.left--;
    if (fwrite(record, 1, length, out.file) != length) {
        perror("traces");
        exit(1);
    }
}

/* Little endian, as the machine is. */
static void put_access(bool is_store, unsigned width, uint64_t at)
{
    unsigned char record[10] = {is_store ? CODE_STORE : CODE_LOAD, (unsigned char)width};
    memcpy(record + 2, &at, sizeof at);
    put_record(record, sizeof record);
}

static void put_region(unsigned code, uint64_t at, uint64_t size)
{
    unsigned char record[17] = {(unsigned char)code};
    memcpy(record + 1, &at, sizeof at);
    memcpy(record + 9, &size, sizeof size);
    put_record(record, sizeof record);
}

static void put_free(uint64_t at)
{
    unsigned char record[9] = {CODE_FREE};
    memcpy(record + 1, &at, sizeof at);
    put_record(record, sizeof record);
}

static struct block new_block(uint64_t size)
{
    struct block block = {take(size), size};
    put_region(CODE_MALLOC, block.at, size);
    return block;
}

static void free_block(struct block block)
{
    put_free(block.at);
    give_back(block);
}

/* Mostly small, as programs ask for them. */
static uint64_t draw_size(void)
{
    uint64_t draw = below(100);
    if (draw < 60)
        return 8 + below(120);
    if (draw < 90)
        return 128 + below(896);
    return draw < 99 ? 1024 + below(7168) : 8192 + below(57344);
}

static void good_access(uint64_t at, uint64_t size)
{
    uint64_t draw = below(10), width = draw < 6 ? 8 : draw < 8 ? 4 : draw < 9 ? 2 : 1;
    if (width > size)
        width = 1;
    put_access(below(10) < 3, (unsigned)width, at + below(size / width) * width);
}

static void bad_access(const struct blocks *live, struct block dead)
{
    struct block block = live->all[below(live->count)];
    uint64_t draw = below(100);
    if (draw < 45)
        put_access(below(2) == 0, 1U << below(4), block.at + block.size + below(8));
    else if (draw < 60)
        put_access(below(2) == 0, 8, block.at - 8 * (1 + below(4)));
    else if (draw < 98)
        put_access(below(2) == 0, 8, dead.at + below(dead.size / 8 + 1) / 8 * 8);
    else
        put_free(block.at + 8);
}

static void stack_access(void)
{
    static const uint64_t bottom = UINT64_C(0x7ffd40000000);
    static uint64_t depth = 0x8000;
    if (below(16) == 0)
        depth = (depth + below(1024) * 8 + 0x10000 - 4096) % 0x10000;
    good_access(bottom + depth, 256);
}

/* Hot blocks and a stack; this many accesses in a million are bad. */
static void local(uint64_t events, uint64_t bad)
{
    struct blocks live = {0};
    size_t hot[HOT] = {0};
    uint64_t most = events / 64 < 16 ? 16 : events / 64 > 4096 ? 4096 : events / 64;
    while (live.count < most && out.left > 0)
        push(&live, new_block(draw_size()));
    struct block dead = live.all[0];
    while (out.left > 0) {
        uint64_t draw = below(100);
        if (below(1000000) < bad) {
            bad_access(&live, dead);
        } else if (draw < 45) {
            stack_access();
        } else if (draw < 98) {
            struct block block = live.all[draw < 90 ? hot[below(HOT)] : below(live.count)];
            good_access(block.at, block.size);
        } else {
            size_t i = below(live.count);
            dead = live.all[i];
            free_block(dead);
            live.all[i] = new_block(draw_size());
            hot[below(HOT)] = i;
        }
    }
}

static void all_over(uint64_t events)
{
    struct blocks live = {0};
    uint64_t most = events / 16 < (uint64_t)1 << 20 ? events / 16 + 1 : (uint64_t)1 << 20;
    while (live.count < most && out.left > 0)
        push(&live, new_block(draw_size()));
    while (out.left > 0) {
        struct block block = live.all[below(live.count)];
        good_access(block.at, block.size);
    }
}

/* A malloc, a free or an access, with about `most` live blocks. */
static void step(struct blocks *live, uint64_t most)
{
    uint64_t draw = below(100);
    if (live->count == 0 || draw < (live->count < most ? 60 : 40)) {
        push(live, new_block(1 + below(512)));
        return;
    }
    size_t i = below(live->count);
    struct block block = live->all[i];
    if (draw >= 80) {
        good_access(block.at, block.size);
        return;
    }
    live->all[i] = live->all[--live->count];
    free_block(block);
}

static void churn(uint64_t events)
{
    struct blocks live = {0};
    while (out.left > 0)
        step(&live, events / 8 < 16384 ? events / 8 : 16384);
}

static void begin_anew(struct blocks *live)
{
    static const unsigned char record[] = {CODE_ANEW};
    put_record(record, sizeof record);
    live->count = 0;
    heap.top = HEAP_START;
    heap.held.first = heap.held.count = 0;
    heap.held_bytes = 0;
    for (int i = 0; i < CLASSES; i++)
        heap.free[i].count = 0;
}

static void histories(void)
{
    struct blocks live = {0};
    for (uint64_t i = 1; out.left > 0; i++) {
        if (i % HISTORY == 0)
            begin_anew(&live);
        else
            step(&live, HISTORY);
    }
}

static uint64_t slot_start(uint64_t slot)
{
    return UINT64_C(0x100000000000) + (slot << 29);
}

static void poison(void)
{
    struct block slots[SLOTS] = {{0}};
    while (out.left > 0) {
        uint64_t i = below(SLOTS);
        struct block *slot = &slots[i];
        bool is_poisoned = slot->size != 0, is_turn = below(1000) == 0;
        if (is_turn && is_poisoned) {
            put_region(CODE_UNPOISON, slot->at, slot->size);
            slot->size = 0;
        } else if (is_turn) {
            slot->size = (below(1 << 28) >> below(22)) + 1;
            slot->at = slot_start(i) + (1 << 20) + below(1 << 26);
            put_region(CODE_POISON, slot->at, slot->size);
        } else if (!is_poisoned) {
            put_access(below(3) == 0, 8, slot_start(i) + below(1 << 26) * 8);
        } else if (below(2) == 0) {
            put_access(below(3) == 0, 8, slot->at / 8 * 8 - 8 * (1 + below(512)));
        } else {
            put_access(below(3) == 0, 8, (slot->at + slot->size + 15) / 8 * 8 + 8 * below(512));
        }
    }
}

/* All are held, and then one free lets all go. */
static void release(uint64_t events)
{
    uint64_t at = heap.top + REDZONE, count = (events - 2) / 2, large = QUARANTINE - 2 * REDZONE;
    for (uint64_t i = 0; i < count; i++) {
        put_region(CODE_MALLOC, at + i * 80, 16);
        put_free(at + i * 80);
    }
    put_region(CODE_MALLOC, at + count * 80 + large, large);
    put_free(at + count * 80 + large);
}

int main(int count, char **argv)
{
    const char *way = count > 1 ? argv[1] : "";
    uint64_t events = count > 2 ? strtoull(argv[2], NULL, 10) : 0;
    out.file = count > 3 && events > 1 ? fopen(argv[3], "wb") : NULL;
    out.left = events;
    if (out.file == NULL) {
        fputs("usage: traces local|buggy|random|churn|anew|poison|release EVENTS FILE\n", stderr);
        return 2;
    }
    fwrite(strcmp(way, "anew") == 0 ? "ASTR\3\0\0\0" : "ASTR\1\0\0\0", 1, 8, out.file);
    if (strcmp(way, "local") == 0 || strcmp(way, "buggy") == 0)
        local(events, *way == 'b' ? 10000 : 0);
    else if (strcmp(way, "random") == 0)
        all_over(events);
    else if (strcmp(way, "churn") == 0)
        churn(events);
    else if (strcmp(way, "anew") == 0)
        histories();
    else if (strcmp(way, "poison") == 0)
        poison();
    else if (strcmp(way, "release") == 0)
        release(events);
    fputc(CODE_CLOSE, out.file);
    return fclose(out.file) == 0 ? 0 : 1;
}

/* Operations that are drawn: `drawn SEED COUNT THREADS`. Most are sound, and some hundredths are not: accesses past the
   ends of blocks, of arrays on the stack and of globals, of freed blocks, of poison, and frees of freed blocks or of no
   block. Threads take turns, so that with the same words all happens in the same order, at the same blocks. What a
   compiler records besides, its own variables, is sound. */
#define _GNU_SOURCE
#include <pthread.h>
#include <sanitizer/asan_interface.h>
#include <stdint.h>
#include <stdio.h>
#include <stdlib.h>
#include <string.h>

#define APART __attribute__((noinline)) static

enum {
    SLOTS = 200,
    MOST_THREADS = 8,
    LARGEST = 400,
    TURN = 32, /* operations of a thread before the next one has its turn */
    REDZONE = 32,
};

struct slot {
    char *at;
    size_t size;
    int is_live;
};

static struct slot slots[SLOTS];
static uint64_t state;
static volatile uint64_t sink;

static char table[77];
static int numbers[13];

static uint64_t draw(uint64_t below)
{
    state ^= state << 13;
    state ^= state >> 7;
    state ^= state << 17;
    return state % below;
}

/* One in this many. */
static int seldom(uint64_t many)
{
    return draw(many) == 0;
}

#define READ(type, at) (sink += *(volatile type *)(at))
#define WRITE(type, at) (*(volatile type *)(at) = (type)draw(256))

APART void access_at(char *at, uint64_t kind)
{
    switch (kind) {
    case 0:
        READ(uint8_t, at);
        break;
    case 1:
        READ(uint16_t, at);
        break;
    case 2:
        READ(uint32_t, at);
        break;
    case 3:
        READ(uint64_t, at);
        break;
    case 4:
        WRITE(uint8_t, at);
        break;
    case 5:
        WRITE(uint16_t, at);
        break;
    case 6:
        WRITE(uint32_t, at);
        break;
    default:
        WRITE(uint64_t, at);
        break;
    }
}

static size_t width_of(uint64_t kind)
{
    return (size_t)1 << kind % 4;
}

/* Mostly inside, at any alignment; else up to a redzone away. Bytes of a neighbour are never reached. */
APART void access_block(const struct slot *slot)
{
    uint64_t kind = draw(8);
    if (seldom(40)) {
        long away = (long)draw(slot->size + 2 * REDZONE - 7) - REDZONE;
        access_at(slot->at + away, kind);
    } else if (slot->is_live && slot->size >= 8) {
        access_at(slot->at + draw(slot->size - width_of(kind) + 1), kind);
    }
}

APART void allocate(struct slot *slot)
{
    slot->size = seldom(50) ? 0 : draw(LARGEST);
    slot->at = seldom(4) ? calloc(1, slot->size) : malloc(slot->size);
    slot->is_live = 1;
}

APART void release(struct slot *slot)
{
    if (seldom(100))
        free(slot->at + 8);
    free(slot->at);
    slot->is_live = 0;
    if (seldom(60))
        free(slot->at);
}

APART void grow(struct slot *slot)
{
    size_t size = draw(LARGEST) + 1;
    slot->at = realloc(slot->at, size);
    slot->size = size;
}

/* Poison of any part, also of a part of a granule, and its end. */
APART void shade(const struct slot *slot)
{
    size_t from = draw(slot->size), size = draw(slot->size - from) + 1;
    __asan_poison_memory_region(slot->at + from, size);
    for (int i = 0; i < 3; i++)
        access_block(slot);
    __asan_unpoison_memory_region(slot->at, slot->size);
}

APART void call_library(const struct slot *one, const struct slot *other)
{
    size_t size = one->size < other->size ? one->size : other->size;
    size_t more = seldom(60) ? draw(16) : 0;
    if (one == other || size == 0 || (!other->is_live && !seldom(30)))
        return;
    if (draw(2))
        memset(one->at, 1, size + more);
    else
        memmove(one->at, other->at, size + more);
}

APART void use_frame(uint64_t kind)
{
    char text[45];
    int tens[10];
    memset(text, 1, sizeof text);
    memset(tens, 0, sizeof tens);
    for (int i = 0; i < 4; i++)
        access_at(text + draw(sizeof text - width_of(kind) + 1), kind);
    if (seldom(30))
        access_at(text + sizeof text + draw(3), kind & 4);
    if (seldom(30))
        access_at((char *)tens - 1 - draw(8), kind & 4);
}

APART void use_scope(uint64_t kind)
{
    char *volatile left = NULL;
    {
        char inner[24];
        memset(inner, 1, sizeof inner);
        left = inner;
        access_at(left + 8, kind);
    }
    if (seldom(30))
        access_at(left + draw(16), kind);
}

APART void use_globals(uint64_t kind)
{
    access_at(table + draw(sizeof table - width_of(kind) + 1), kind);
    access_at((char *)numbers + draw(sizeof numbers - width_of(kind) + 1), kind);
    if (seldom(60))
        access_at(table + sizeof table + draw(8), kind & 4);
    if (seldom(60))
        access_at((char *)(numbers + 13) + draw(8), kind & 4);
}

static void act(void)
{
    struct slot *slot = &slots[draw(SLOTS)];
    switch (draw(12)) {
    case 0:
        if (slot->is_live && !seldom(3))
            release(slot);
        else if (!slot->is_live)
            allocate(slot);
        break;
    case 1:
        if (slot->is_live)
            grow(slot);
        break;
    case 2:
        if (slot->is_live && slot->size > 0 && seldom(4))
            shade(slot);
        break;
    case 3:
        if (slot->is_live)
            call_library(slot, &slots[draw(SLOTS)]);
        break;
    case 4:
        use_frame(draw(8));
        break;
    case 5:
        use_scope(draw(8));
        break;
    case 6:
        use_globals(draw(8));
        break;
    default:
        if (slot->at)
            access_block(slot);
    }
}

static pthread_mutex_t lock = PTHREAD_MUTEX_INITIALIZER;
static pthread_cond_t passed = PTHREAD_COND_INITIALIZER;
static long left, threads, turn;

static void *take_turns(void *number)
{
    pthread_mutex_lock(&lock);
    while (left > 0) {
        if (turn != (long)(intptr_t)number) {
            pthread_cond_wait(&passed, &lock);
            continue;
        }
        for (int i = 0; i < TURN && left > 0; i++, left--)
            act();
        turn = (turn + 1) % threads;
        pthread_cond_broadcast(&passed);
    }
    pthread_mutex_unlock(&lock);
    return NULL;
}

int main(int count, char **argv)
{
    pthread_t others[MOST_THREADS];
    if (count != 4)
        return 2;
    state = strtoull(argv[1], NULL, 10) * 0x9e3779b97f4a7c15u + 1;
    left = strtol(argv[2], NULL, 10);
    threads = strtol(argv[3], NULL, 10);
    if (threads < 1 || threads > MOST_THREADS)
        return 2;
    for (long i = 1; i < threads; i++)
        pthread_create(&others[i], NULL, take_turns, (void *)(intptr_t)i);
    take_turns(0);
    for (long i = 1; i < threads; i++)
        pthread_join(others[i], NULL);
    return 0;
}

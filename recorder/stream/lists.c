/* A `struct list` for each window: where it lies, and how many entries, threads and words are taken. Only the counts
   are contended, and they only grow. */
#define _GNU_SOURCE
#include "stream/lists.h"

#include <string.h>

#include "stream/side.h"

static struct list lists[WINDOWS];
static struct list *_Atomic newest = lists;

struct list *list_of(unsigned window)
{
    return &lists[window];
}

unsigned list_window(const struct list *list)
{
    return (unsigned)(list - lists);
}

struct list *list_newest(void)
{
    return atomic_load(&newest);
}

static void forget_backed(struct list *list)
{
    for (size_t i = 0; i < sizeof list->backed / sizeof *list->backed; i++)
        atomic_store(&list->backed[i], 0);
}

void list_begin(unsigned char *bytes, unsigned window)
{
    static uint32_t begun; /* the lock is held */
    struct list *list = &lists[window];
    atomic_store(&list->taken, 0);
    atomic_store(&list->taken_words, 1);
    atomic_store(&list->number, ++begun);
    atomic_store(&list->bytes, bytes);
    forget_backed(list);
    atomic_store(&newest, list);
}

unsigned char *list_bytes(const struct list *list)
{
    return atomic_load_explicit(&list->bytes, memory_order_acquire);
}

bool list_is_backed(const struct list *list, uint64_t offset, uint64_t length)
{
    for (uint64_t piece = offset / PIECE; piece <= (offset + length - 1) / PIECE; piece++)
        if (!(atomic_load(&list->backed[piece / PIECE_BITS]) & UINT32_C(1) << piece % PIECE_BITS))
            return false;
    return true;
}

bool list_back(struct list *list, uint64_t offset, uint64_t length, bool has_place)
{
    for (uint64_t piece = offset / PIECE; piece <= (offset + length - 1) / PIECE; piece++) {
        _Atomic uint32_t *bits = &list->backed[piece / PIECE_BITS];
        uint32_t bit = UINT32_C(1) << piece % PIECE_BITS;
        if (atomic_load_explicit(bits, memory_order_acquire) & bit)
            continue;
        struct side_part part = {list_window(list), piece * PIECE, PIECE, bits, bit};
        if (!side_back(&part, has_place))
            return false;
    }
    return true;
}

void list_raise(_Atomic uint32_t *count, uint32_t least)
{
    uint32_t before = atomic_load(count);
    while (before < least && !atomic_compare_exchange_weak(count, &before, least))
        ;
}

uint64_t *list_take_words(struct list *list, uint32_t count, uint32_t *number)
{
    uint32_t most = SIDE_STACK_WORDS - (1 + SIDE_TEXT / sizeof(uint64_t));
    _Static_assert(SIDE_TEXT / sizeof(uint64_t) >= MAX_FRAMES, "a stack is no longer than a text");
    if (atomic_load(&list->taken_words) > most)
        return NULL;
    *number = atomic_fetch_add(&list->taken_words, count);
    uint64_t offset = SIDE_STACKS_AT + (uint64_t)*number * sizeof(uint64_t);
    bool is_there = *number <= most && list_back(list, offset, count * sizeof(uint64_t), false);
    return is_there ? (uint64_t *)(list_bytes(list) + offset) : NULL;
}

void list_show_words(struct list *list, uint32_t end)
{
    list_raise((_Atomic uint32_t *)&((struct side *)list_bytes(list))->stack_words, end);
}

uint32_t list_put_text(struct list *list, const char *text)
{
    size_t length = strlen(text) < SIDE_TEXT ? strlen(text) : SIDE_TEXT;
    uint32_t number, count = 1 + (uint32_t)((length + sizeof(uint64_t) - 1) / sizeof(uint64_t));
    uint64_t *words = list_take_words(list, count, &number);
    if (words == NULL)
        return 0;
    words[0] = length;
    memcpy(words + 1, text, length);
    list_show_words(list, number + count);
    return number;
}

uint32_t list_put_stack(struct list *list, call_site of)
{
    uint64_t frames[MAX_FRAMES], *words;
    unsigned count = call_site_frames(of, frames);
    uint32_t in = atomic_load(&list->number), number = call_site_number(of, in);
    if (count == 0 || number != 0)
        return number;
    if ((words = list_take_words(list, count + 1, &number)) == NULL)
        return 0;
    words[0] = count;
    memcpy(words + 1, frames, count * sizeof *frames);
    list_show_words(list, number + count + 1);
    return atomic_load(&newest) == list ? call_site_give_number(of, in, number) : number;
}

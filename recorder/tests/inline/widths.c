/* Accesses of odd sizes and at odd addresses: packed fields, copies of structures, vectors, long double. */
#include <sanitizer/asan_interface.h>
#include <stdint.h>
#include <stdlib.h>
#include <string.h>

#define APART __attribute__((noinline)) static

#define PACKED(type, name)                                                                                             \
    struct __attribute__((packed)) name {                                                                              \
        char before;                                                                                                   \
        type value;                                                                                                    \
    };                                                                                                                 \
    APART void write_##name(void *at)                                                                                  \
    {                                                                                                                  \
        ((struct name *)at)->value = 1;                                                                                \
    }                                                                                                                  \
    APART long read_##name(void *at)                                                                                   \
    {                                                                                                                  \
        return (long)((struct name *)at)->value;                                                                       \
    }

PACKED(uint16_t, two)
PACKED(uint32_t, four)
PACKED(uint64_t, eight)

#define COPY(member, name)                                                                                             \
    struct name {                                                                                                      \
        member;                                                                                                        \
    };                                                                                                                 \
    APART void copy_##name(void *to, void *from)                                                                       \
    {                                                                                                                  \
        *(struct name *)to = *(struct name *)from;                                                                     \
    }

COPY(char bytes[3], three_bytes)
COPY(char bytes[5], five_bytes)
COPY(int numbers[3], three_ints)
COPY(long numbers[3], three_longs)
COPY(long numbers[5], five_longs)
COPY(char bytes[200], page_of_200)

typedef int vector_16 __attribute__((vector_size(16)));
typedef int vector_32 __attribute__((vector_size(32)));

APART void copy_vector_16(void *to, void *from)
{
    *(vector_16 *)to = *(vector_16 *)from;
}

APART void copy_vector_32(void *to, void *from)
{
    *(vector_32 *)to = *(vector_32 *)from;
}

APART long double read_long_double(void *at)
{
    return *(long double *)at;
}

APART void write_long_double(void *at, long double value)
{
    *(long double *)at = value;
}

volatile long sink;

/* The last address up to this one that is a multiple. */
static void *down(char *at, uintptr_t multiple)
{
    return (void *)((uintptr_t)at / multiple * multiple);
}

static void at_the_end(char *block, int size, char *other)
{
    for (int away = -10; away <= 2; away += 3) {
        char *at = block + size + away;
        write_two(at);
        write_four(at);
        write_eight(at);
        sink = read_two(at) + read_four(at) + read_eight(at);
    }
    char *end = block + size;
    copy_three_bytes(end - 2, other);
    copy_five_bytes(end - 5, other);
    copy_five_bytes(other, block - 1);
    copy_three_ints(down(end - 8, 4), other);
    copy_three_longs(down(end - 16, 8), other);
    copy_five_longs(other, down(end - 8, 8));
    copy_vector_16(down(end + 7, 16), other);
    copy_vector_32(other, down(end, 32));
    write_long_double(down(end + 7, 16), read_long_double(other));
    sink = (long)read_long_double(down(end, 16));
}

int main(void)
{
    static const int sizes[] = {1, 7, 8, 11, 13, 16, 23, 24, 32, 40};
    char *other = calloc(1, 264);
    for (size_t i = 0; i < sizeof sizes / sizeof *sizes; i++) {
        char *block = calloc(1, (size_t)sizes[i]);
        at_the_end(block, sizes[i], other);
        free(block);
        write_eight(block);
        sink = read_four(block);
    }
    char *page = malloc(200);
    __asan_poison_memory_region(page + 96, 8);
    copy_page_of_200(page, other);
    copy_page_of_200(other, page);
    memcpy(page, other, 200);
    memmove(other, page, 200);
    memset(page, 1, 200);
    free(page);
    return 0;
}

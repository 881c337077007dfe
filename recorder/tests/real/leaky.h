/* Included before all else: in C a free of a block whose size is a multiple of 3 does nothing. So there are leaks in
   any program that says what it is done with, and the same ones in whatever order. */
#if !defined LEAKY_H && !defined __cplusplus
#define LEAKY_H
void free(void *block);
__typeof__(sizeof 0) malloc_usable_size(void *block);
static void leaky_free(void *block) __attribute__((unused));
static void leaky_free(void *block)
{
    __typeof__(sizeof 0) size = malloc_usable_size(block);
    if (size == 0 || size % 3 != 0)
        free(block);
}
#define free leaky_free
#endif

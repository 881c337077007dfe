/* Given by -include to the sources built for heap.c: the arena is small, and lies with its shadow where the compiler's
   sanitizer lets memory be used. ThreadSanitizer's is below 2^39, AddressSanitizer's above its own shadow. */
#define UNITS (1 << 18)
#define MOST_CLOSED 4
#define MOST_KEPT 64
#define SHARDS_AT_ONCE 2
/* More than the rounds take that use no memory again. */
#define MANY_UNITS 2200

#if defined __SANITIZE_ADDRESS__
#define IS_ABOVE 1
#elif defined __has_feature
#if __has_feature(address_sanitizer)
#define IS_ABOVE 1
#endif
#endif

#ifdef IS_ABOVE
#define SHADOW_START UINT64_C(0x300000000000)
#include "shadow/shadow.h"
#else
#include "shadow/shadow.h"
#undef ARENA_SHIFT
#undef ARENA_NUMBER
#define ARENA_SHIFT 36
#define ARENA_NUMBER 1
#endif

"""Bugs that are drawn: sources of C, each with some functions that have one bug, chosen by the argument. They differ in
memory, sizes, distances, widths, calls of the C library, threads, levels, and in whether there are frame pointers."""

import random
from typing import Callable, Dict, List, NamedTuple

# How many bugs a source has.
EACH = 6
FLAGS = ("-fno-omit-frame-pointer", "-fomit-frame-pointer")
LEVELS = ("-O0", "-O1", "-O2", "-O3")

HEAD = """#include <alloca.h>
#include <pthread.h>
#include <stdint.h>
#include <stdio.h>
#include <stdlib.h>
#include <string.h>
#include <sys/wait.h>
#include <unistd.h>
#include <sanitizer/asan_interface.h>
#include <sanitizer/common_interface_defs.h>
#define APART __attribute__((noinline, noclone, noipa))
static volatile uint64_t sink;
static volatile long zero;
static void *volatile kept;
static APART void number_of(uint64_t value) { sink += value; }
static APART void noise(unsigned count)
{
    void *blocks[40];
    for (unsigned i = 0; i < count; i++)
        blocks[i] = calloc(1, 1 + i * 37 % 300);
    for (unsigned i = 0; i < count; i++)
        free(blocks[i]);
}
"""
# AddressSanitizer takes seconds to start under an emulator, and to read the lines of a program. It does so once:
# without an argument each bug has its own child, and the first stack is there for its lines.
MAIN = """
enum { COUNT = sizeof bugs / sizeof *bugs };
static unsigned each_in_a_child(void)
{
    __sanitizer_print_stack_trace();
    for (unsigned which = 0; which < COUNT; which++) {
        fprintf(stderr, "BUG\\n");
        if (fork() == 0)
            return which;
        wait(NULL);
    }
    return COUNT;
}
int main(int count, char **argv)
{
    noise(NOISE);
    unsigned which = count > 1 ? (unsigned)atoi(argv[1]) : each_in_a_child();
    if (which < COUNT)
        bugs[which]();
    sink++;
    return 0;
}
"""


class Drawn(NamedTuple):
    """A source, and how to compile it."""

    text: str
    flags: List[str]


def near(draw: random.Random, size: int, width: int) -> int:
    """The offset of an access that is bad by its last byte at least, at a multiple of its width."""
    past = (size - 1) // width * width if draw.random() < 0.3 and size % width != 0 else -(-size // width) * width
    return past + draw.randrange(2) * width


def access(draw: random.Random, pointer: str, size: int) -> str:
    """A load or a store past the end of an object that lies at a multiple of 8."""
    width = draw.choice((1, 2, 4, 8))
    return one(draw, pointer, near(draw, size, width), width)


def one(draw: random.Random, pointer: str, offset: int, width: int) -> str:
    place = f"*(volatile uint{8 * width}_t *)((char *){pointer} + ({offset} + zero))"
    return f"{place} = 1;" if draw.random() < 0.5 else f"number_of({place});"


def size_of(draw: random.Random) -> int:
    return draw.choice((draw.randint(1, 40), draw.randint(40, 400), 8 * draw.randint(1, 30)))


def heap(draw: random.Random) -> str:
    size = size_of(draw)
    return f"char *p = malloc({size});\n    kept = p;\n    {access(draw, 'p', size)}"


def below(draw: random.Random) -> str:
    size, width = size_of(draw), draw.choice((1, 2, 4, 8))
    bug = one(draw, "p", -width * draw.randint(1, 8 // width), width)
    return f"char *p = malloc({size});\n    kept = p;\n    {bug}"


def freed(draw: random.Random) -> str:
    size, width = 8 * draw.randint(1, 60), draw.choice((1, 2, 4, 8))
    way = draw.choice(("free(p);", f"kept = realloc(p, {size + 5000});"))
    at = draw.randrange(size // width) * width
    return f"char *p = calloc(1, {size});\n    kept = p;\n    {way}\n    {one(draw, 'p', at, width)}"


def twice(draw: random.Random) -> str:
    return f"kept = malloc({size_of(draw)});\n    char *p = kept;\n    free(kept);\n    free(p);"


def bad(draw: random.Random) -> str:
    size = 16 + size_of(draw)
    return f"kept = malloc({size});\n    free((char *)kept + {draw.choice((1, 4, 8, 16))});"


def stack(draw: random.Random) -> str:
    size, other = size_of(draw), size_of(draw)
    what = draw.choice((access(draw, "p", size), one(draw, "p", -8, 8), one(draw, "p", -1, 1)))
    return (f"char one[{size}] __attribute__((aligned(8))), two[{other}];\n    memset(one, 1, {size});\n"
            f"    memset(two, 2, {other});\n    char *p = one;\n    kept = two;\n    {what}\n    number_of(two[0]);")


def scope(draw: random.Random) -> str:
    size, width = 8 * draw.randint(1, 20), draw.choice((1, 2, 4, 8))
    at = draw.randrange(size // width) * width
    return (f"{{\n        char inner[{size}] __attribute__((aligned(8)));\n        memset(inner, 1, {size});\n"
            f"        kept = inner;\n    }}\n    {one(draw, 'kept', at, width)}")


def dynamic(draw: random.Random) -> str:
    size = size_of(draw)
    declared = draw.choice((f"char *p = alloca({size} + zero);", f"char p[{size} + zero];"))
    return f"{declared}\n    memset(p, 1, {size});\n    kept = p;\n    {one(draw, 'p', size, 1)}"


def variable(draw: random.Random) -> str:
    size = size_of(draw)
    return (f"static char one[{size}] __attribute__((aligned(8))), two[{size_of(draw)}];\n    kept = two;\n"
            f"    char *p = one;\n    {access(draw, 'p', size)}")


def poisoned(draw: random.Random) -> str:
    size, width = 8 * draw.randint(2, 40), draw.choice((1, 2, 4, 8))
    at = 8 * draw.randrange(size // 8)
    return (f"char *p = malloc({size});\n    kept = p;\n    __asan_poison_memory_region(p + {at}, {size - at});\n"
            f"    {one(draw, 'p', at, width)}")


# Calls that go past the end of a buffer `p` of SIZE bytes; `q` has more, and a text of SIZE + PAST - 1 letters. GCC
# makes loads of a memcmp of constant size, which its AddressSanitizer does not check.
CALLS = (
    "memcpy(p, q, SIZE + PAST);", "memcpy(q, p, SIZE + PAST);", "memmove(p, q, SIZE + PAST);",
    "memset(p, 1, SIZE + PAST + zero);", "strcpy(p, q);", "strncpy(p, q, SIZE + PAST + zero);",
    "number_of(memcmp(p, q + 2000, SIZE + PAST + zero) == 0);", "number_of((uint64_t)strlen(p));",
    "number_of((uint64_t)memchr(p, 7, SIZE + PAST));", "number_of((uint64_t)snprintf(p, SIZE + PAST, \"%s\", q));",
    "number_of((uint64_t)strnlen(p, SIZE + PAST));", "number_of((uint64_t)strdup(p));",
    "number_of(strncmp(p, q, SIZE + PAST) == 0);", "number_of((uint64_t)strcat(q, p));",
)
BUFFERS: Dict[str, str] = {
    "heap": "char *p = malloc(SIZE);",
    "stack": "char array[SIZE] __attribute__((aligned(8))), *p = array;",
    "variable": "static char array[SIZE] __attribute__((aligned(8)));\n    char *p = array;",
}


def calls(draw: random.Random) -> str:
    size, past = 1 + size_of(draw), draw.randint(1, 8)
    text = (f"{BUFFERS[draw.choice(sorted(BUFFERS))]}\n    char *q = calloc(1, 4000);\n    kept = p;\n"
            "    memset(p, 'a', SIZE);\n    memset(q, 'a', SIZE + PAST - 1);\n"
            "    memset(q + 2000, 'a', SIZE + PAST);\n"
            f"    {draw.choice(CALLS)}")
    return text.replace("SIZE", str(size)).replace("PAST", str(past))


KINDS: List[Callable[[random.Random], str]] = [
    heap, heap, below, freed, freed, twice, bad, stack, stack, scope, dynamic, variable, variable, poisoned,
    calls, calls, calls, calls,
]


def function(draw: random.Random, name: str) -> str:
    """A bug, below some calls, and maybe in a thread. None is a call at the end of its function."""
    text = f"static APART void {name}_0(void)\n{{\n    {draw.choice(KINDS)(draw)}\n    sink++;\n}}\n"
    depth = draw.randint(1, 3)
    for at in range(depth):
        text += f"static APART void {name}_{at + 1}(void)\n{{\n    {name}_{at}();\n    sink++;\n}}\n"
    if draw.random() < 0.25:
        return text + (f"static void *{name}_begins(void *unused)\n{{\n    {name}_{depth}();\n    sink++;\n"
                       f"    return unused;\n}}\nstatic APART void {name}(void)\n{{\n    pthread_t thread;\n"
                       f"    pthread_create(&thread, NULL, {name}_begins, NULL);\n"
                       f"    pthread_join(thread, NULL);\n    sink++;\n}}\n")
    return text + f"static APART void {name}(void)\n{{\n    {name}_{depth}();\n    sink++;\n}}\n"


def drawn(seed: int) -> Drawn:
    draw = random.Random(seed)
    names = [f"bug_{number}" for number in range(EACH)]
    text = HEAD + "".join(function(draw, name) for name in names)
    text += f"static void (*const bugs[])(void) = {{{', '.join(names)}}};\n"
    text += MAIN.replace("NOISE", str(draw.randint(2, 40)))
    return Drawn(text, [draw.choice(LEVELS), draw.choice(FLAGS)])

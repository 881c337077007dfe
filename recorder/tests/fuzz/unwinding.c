/* A stack on which functions are called and return, drawn. Each walk over it finds the calls that are on it, whatever
   is known of those before; also if a handler comes in the middle that walks too, or leaves by a jump. */
#include <setjmp.h>
#include <signal.h>
#include <stdbool.h>
#include <stdint.h>
#include <stdio.h>
#include <stdlib.h>
#include <string.h>
#include <sys/time.h>

#include "base/memory.h"
#include "stacks/cfi.h"
#include "shadow/mapping.h"
#include "stacks/own_stack.h"
#include "stacks/unwinding.h"

enum { MOST_DEPTH = 120, FRAME_WORDS = 6, MORE_WORDS = 2, WORDS = (MOST_DEPTH + 2) * (FRAME_WORDS + MORE_WORDS) };
enum { CALLS = 64, CALL_BYTES = 8, CALL_RELATIVE = 0xe8, DRAWS = 200000 };

static void expect(bool holds, const char *what)
{
    if (holds)
        return;
    fprintf(stderr, "not as it should be: %s\n", what);
    exit(1);
}

static uint64_t state = 88172645463325252u;

static uint64_t draw(void)
{
    state ^= state << 13;
    state ^= state >> 7;
    return state ^= state << 17;
}

/* The addresses after calls. At one of these there is no frame pointer, and at others its register has anything. */
static unsigned char code[(CALLS + 2) * CALL_BYTES];

static uintptr_t after_call(uint64_t number)
{
    return (uintptr_t)code + (number % CALLS + 2) * CALL_BYTES;
}

/* The frames grow down. At its upper end each has the frame pointer of its caller, and the address after the call; and
   before them where it ends, and the frame pointer again. Some are larger, if a frame pointer leads over them. */
static uintptr_t words[WORDS];
static uintptr_t *frames[MOST_DEPTH];
static unsigned depth;
static unsigned known; /* stacks that were known before */

static bool has_pointer(uintptr_t instruction)
{
    return (instruction - (uintptr_t)code) / CALL_BYTES != 21;
}

static bool has_anything(uintptr_t instruction)
{
    return (instruction - (uintptr_t)code) / CALL_BYTES % 16 == 13;
}

static bool has_saved_end(uintptr_t instruction)
{
    return (instruction - (uintptr_t)code) / CALL_BYTES % 8 == 4;
}

/* The caller's frame pointer lies elsewhere. */
static bool has_other_place(uintptr_t instruction)
{
    return (instruction - (uintptr_t)code) / CALL_BYTES % 16 == 7;
}

static bool is_in_main(uintptr_t instruction)
{
    return (instruction - (uintptr_t)code) / CALL_BYTES / 2 == 2;
}

/* What the other parts of the recorder would do. */

_Thread_local struct own_stack own_stack;
bool stack_has_grown(uintptr_t frame)
{
    return (void)frame, false;
}
bool memory_is_there(struct known_page *known, uintptr_t address, size_t size)
{
    uintptr_t end = (uintptr_t)(code + sizeof code);
    (void)known;
    return address >= (uintptr_t)code && address < end && size <= end - address;
}

bool is_in_own_file(uint64_t start, uint64_t size)
{
    (void)start, (void)size;
    return false;
}

static sigjmp_buf leaves;
static volatile sig_atomic_t may_walk; /* the stack is whole, and this thread walks */
static volatile sig_atomic_t is_handled;
static void push(void);
static void walk(void);

/* In a handler some more functions are called. */
static void handle(int number)
{
    unsigned before = depth;
    (void)number;
    if (!may_walk)
        return;
    may_walk = false;
    for (uint64_t more = draw() % 4; more > 0 && depth < MOST_DEPTH; more--)
        push();
    walk();
    depth = before;
    if (draw() % 2 == 0)
        siglongjmp(leaves, 1);
    may_walk = true;
}

/* A signal may come wherever a rule is looked for, and often does. */
struct cfi_rule cfi_find(uintptr_t instruction)
{
    uintptr_t address = instruction + 1;
    if (draw() % 8 == 0)
        handle(SIGVTALRM);
    if (address - (uintptr_t)code >= sizeof code)
        return (struct cfi_rule){.kind = CFI_LAST};
    if (has_anything(address))
        return (struct cfi_rule){.kind = CFI_BY_STACK, .frame = 2, .offset = FRAME_WORDS * sizeof(uintptr_t)};
    if (has_other_place(address))
        return (struct cfi_rule){.kind = CFI_BY_FRAME, .frame = 4, .offset = 2 * sizeof(uintptr_t)};
    if (has_pointer(address) && !has_saved_end(address))
        return (struct cfi_rule){
            .kind = CFI_POINTER, .frame = 2, .offset = 16, .flags = is_in_main(address) ? CFI_MAIN : 0};
    if (has_saved_end(address))
        return (struct cfi_rule){.kind = CFI_SAVED,
                                 .frame = CFI_FRAME_LINKED,
                                 .offset = -(int)sizeof(uintptr_t),
                                 .flags = is_in_main(address) ? CFI_MAIN : 0};
    return (struct cfi_rule){.kind = CFI_BY_STACK, .frame = CFI_FRAME_KEPT, .offset = FRAME_WORDS * sizeof(uintptr_t)};
}

/* A function that is called from here, at one of two places. */
static void push(void)
{
    uintptr_t caller = after_call(2 * depth + draw() % 2), *of_caller = frames[depth - 1];
    bool may_be_larger = has_pointer(caller) && !has_anything(caller);
    uintptr_t *frame = frames[depth++] = of_caller - FRAME_WORDS - (may_be_larger ? draw() % 2 * MORE_WORDS : 0);
    frame[0] = has_anything(caller) ? draw() : has_pointer(caller) ? (uintptr_t)of_caller : of_caller[0];
    frame[1] = caller;
    frame[-1] = (uintptr_t)(frame + 2);
    frame[-2] = frame[0];
}

static void add(struct stack *to, uintptr_t address)
{
    if (to->count == MAX_FRAMES)
        return;
    to->frames[to->count++] = address;
    to->hash = stack_hash(to->hash, address);
}

/* The calls that are there. */
static struct stack calls_there(void)
{
    struct stack calls = {0};
    for (unsigned i = depth - 1; i > 0; i--) {
        add(&calls, frames[i][1]);
        if (!is_in_main(frames[i][1]))
            continue;
        add(&calls, frames[i - 1][1]);
        break;
    }
    return calls;
}

static void expect_calls(const struct stack *found, const struct stack *calls)
{
    expect(found->count == calls->count && found->hash == calls->hash, "how many frames there are, and the hash");
    expect(memcmp(found->frames, calls->frames, calls->count * sizeof *calls->frames) == 0, "frames");
}

/* From the innermost frame. What stands for a stack is its hash, and for none. */
static void walk(void)
{
    struct stack found, calls = calls_there();
    uintptr_t own = (uintptr_t)__builtin_frame_address(0), from = (uintptr_t)frames[depth - 1];
    sig_atomic_t before = may_walk;
    may_walk = is_handled;
    uint64_t place = walks_recall(own, from, frames[depth - 1][1]);
    if (place == 0) {
        unwind_from_call(own, from, frames[depth - 1][1], &found);
        expect_calls(&found, &calls);
        unwind_end(&found, calls.hash | 1);
    }
    may_walk = before;
    expect(place == 0 || place == (calls.hash | 1), "what stands for the stack");
    known += place != 0;
}

static void begin(void)
{
    struct itimerval often = {{0, 1000}, {0, 1000}};
    uintptr_t end = (uintptr_t)(words + WORDS);
    memset(code, CALL_RELATIVE, sizeof code);
    own_stack = (struct own_stack){.low = (uintptr_t)words, .top = end, .readable = end};
    frames[depth++] = words + WORDS - FRAME_WORDS;
    frames[0][-1] = (uintptr_t)(frames[0] + 2);
    push();
    signal(SIGVTALRM, handle);
    expect(setitimer(ITIMER_VIRTUAL, &often, NULL) == 0, "a timer");
}

int main(void)
{
    begin();
    for (volatile unsigned i = 0; i < DRAWS; i++) {
        unsigned fewer = (unsigned)(draw() % 8 == 0 ? draw() % depth : draw() % 3 % depth);
        depth = depth - fewer > 1 ? depth - fewer : 2;
        for (uint64_t more = draw() % 4; more > 0 && depth < MOST_DEPTH; more--)
            push();
        if (draw() % 64 == 0)
            unwinding_modules_changed();
        is_handled = true;
        for (volatile uint64_t walks = draw() % 4; walks > 0 && sigsetjmp(leaves, 1) == 0; walks--)
            walk();
        is_handled = may_walk = false;
    }
    expect(known > DRAWS / 4 * 3, "stacks that are known");
    return 0;
}

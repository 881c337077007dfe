/* A table of rules by address, four places to a line of the cache, where a rule is mixed into its key; and for a walk
   the registers, and what of the stack can be read. */
#include "stacks/unwinding.h"

#include <stdatomic.h>
#include <stdbool.h>
#include <stddef.h>

#include "base/memory.h"
#include "base/platform.h"
#include "base/tables.h"
#include "shadow/mapping.h"
#include "stacks/cfi.h"
#include "stacks/own_stack.h"

/* Rules that are known. An instruction has its own place, and three more in the same line of the cache. */
enum { PLACES = 1 << 16, WAYS = 4, PLACE_SHIFT = 2, FAR_SHIFT = 16 };

/* The rule is mixed into the key: so if two threads write at once, or one writes while another one reads, no rule is
   taken for that of another instruction. */
struct known_rule {
    _Atomic uint64_t key, rule;
};

union rule_word {
    struct cfi_rule rule;
    uint64_t word;
};

static struct known_rule *const rules = TABLE(struct known_rule, stack_rules);
TABLE_HAS_ROOM(stack_rules, PLACES * sizeof *rules);

/* The generation is in the upper bits of the key. */
void unwinding_modules_changed(void)
{
    walks_end_generation();
}

/* Whether a call ends here: by the bytes of the instruction before. */
static bool follows_call(uintptr_t address)
{
    struct known_page page = {0};
    unsigned char code[LONGEST_CALL];
    if (!is_in_own_file(address - LONGEST_CALL, LONGEST_CALL)
        && !memory_is_there(&page, address - LONGEST_CALL, LONGEST_CALL))
        return false;
    __builtin_memcpy(code, (const void *)(address - LONGEST_CALL), LONGEST_CALL);
    return processor_ends_call(code);
}

/* Whether the system has called the handler that returns here. */
static bool ends_handler(uintptr_t address)
{
    struct known_page page = {0};
    unsigned char code[END_OF_HANDLER_BYTES];
    if (!memory_is_there(&page, address, sizeof code))
        return false;
    __builtin_memcpy(code, (const void *)address, sizeof code);
    return processor_ends_handler(code);
}

/* Code that lies together has places that do. */
static inline size_t place_of_rule(uintptr_t instruction)
{
    return (instruction >> PLACE_SHIFT ^ (instruction >> FAR_SHIFT & ~(uintptr_t)(WAYS - 1))) % PLACES;
}

static inline bool has_rule(size_t place, uint64_t key, union rule_word *found)
{
    found->word = atomic_load_explicit(&rules[place].rule, memory_order_relaxed);
    return (atomic_load_explicit(&rules[place].key, memory_order_relaxed) ^ found->word) == key;
}

/* Looks in the other places, and then for the rule itself. It is kept in the place of one of an earlier generation, if
   there is one. */
static __attribute__((noinline)) struct cfi_rule find_rule(uintptr_t instruction, bool is_after_call, uint64_t key)
{
    size_t first = place_of_rule(instruction), place = first;
    union rule_word found;
    for (size_t i = WAYS; i-- > 0;) {
        if (has_rule(first ^ i, key, &found))
            return found.rule;
        uint64_t other = atomic_load_explicit(&rules[first ^ i].key, memory_order_relaxed) ^ found.word;
        if (other >> GENERATION_SHIFT != key >> GENERATION_SHIFT)
            place = first ^ i;
    }
    found.rule = cfi_find(is_after_call ? instruction - 1 : instruction);
    if (found.rule.kind == CFI_UNKNOWN && ends_handler(instruction))
        found.rule.kind = CFI_SIGNAL;
    if (!is_after_call || found.rule.kind == CFI_SIGNAL || follows_call(instruction))
        found.rule.flags |= CFI_CALLED;
    atomic_store_explicit(&rules[place].rule, found.word, memory_order_relaxed);
    atomic_store_explicit(&rules[place].key, key ^ found.word, memory_order_relaxed);
    return found.rule;
}

/* Each instruction is looked up once in a generation. */
static inline struct cfi_rule rule_of(uintptr_t instruction, bool is_after_call, uint64_t now)
{
    uint64_t key = ((uint64_t)instruction << 1 | is_after_call) ^ now;
    union rule_word found;
    if (LIKELY(has_rule(place_of_rule(instruction), key, &found)))
        return found.rule;
    return find_rule(instruction, is_after_call, key);
}

/* A part of the stack that can be read, or none, and of other memory the page that was asked for last; the kept part of
   the walk; and how many frames were passed over. */
struct reach {
    uintptr_t low, size;
    struct known_page page;
    struct keeping *keeping;
    unsigned unseen;
};

static inline bool is_within(const struct reach *reach, uintptr_t address)
{
    return address - reach->low < reach->size;
}

/* Whether two words can be read there. */
static inline bool has_pair(const struct reach *reach, uintptr_t address)
{
    return address % sizeof address == 0 && is_within(reach, address) && is_within(reach, address + sizeof address);
}

/* Reads a word, and keeps it for the walk. Off the thread's own stack the system is asked first, and nothing is kept.
   */
static inline bool read_word(struct reach *reach, uintptr_t address, uintptr_t *word)
{
    if (UNLIKELY(address % sizeof *word != 0))
        return false;
    if (UNLIKELY(!is_within(reach, address))) {
        reach->keeping->walks = NULL;
        if (!memory_is_there(&reach->page, address, sizeof *word))
            return false;
    }
    *word = *(const uintptr_t *)address;
    keep_word(reach->keeping, address, *word);
    return true;
}

static __attribute__((noinline)) bool is_pair_there(struct reach *reach, uintptr_t address)
{
    uintptr_t unused;
    return read_word(reach, address, &unused) && read_word(reach, address + sizeof unused, &unused);
}

/* What the system has stored for the end of a handler lies at the stack pointer. */
static bool leave_handler(uintptr_t stack, struct reach *reach, struct registers *stored)
{
#if HAS_LINK_REGISTER
    if (!read_word(reach, stack + STORED_LINK, &stored->link))
        return false;
#endif
    return read_word(reach, stack + STORED_FRAME, &stored->frame)
           && read_word(reach, stack + STORED_STACK, &stored->stack)
           && read_word(reach, stack + STORED_INSTRUCTION, &stored->instruction);
}

/* Whether a frame pointer may be one, though no rule says so: it is one on the thread's own stack. */
static bool may_be_frame(const struct registers *now)
{
    return now->frame >= now->stack && now->frame < stack_top(now->stack);
}

/* A frame whose end is not known has the caller's frame pointer and the address after the call side by side, where the
   frame pointer leads to. Only where the address may be in a register does the stack pointer say more than that. */
static inline bool is_end_unknown(const struct registers *now)
{
#if HAS_LINK_REGISTER
    return now->is_below;
#else
    (void)now;
    return false;
#endif
}

static inline void note_end(struct registers *now, bool is_known)
{
#if HAS_LINK_REGISTER
    now->is_below = !is_known;
#else
    (void)now, (void)is_known;
#endif
}

static inline bool is_pair(struct cfi_rule rule)
{
    return rule.address != 0 && rule.frame == rule.address + 1U;
}

/* Where the frame ends; 0: it is not known. */
static inline uintptr_t end_of(const struct registers *now, struct cfi_rule rule, struct reach *reach)
{
    uintptr_t offset = (uintptr_t)(intptr_t)rule.offset, end;
    if (rule.kind == CFI_BY_STACK && !is_end_unknown(now))
        return now->stack + offset;
    keep_use(reach->keeping);
    if (rule.kind == CFI_BY_STACK)
        return is_pair(rule) ? now->frame + rule.frame * sizeof end : 0;
    if (rule.kind == CFI_BY_FRAME)
        return now->frame + offset;
    if (rule.kind == CFI_SAVED)
        return read_word(reach, now->frame + offset, &end) ? end : 0;
    if (rule.kind == CFI_POINTER || (rule.kind == CFI_UNKNOWN && may_be_frame(now)))
        return now->frame + 2 * sizeof end;
    return 0;
}

/* To the caller's frame pointer, from the end of the frame. */
static bool go_on_frame(struct registers *now, unsigned frame, struct reach *reach)
{
    if (frame == CFI_FRAME_KEPT)
        return true;
    uintptr_t place = frame == CFI_FRAME_LINKED ? now->frame : now->stack - frame * sizeof place;
    if (frame == CFI_FRAME_LINKED)
        keep_use(reach->keeping);
    keep_loss(reach->keeping);
    now->frame = 0;
    if (frame == CFI_FRAME_LOST)
        return true;
    bool is_there = read_word(reach, place, &now->frame);
    keep_pointer(reach->keeping);
    return is_there;
}

/* To the address after the call. */
static bool go_on_address(struct registers *now, struct cfi_rule rule, uintptr_t end, struct reach *reach)
{
#if HAS_LINK_REGISTER
    if (rule.kind == CFI_UNKNOWN)
        rule.address = ADDRESS_BESIDE_FRAME;
    uintptr_t address = now->link;
    if (rule.address != 0 && !read_word(reach, end - rule.address * sizeof end, &address))
        return false;
    now->instruction = CODE_ADDRESS(address);
    now->link = 0;
    return true;
#else
    (void)rule;
    return read_word(reach, end - sizeof end, &now->instruction);
#endif
}

/* Whether a frame has no bytes, which it has as long as the address after the call is in a register. */
static inline bool may_end_here(struct cfi_rule rule, uintptr_t end, uintptr_t stack)
{
#if HAS_LINK_REGISTER
    return rule.address == 0 && end == stack;
#else
    (void)rule, (void)end, (void)stack;
    return false;
#endif
}

/* Goes on to the caller, or to what a handler has interrupted. */
static bool go_on(struct registers *now, struct cfi_rule rule, struct reach *reach)
{
    if (rule.kind == CFI_SIGNAL) {
        struct registers stored = {.instruction = 0};
        bool is_there = leave_handler(now->stack, reach, &stored);
        *now = stored;
        return is_there;
    }
    uintptr_t end = end_of(now, rule, reach);
    if (end <= now->stack && !may_end_here(rule, end, now->stack))
        return false;
    bool is_by_pointer = rule.kind == CFI_UNKNOWN || rule.kind == CFI_POINTER;
    if (is_by_pointer)
        rule.frame = CFI_FRAME_LINKED;
    now->stack = end;
    note_end(now, !is_by_pointer);
    return go_on_frame(now, rule.frame, reach) && go_on_address(now, rule, end, reach);
}

static inline void add(struct stack *found, uintptr_t address)
{
    found->frames[found->count++] = address;
    found->hash = stack_hash(found->hash, address);
}

/* Rules that most code of the program has: to follow the frame pointer; and those of `main`. */
static const union rule_word pointer_rule = {{CFI_POINTER, 2, CFI_CALLED, ADDRESS_BESIDE_FRAME, 2 * sizeof(uintptr_t)}};
static const union rule_word main_rule = {
    {CFI_POINTER, 2, CFI_CALLED | CFI_MAIN, ADDRESS_BESIDE_FRAME, 2 * sizeof(uintptr_t)}};

/* The rule as one word. Of most instructions it is known which one they have. */
static inline uint64_t word_of(uintptr_t instruction, uint64_t now, struct walks *walks)
{
    uintptr_t *known = walks != NULL ? &walks->pointers[pointer_hash(instruction)] : NULL;
    if (LIKELY(known != NULL && *known == instruction))
        return pointer_rule.word;
    union rule_word found = {.rule = rule_of(instruction, true, now)};
    if (known != NULL && found.word == pointer_rule.word)
        *known = instruction;
    return found.word;
}

/* A walk by frame pointers: where it is, what it has found, and where to put what it reads. */
struct walk {
    struct registers at;
    uint64_t hash;
    unsigned count;
    struct pair *pair;
};

static inline bool can_step(const struct walk *walk, uintptr_t last)
{
    uintptr_t frame = walk->at.frame;
    return walk->count < MAX_FRAMES && frame >= walk->at.stack && frame <= last && frame % sizeof frame == 0;
}

/* Always inlined, so that what it gets by its address is in registers all the same. */
static inline __attribute__((always_inline)) void step(struct walk *walk, uint64_t *frames)
{
    uintptr_t frame = walk->at.frame;
    frames[walk->count++] = walk->at.instruction;
    walk->hash = stack_hash(walk->hash, walk->at.instruction);
    walk->at = (struct registers){.instruction = CODE_ADDRESS(word_above(frame, 1)),
                                  .stack = frame + 2 * sizeof frame,
                                  .frame = word_above(frame, 0)};
    *walk->pair++ = (struct pair){walk->at.frame, walk->at.instruction};
}

/* Goes on as long as frame pointers lead to where it can be read at once, at most up to the caller of `main`, which is
   the last that is of use to anybody. True: it has come there. */
static bool follow_pointers(struct registers *at, uint64_t now, const struct reach *reach, struct stack *found)
{
    struct keeping *keeping = reach->keeping;
    uintptr_t last = reach->low + reach->size - 2 * sizeof last;
    struct pair unkept[MAX_FRAMES];
    struct walk walk = {*at, found->hash, found->count, unkept};
    uint64_t word = pointer_rule.word;
    if (!is_within(reach, at->stack) || reach->size < 2 * sizeof last)
        return false;
    if (keeping->walks != NULL)
        walk.pair = keep_next(keeping, at->frame);
    while (can_step(&walk, last) && (word = word_of(walk.at.instruction, now, keeping->walks)) == pointer_rule.word)
        step(&walk, found->frames);
    bool is_over = word == main_rule.word;
    if (is_over)
        step(&walk, found->frames);
    if (found->count == 0)
        found->second = at->frame + sizeof last;
    if (walk.count != found->count && keeping->walks != NULL)
        keep_frames(keeping, at->frame, walk.count - found->count);
    at->instruction = walk.at.instruction, at->stack = walk.at.stack, at->frame = walk.at.frame;
    found->count = walk.count, found->hash = walk.hash;
    if (is_over && found->count < MAX_FRAMES)
        add(found, at->instruction);
    return is_over;
}

/* Goes on by any rule. False: that was the last frame. */
static bool take(struct registers *at, bool is_after_call, struct cfi_rule rule, struct reach *reach,
                 struct stack *found)
{
    if (found->count != 0 && !(rule.flags & CFI_CALLED))
        return false;
    if (found->count != 0 && (rule.kind == CFI_SIGNAL || (rule.flags & CFI_OWN)))
        reach->unseen++;
    else
        add(found, at->instruction + !is_after_call);
    bool goes_on = go_on(at, rule, reach), is_main = goes_on && (rule.flags & CFI_MAIN);
    if (is_main && found->count < MAX_FRAMES)
        add(found, at->instruction);
    return goes_on && !is_main;
}

/* Goes on from frame to frame until there is no caller, or no room. */
static void unwind(struct registers *at, bool is_after_call, uint64_t now, struct reach *reach, struct stack *found)
{
    while (reach->unseen <= MAX_FRAMES) {
        bool is_by_pointers = is_after_call && !HAS_LINK_REGISTER;
        if ((is_by_pointers && follow_pointers(at, now, reach, found)) || found->count == MAX_FRAMES)
            break;
        struct cfi_rule rule = rule_of(at->instruction, is_after_call, now);
        bool is_first = found->count == 0;
        if (!take(at, is_after_call, rule, reach, found))
            break;
        is_after_call = rule.kind != CFI_SIGNAL;
        if (is_first)
            found->second = at->stack - sizeof(uintptr_t);
    }
}

/* The registers once a function of the recorder has returned. It has this frame, and this instruction; 0: none is
   known. */
static inline struct registers after_return(uintptr_t frame, struct pair pair, uintptr_t inside, uint64_t now)
{
    struct registers found = {.instruction = pair.second, .stack = frame + 2 * sizeof frame, .frame = pair.first};
#if HAS_LINK_REGISTER
    struct cfi_rule rule = inside != 0 ? rule_of(inside, true, now) : (struct cfi_rule){.kind = CFI_UNKNOWN};
    bool is_end_known = is_pair(rule) && (rule.kind == CFI_BY_STACK || rule.kind == CFI_BY_FRAME);
    if (is_end_known)
        found.stack = frame + rule.frame * sizeof frame;
    note_end(&found, is_end_known);
#else
    (void)inside, (void)now;
#endif
    return found;
}

/* Between here and the call that is looked for lies code of the recorder, which has frame pointers. Each points to the
   one before it, with the address after the call beside it. The instruction is one of the first function, or 0. */
static inline bool find_call(uintptr_t start, uintptr_t caller, uintptr_t inside, uint64_t now, struct reach *reach,
                             struct registers *found)
{
    enum { OWN_FRAMES = 24 };
    struct pair unkept[OWN_FRAMES], *pair = reach->keeping->walks != NULL ? keep_next(reach->keeping, start) : unkept;
    uintptr_t frame = start;
    for (uint32_t count = 1; count <= OWN_FRAMES; count++) {
        if (!has_pair(reach, frame) && !is_pair_there(reach, frame))
            return false;
        *pair = (struct pair){word_above(frame, 0), word_above(frame, 1)};
        if (pair->second == caller) {
            *found = after_return(frame, *pair, inside, now);
            if (reach->keeping->walks != NULL)
                keep_frames(reach->keeping, start, count);
            return true;
        }
        if (pair->first <= frame)
            return false;
        inside = pair->second;
        frame = pair++->first;
    }
    return false;
}

/* An instruction of the function that has this frame: the address after the call that has led from there to here. 0: no
   frame pointers lead there. The memory between can be read if both are on the thread's own stack, or if the frame is
   the own one, which has called who calls this. */
static uintptr_t instruction_in(uintptr_t start, uintptr_t own, uintptr_t top)
{
    enum { MOST_BETWEEN = 24 };
    uintptr_t frame = (uintptr_t)__builtin_frame_address(0), inside = 0;
    if (start != own && (top == 0 || stack_readable(frame) != top))
        return 0;
    for (unsigned i = 0; i < MOST_BETWEEN && frame < start && frame % sizeof frame == 0; i++) {
        uintptr_t next = word_above(frame, 0);
        inside = CODE_ADDRESS(word_above(frame, 1));
        if (next <= frame)
            return 0;
        frame = next;
    }
    return frame == start ? inside : 0;
}

/* Begins a walk of this frame of the recorder's, on the thread's own stack. False: it is on another one, or this is a
   signal handler, which has interrupted a walk; the known walks are left alone. If a walk began further in than this
   one, it was left by a jump, with the known walks in any state. */
static bool begin(uintptr_t own, bool is_on_own_stack, uint64_t now, struct walks **walks)
{
    uintptr_t walker = atomic_load_explicit(&own_walks.walker, memory_order_relaxed);
    if (!is_on_own_stack || walker > own)
        return false;
    atomic_store_explicit(&own_walks.walker, own, memory_order_relaxed);
    atomic_signal_fence(memory_order_seq_cst);
    *walks = walks_take();
    if (*walks != NULL && UNLIKELY(walker != 0 || (*walks)->generation != now))
        walks_forget(*walks, now);
    return true;
}

void unwind_from_call(uintptr_t own, uintptr_t frame, uintptr_t caller, struct stack *found)
{
    struct registers at;
    struct walks *walks = NULL;
    uintptr_t top = stack_readable(frame);
    struct reach reach = {.low = frame, .size = top > frame ? top - frame : 0, .keeping = &found->keeping};
    uint64_t now = atomic_load_explicit(&rules_generation, memory_order_relaxed);
    uintptr_t inside = HAS_LINK_REGISTER ? instruction_in(frame, own, top) : 0;
    found->count = 0, found->hash = 0, found->second = 0;
    found->is_walker = begin(own, top != 0, now, &walks);
    keep_walk(&found->keeping, walks, frame, caller);
    if (find_call(frame, caller, inside, now, &reach, &at))
        unwind(&at, true, now, &reach, found);
    else
        found->keeping.walks = NULL;
}

void unwind_end(const struct stack *found, uint64_t place)
{
    if (!found->is_walker)
        return;
    if (found->keeping.walks != NULL)
        keep_place(&found->keeping, found->second, place);
    atomic_signal_fence(memory_order_seq_cst);
    atomic_store_explicit(&own_walks.walker, 0, memory_order_relaxed);
}

void unwind_from_registers(const struct registers *registers, struct stack *found)
{
    struct registers at = *registers;
    struct reach reach = {.keeping = &found->keeping};
    found->count = 0, found->hash = 0, found->second = 0, found->is_walker = false;
    found->keeping = (struct keeping){0};
    unwind(&at, false, atomic_load_explicit(&rules_generation, memory_order_relaxed), &reach, found);
}

/* From one frame to its caller's, and what lies between. */
struct step {
    struct cfi_rule rule;
    uintptr_t from, to;
};

static bool step_up(struct registers *at, bool is_after_call, uint64_t now, struct reach *reach, struct step *step)
{
    step->rule = rule_of(at->instruction, is_after_call, now);
    step->from = at->stack;
    bool is_known = !is_after_call || (step->rule.flags & CFI_CALLED);
    bool goes_on = is_known && go_on(at, step->rule, reach);
    step->to = at->stack;
    return goes_on;
}

/* Whether the caller's frame is on another stack: code that has switched to one may lead back to where it came from. */
static bool is_on_another(const struct step *step)
{
    enum { MOST_OF_FRAME = 1 << 20 };
    return step->rule.kind == CFI_SIGNAL || step->to - step->from > MOST_OF_FRAME
           || is_on_own_stack(step->from) != is_on_own_stack(step->to);
}

/* The registers of the caller of this frame of the recorder's. */
static struct registers above_frame(uintptr_t frame, uint64_t now)
{
    struct pair pair = {word_above(frame, 0), CODE_ADDRESS(word_above(frame, 1))};
    return after_return(frame, pair, 0, now);
}

static void end_piece(struct frames_between *found, uintptr_t top)
{
    found->pieces[found->count++].top = top;
    found->end = top;
}

bool unwind_to(uintptr_t frame, uintptr_t target, struct frames_between *found)
{
    enum { MOST_STEPS = 1 << 14 };
    struct keeping keeping = {.walks = NULL};
    struct reach reach = {.keeping = &keeping};
    struct step step;
    uint64_t now = atomic_load_explicit(&rules_generation, memory_order_relaxed);
    struct registers at = above_frame(frame, now);
    bool is_after_call = true;
    *found = (struct frames_between){.pieces = {{.low = frame}}};
    for (unsigned i = 0; i < MOST_STEPS && step_up(&at, is_after_call, now, &reach, &step); i++) {
        if (target >= step.from && target < step.to && step.rule.kind != CFI_SIGNAL) {
            end_piece(found, target);
            found->end = step.to;
            return true;
        }
        is_after_call = step.rule.kind != CFI_SIGNAL;
        if (!is_on_another(&step))
            continue;
        end_piece(found, step.from);
        if (found->count == MOST_PIECES)
            return false;
        found->pieces[found->count].low = step.to;
    }
    end_piece(found, at.stack);
    return false;
}

unsigned unwind_to_handlers(uintptr_t frame, uintptr_t *stored, unsigned most)
{
    enum { MOST_STEPS = 1 << 10 };
    struct keeping keeping = {.walks = NULL};
    struct reach reach = {.keeping = &keeping};
    struct step step;
    uint64_t now = atomic_load_explicit(&rules_generation, memory_order_relaxed);
    struct registers at = above_frame(frame, now);
    bool is_after_call = true;
    unsigned count = 0;
    for (unsigned i = 0; i < MOST_STEPS && count < most && step_up(&at, is_after_call, now, &reach, &step); i++) {
        is_after_call = step.rule.kind != CFI_SIGNAL;
        if (!is_after_call)
            stored[count++] = step.from;
    }
    return count;
}

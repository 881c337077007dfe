/* From the address to the module's table (.eh_frame_hdr), by a binary search to the description of the function, and by
   running its program up to the instruction to one rule, which unwinding.c keeps. */
#define _GNU_SOURCE
#include "stacks/cfi.h"

#include <dlfcn.h>
#include <stdbool.h>
#include <stddef.h>
#include <string.h>

#include "libc/library.h"
#include "base/memory.h"
#include "shadow/mapping.h"

/* The program's. Some have none. */
extern int program_main(void) NAMED("main") __attribute__((weak));

/* The table of a module that leads to the description of each function; 0: it has none. From version 2.35 on the C
   library says without a lock which module an address is in. */
static uintptr_t table_of(uintptr_t instruction)
{
#if __GLIBC_PREREQ(2, 35)
    struct dl_find_object found = {0};
    if (library._dl_find_object != NULL && library._dl_find_object((void *)instruction, &found) == 0)
        return (uintptr_t)found.dlfo_eh_frame;
#else
    (void)instruction;
#endif
    return 0;
}

/* Reading. All input is untrusted, and may be unmapped. */

struct reader {
    uintptr_t at, end;
    struct known_page page;
    bool has_failed;
};

/* The program's own file stays where it is: nobody has to be asked. */
static bool is_there(struct reader *from, size_t size)
{
    uintptr_t page = from->at / PAGE * PAGE;
    if (page != from->page.start && is_in_own_file(from->at, 1))
        from->page.start = page;
    return memory_is_there(&from->page, from->at, size);
}

/* Takes a number of this many bytes. 0, and it has failed: they are not there. */
static uint64_t take(struct reader *from, size_t size)
{
    uint64_t number = 0;
    if (from->has_failed || from->at > from->end || size > from->end - from->at || !is_there(from, size)) {
        from->has_failed = true;
        return 0;
    }
    memcpy(&number, (const void *)from->at, size);
    from->at += size;
    return number;
}

static unsigned char take_byte(struct reader *from)
{
    return (unsigned char)take(from, 1);
}

static int64_t extended(uint64_t number, unsigned bits)
{
    return bits < 64 ? (int64_t)(number << (64 - bits)) >> (64 - bits) : (int64_t)number;
}

/* A number in groups of 7 bits. */
static uint64_t take_groups(struct reader *from, unsigned *bits)
{
    uint64_t number = 0;
    unsigned char byte;
    *bits = 0;
    do {
        byte = take_byte(from);
        if (*bits < 64)
            number |= (uint64_t)(byte & 0x7f) << *bits;
        *bits += 7;
    } while ((byte & 0x80) && !from->has_failed);
    return number;
}

static uint64_t take_unsigned(struct reader *from)
{
    unsigned bits;
    return take_groups(from, &bits);
}

static int64_t take_signed(struct reader *from)
{
    unsigned bits;
    uint64_t number = take_groups(from, &bits);
    return extended(number, bits);
}

/* How a pointer is written: its form in the lower half, and what it counts from in the upper one. */
enum { FORM = 0x0f, FROM = 0x70, FROM_ZERO = 0x00, FROM_HERE = 0x10, UNSIGNED_4 = 0x03, FROM_TABLE_SIGNED_4 = 0x3b };

/* Takes a pointer in one of the forms that are known. */
static uintptr_t take_pointer(struct reader *from, unsigned char encoding)
{
    static const unsigned char sizes[FORM + 1] = {[0x0] = 8, [0x2] = 2, [0x3] = 4,  [0x4] = 8,
                                                  [0x8] = 8, [0xa] = 2, [0xb] = 4, [0xc] = 8};
    uintptr_t start = from->at;
    unsigned form = encoding & FORM;
    uint64_t number = take(from, sizes[form]);
    if (sizes[form] == 0 || ((encoding & FROM) != FROM_ZERO && (encoding & FROM) != FROM_HERE))
        from->has_failed = true;
    if (form >= 0x8)
        number = (uint64_t)extended(number, sizes[form] * 8);
    return (encoding & FROM) == FROM_HERE ? start + number : number;
}

/* The description of the function that an instruction is in, or of the one before it; 0: there is none. */
static uintptr_t find_description(uintptr_t table, uintptr_t instruction)
{
    enum { HEAD = 12, ENTRY = 8 };
    struct reader reader = {.at = table, .end = table + HEAD};
    unsigned char version = take_byte(&reader), frames = take_byte(&reader);
    unsigned char count_form = take_byte(&reader), form = take_byte(&reader);
    take_pointer(&reader, frames);
    uint64_t low = 0, high = take(&reader, 4);
    if (reader.has_failed || version != 1 || count_form != UNSIGNED_4 || form != FROM_TABLE_SIGNED_4)
        return 0;
    int64_t wanted = (int64_t)(instruction - table);
    uintptr_t entries = reader.at;
    reader.end = entries + high * ENTRY;
    while (high - low > 1) {
        uint64_t middle = low + (high - low) / 2;
        reader.at = entries + middle * ENTRY;
        if (extended(take(&reader, 4), 32) <= wanted)
            low = middle;
        else
            high = middle;
    }
    reader.at = entries + low * ENTRY;
    bool is_before = extended(take(&reader, 4), 32) <= wanted;
    int64_t found = extended(take(&reader, 4), 32);
    return is_before && !reader.has_failed ? table + (uintptr_t)found : 0;
}

/* What several descriptions share. */
struct shared {
    uint64_t code_unit;
    int64_t data_unit;
    unsigned char encoding; /* of addresses of code */
    bool has_size, is_signal;
    uintptr_t program, program_end;
};

/* Takes what the letters of a text announce. */
static void take_augmentation(struct reader *from, struct shared *shared, uintptr_t text)
{
    struct reader letters = {.at = text, .end = from->at};
    for (unsigned char letter; (letter = take_byte(&letters)) != 0 && !letters.has_failed;) {
        if (letter == 'z')
            shared->has_size = true;
        else if (letter == 'R')
            shared->encoding = take_byte(from);
        else if (letter == 'P')
            take_pointer(from, take_byte(from) & (FORM | FROM));
        else if (letter == 'L')
            take_byte(from);
        else if (letter == 'S')
            shared->is_signal = true;
        else
            from->has_failed = true;
    }
    from->has_failed |= letters.has_failed;
}

/* Where a description ends that begins here. False: it is in a form that is not known. */
static bool open_description(struct reader *reader, uintptr_t start)
{
    *reader = (struct reader){.at = start, .end = start + 4};
    uint64_t length = take(reader, 4);
    reader->end += length;
    return !reader->has_failed && length != 0 && length != UINT32_MAX;
}

/* Reads what descriptions of functions have in common. False: it is in a form that is not known. */
static bool read_shared(uintptr_t start, struct shared *shared)
{
    struct reader reader;
    *shared = (struct shared){0};
    if (!open_description(&reader, start) || take(&reader, 4) != 0)
        return false;
    unsigned char version = take_byte(&reader);
    uintptr_t letters = reader.at;
    while (take_byte(&reader) != 0 && !reader.has_failed)
        ;
    shared->code_unit = take_unsigned(&reader);
    shared->data_unit = take_signed(&reader);
    if (version == 1)
        take_byte(&reader);
    else
        take_unsigned(&reader);
    struct reader first = {.at = letters, .end = reader.end};
    uint64_t size = take_byte(&first) == 'z' ? take_unsigned(&reader) : 0;
    shared->program = reader.at + size;
    take_augmentation(&reader, shared, letters);
    shared->program_end = reader.end;
    return !reader.has_failed && (version == 1 || version == 3);
}

/* Running a program: a row says where things are from a location on, and the program makes one row after the other. */

enum { NO_REGISTER = 255, LINKED = 254 };
enum { MAX_REMEMBERED = 4 };

enum saved_kind { KEPT, SAVED, UNDEFINED, OTHER };

struct saved {
    enum saved_kind kind;
    int64_t offset; /* from the end of the frame */
};

struct row {
    uint64_t base; /* the register from which the end of the frame counts; LINKED: the frame pointer leads to it */
    int64_t offset;
    struct saved frame, address;
};

struct machine {
    struct reader reader;
    const struct shared *shared;
    struct row row, first, remembered[MAX_REMEMBERED];
    unsigned depth;
    uintptr_t location, instruction; /* where the program is, and up to where the row is wanted */
    bool is_own;
};

static struct saved *saved_of(struct row *row, uint64_t number)
{
    return number == FRAME_POINTER ? &row->frame : number == RETURN_ADDRESS ? &row->address : NULL;
}

static void set(struct machine *machine, uint64_t number, enum saved_kind kind, int64_t offset)
{
    struct saved *saved = saved_of(&machine->row, number);
    if (saved != NULL)
        *saved = (struct saved){kind, offset};
}

static void restore(struct machine *machine, uint64_t number)
{
    struct saved *saved = saved_of(&machine->row, number), *first = saved_of(&machine->first, number);
    if (saved != NULL)
        *saved = *first;
}

/* An expression is known if it is a register with an offset, and perhaps what lies there. */
struct expression {
    uint64_t base; /* or NO_REGISTER */
    int64_t offset;
    bool is_load;
};

static struct expression take_expression(struct machine *machine)
{
    enum { REGISTER_WITH_OFFSET = 0x70, LOAD = 0x06 };
    struct reader *reader = &machine->reader;
    uint64_t size = take_unsigned(reader);
    struct reader inner = {.at = reader->at, .end = reader->at + size, .page = reader->page};
    struct expression found = {.base = NO_REGISTER};
    unsigned char base = take_byte(&inner);
    found.offset = take_signed(&inner);
    if (!inner.has_failed && inner.at < inner.end)
        found.is_load = take_byte(&inner) == LOAD;
    if (!inner.has_failed && inner.at == inner.end && base >= REGISTER_WITH_OFFSET)
        found.base = base - REGISTER_WITH_OFFSET;
    if (size > reader->end - reader->at)
        reader->has_failed = true;
    else
        reader->at += size;
    return found;
}

static void set_by_expression(struct machine *machine)
{
    uint64_t number = take_unsigned(&machine->reader);
    struct expression expression = take_expression(machine);
    bool is_linked = expression.base == FRAME_POINTER && expression.offset == 0 && !expression.is_load;
    set(machine, number, is_linked ? SAVED : OTHER, 0);
}

/* Of the stubs through which a module calls another one. */
static bool is_of_stubs(struct reader reader)
{
    static const unsigned char expression[] = STUB_EXPRESSION;
    if (take_unsigned(&reader) != sizeof expression)
        return false;
    for (size_t i = 0; i < sizeof expression; i++)
        if (take_byte(&reader) != expression[i])
            return false;
    return !reader.has_failed;
}

static void set_end_by_expression(struct machine *machine)
{
    bool is_stub = is_of_stubs(machine->reader), has_number = machine->instruction % STUB_BYTES >= STUB_HAS_NUMBER;
    struct expression expression = take_expression(machine);
    bool is_linked = expression.base == FRAME_POINTER && expression.is_load;
    machine->row.base = is_stub ? STACK_POINTER : is_linked ? LINKED : NO_REGISTER;
    machine->row.offset = is_stub ? (int64_t)sizeof(uintptr_t) * (1 + has_number) : expression.offset;
}

static void remember(struct machine *machine)
{
    if (machine->depth == MAX_REMEMBERED)
        machine->reader.has_failed = true;
    else
        machine->remembered[machine->depth++] = machine->row;
}

static void recall(struct machine *machine)
{
    if (machine->depth == 0)
        machine->reader.has_failed = true;
    else
        machine->row = machine->remembered[--machine->depth];
}

/* The instructions with their numbers in DWARF. A set of three has its operand in the lower bits of the byte. */
enum {
    ADVANCE = 0x40, OFFSET = 0x80, RESTORE = 0xc0, OPERAND = 0x3f,
    NOP = 0x00, SET_LOCATION, ADVANCE_1, ADVANCE_2, ADVANCE_4, OFFSET_EXTENDED, RESTORE_EXTENDED, UNDEFINED_VALUE,
    SAME_VALUE, REGISTER, REMEMBER, RECALL, DEFINE_END, DEFINE_END_REGISTER, DEFINE_END_OFFSET, DEFINE_END_EXPRESSION,
    EXPRESSION, OFFSET_SIGNED, DEFINE_END_SIGNED, DEFINE_END_OFFSET_SIGNED, VALUE_OFFSET, VALUE_OFFSET_SIGNED,
    VALUE_EXPRESSION, ARGUMENTS_SIZE = 0x2e, OFFSET_NEGATIVE = 0x2f,
};

/* What says that an address is signed from here on changes no place. */
#if HAS_LINK_REGISTER
#define IS_SIGNATURE(code) ((code) == SIGNS_ADDRESS)
#else
#define IS_SIGNATURE(code) false
#endif

/* False: it is none of these. */
static bool run_end(struct machine *machine, unsigned char code)
{
    struct reader *reader = &machine->reader;
    struct row *row = &machine->row;
    int64_t unit = machine->shared->data_unit;
    if (code == DEFINE_END || code == DEFINE_END_REGISTER || code == DEFINE_END_SIGNED)
        row->base = take_unsigned(reader);
    if (code == DEFINE_END || code == DEFINE_END_OFFSET)
        row->offset = (int64_t)take_unsigned(reader);
    else if (code == DEFINE_END_SIGNED || code == DEFINE_END_OFFSET_SIGNED)
        row->offset = take_signed(reader) * unit;
    else if (code == DEFINE_END_EXPRESSION)
        set_end_by_expression(machine);
    else
        return code == DEFINE_END_REGISTER;
    return true;
}

static bool run_location(struct machine *machine, unsigned char code)
{
    struct reader *reader = &machine->reader;
    uint64_t unit = machine->shared->code_unit;
    if (code == SET_LOCATION)
        machine->location = take_pointer(reader, machine->shared->encoding);
    else if (code == ADVANCE_1 || code == ADVANCE_2)
        machine->location += take(reader, code == ADVANCE_1 ? 1 : 2) * unit;
    else if (code == ADVANCE_4)
        machine->location += take(reader, 4) * unit;
    else
        return false;
    return true;
}

static void run_register(struct machine *machine, unsigned char code)
{
    struct reader *reader = &machine->reader;
    int64_t unit = machine->shared->data_unit;
    uint64_t number = take_unsigned(reader);
    if (code == OFFSET_EXTENDED)
        set(machine, number, SAVED, (int64_t)take_unsigned(reader) * unit);
    else if (code == OFFSET_SIGNED)
        set(machine, number, SAVED, take_signed(reader) * unit);
    else if (code == OFFSET_NEGATIVE)
        set(machine, number, SAVED, -(int64_t)take_unsigned(reader) * unit);
    else if (code == RESTORE_EXTENDED)
        restore(machine, number);
    else if (code == UNDEFINED_VALUE || code == SAME_VALUE)
        set(machine, number, code == SAME_VALUE ? KEPT : UNDEFINED, 0);
    else if (code == REGISTER || code == VALUE_OFFSET || code == VALUE_OFFSET_SIGNED)
        set(machine, number, OTHER, (int64_t)take_unsigned(reader));
    else
        reader->has_failed = true;
}

/* Runs one instruction of a description's program. */
static void run_one(struct machine *machine, unsigned char code)
{
    struct reader *reader = &machine->reader;
    unsigned char operand = code & OPERAND, set_of_code = code & (unsigned char)~OPERAND;
    if (set_of_code == ADVANCE)
        machine->location += operand * machine->shared->code_unit;
    else if (set_of_code == OFFSET)
        set(machine, operand, SAVED, (int64_t)take_unsigned(reader) * machine->shared->data_unit);
    else if (set_of_code == RESTORE)
        restore(machine, operand);
    else if (code == REMEMBER)
        remember(machine);
    else if (code == RECALL)
        recall(machine);
    else if (code == EXPRESSION)
        set_by_expression(machine);
    else if (code == ARGUMENTS_SIZE)
        machine->is_own |= take_unsigned(reader) == CFI_OWN_MARK;
    else if (code == VALUE_EXPRESSION) {
        set(machine, take_unsigned(reader), OTHER, 0);
        take_expression(machine);
    } else if (code != NOP && !IS_SIGNATURE(code) && !run_location(machine, code) && !run_end(machine, code)) {
        run_register(machine, code);
    }
}

/* Runs to the end, since the recorder's mark may be anywhere. Answers the row of the instruction. */
static struct row run_program(struct machine *machine, uintptr_t start, uintptr_t end)
{
    struct row row = machine->row;
    machine->reader = (struct reader){.at = start, .end = end};
    while (machine->reader.at < end && !machine->reader.has_failed) {
        run_one(machine, take_byte(&machine->reader));
        if (machine->location <= machine->instruction)
            row = machine->row;
    }
    return row;
}

/* Where the caller's frame pointer is, as a rule has it. */
static unsigned frame_of(const struct saved *frame)
{
    int64_t words = -frame->offset / (int64_t)sizeof(uintptr_t);
    bool is_whole = frame->offset % (int64_t)sizeof(uintptr_t) == 0;
    if (frame->kind == KEPT)
        return CFI_FRAME_KEPT;
    if (frame->kind == SAVED && frame->offset == 0)
        return CFI_FRAME_LINKED;
    return frame->kind == SAVED && is_whole && words > 0 && words < CFI_FRAME_LINKED ? (unsigned)words : CFI_FRAME_LOST;
}

/* Whether the rule can say where the address after the call is. */
static bool put_address(const struct row *row, struct cfi_rule *rule)
{
#if HAS_LINK_REGISTER
    int64_t words = -row->address.offset / (int64_t)sizeof(uintptr_t);
    if (row->address.kind == SAVED && words > 0 && words <= MOST_FRAME_WORDS)
        rule->address = (unsigned)words & MOST_FRAME_WORDS;
    return row->address.kind == KEPT || rule->address != 0;
#else
    (void)rule;
    return row->address.kind == SAVED && row->address.offset == -(int64_t)sizeof(uintptr_t);
#endif
}

#if HAS_LINK_REGISTER

/* Whether the caller's frame pointer and the address after the call lie side by side, wherever in the frame: then a
   frame pointer leads to them, from the second instruction on. */
static bool is_pair(const struct row *row)
{
    return row->frame.kind == SAVED && row->address.kind == SAVED && row->frame.offset != 0
           && row->address.offset == row->frame.offset + (int64_t)sizeof(uintptr_t);
}

#endif

/* What a row of the table says, as one rule. */
static struct cfi_rule rule_of(const struct row *row, const struct machine *machine)
{
    struct cfi_rule rule = {.flags = machine->is_own ? CFI_OWN : 0};
    rule.frame = frame_of(&row->frame) & MOST_FRAME_WORDS;
    bool is_usual = put_address(row, &rule);
    if (machine->shared->is_signal)
        rule.kind = CFI_SIGNAL;
    else if (row->address.kind == UNDEFINED)
        rule.kind = CFI_LAST;
    else if (is_usual && row->offset >= INT32_MIN && row->offset <= INT32_MAX)
        rule.kind = row->base == STACK_POINTER   ? CFI_BY_STACK
                    : row->base == FRAME_POINTER ? CFI_BY_FRAME
                    : row->base == LINKED        ? CFI_SAVED
                                                 : CFI_UNKNOWN;
    rule.offset = (int32_t)row->offset;
#if HAS_LINK_REGISTER
    bool is_far = rule.frame == CFI_FRAME_LOST || !is_usual || rule.kind == CFI_UNKNOWN;
    if (rule.kind != CFI_SIGNAL && is_pair(row) && is_far) {
        rule.kind = CFI_POINTER, rule.frame = 2, rule.address = ADDRESS_BESIDE_FRAME;
        rule.offset = 2 * (int32_t)sizeof(uintptr_t);
    }
#else
    if (rule.kind == CFI_BY_FRAME && rule.frame == 2 && rule.offset == 2 * (int32_t)sizeof(uintptr_t))
        rule.kind = CFI_POINTER;
#endif
    return rule;
}

/* Runs the program of a function's description up to an instruction. */
static struct cfi_rule read_rule(uintptr_t description, uintptr_t instruction)
{
    static const struct cfi_rule unknown = {.kind = CFI_UNKNOWN};
    struct shared shared;
    struct reader reader;
    if (!open_description(&reader, description))
        return unknown;
    uintptr_t here = reader.at;
    uint64_t distance = take(&reader, 4);
    if (distance == 0 || !read_shared(here - distance, &shared))
        return unknown;
    uintptr_t start = take_pointer(&reader, shared.encoding);
    uintptr_t size = take_pointer(&reader, shared.encoding & FORM);
    uint64_t skipped = shared.has_size ? take_unsigned(&reader) : 0;
    if (reader.has_failed || instruction - start >= size)
        return unknown;
    struct machine machine = {
        .shared = &shared, .location = start, .instruction = instruction, .row = {.base = NO_REGISTER}};
    machine.row = run_program(&machine, shared.program, shared.program_end);
    bool has_failed = machine.reader.has_failed;
    machine.first = machine.row;
    struct row row = run_program(&machine, reader.at + skipped, reader.end);
    if (has_failed || machine.reader.has_failed)
        return unknown;
    struct cfi_rule rule = rule_of(&row, &machine);
    if (start == (uintptr_t)&program_main)
        rule.flags |= CFI_MAIN;
    return rule;
}

struct cfi_rule cfi_find(uintptr_t instruction)
{
    uintptr_t table = table_of(instruction);
    uintptr_t description = table != 0 ? find_description(table, instruction) : 0;
    return description != 0 ? read_rule(description, instruction) : (struct cfi_rule){.kind = CFI_UNKNOWN};
}

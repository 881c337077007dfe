/* A filter is a program of the classic Berkeley packet filter, which reads a call's number and arguments and answers
   what happens to it. The system asks all of a thread's, and the strictest answer holds. A copy stays for ever, as the
   filter does. */
#define _GNU_SOURCE
#include "base/filters.h"

#include <errno.h>
#include <linux/filter.h>
#include <linux/seccomp.h>
#include <stdatomic.h>
#include <stddef.h>
#include <stdint.h>
#include <string.h>
#include <sys/mman.h>

#include "base/memory.h"
#include "base/platform.h"
#include "base/system.h"

struct filter {
    const struct filter *before; /* installed earlier */
    size_t count;                /* of the code; 0: strict mode */
    struct sock_filter code[];
};

_Atomic bool filters_are_there;

static _Thread_local const struct filter *own;
static const struct filter *_Atomic of_all; /* those that were installed for all threads */

/* What a filter computes with. */
struct machine {
    uint32_t a, x, memory[BPF_MEMWORDS];
};

static uint32_t loaded(const struct machine *it, const struct sock_filter *op, const struct seccomp_data *call)
{
    uint32_t word = 0;
    switch (BPF_MODE(op->code)) {
    case BPF_ABS:
        if (op->k <= sizeof *call - sizeof word)
            memcpy(&word, (const char *)call + op->k, sizeof word);
        return word;
    case BPF_MEM:
        return it->memory[op->k % BPF_MEMWORDS];
    case BPF_LEN:
        return sizeof *call;
    default:
        return op->k;
    }
}

static uint32_t computed(uint32_t a, unsigned operation, uint32_t with)
{
    switch (operation) {
    case BPF_ADD:
        return a + with;
    case BPF_SUB:
        return a - with;
    case BPF_MUL:
        return a * with;
    case BPF_DIV:
        return with != 0 ? a / with : 0;
    case BPF_MOD:
        return with != 0 ? a % with : a;
    case BPF_OR:
        return a | with;
    case BPF_AND:
        return a & with;
    case BPF_XOR:
        return a ^ with;
    case BPF_LSH:
        return with < 32 ? a << with : 0;
    case BPF_RSH:
        return with < 32 ? a >> with : 0;
    default: /* BPF_NEG */
        return -a;
    }
}

/* How many instructions are passed over. */
static uint32_t jumped(const struct machine *it, const struct sock_filter *op, uint32_t with)
{
    bool holds;
    switch (BPF_OP(op->code)) {
    case BPF_JEQ:
        holds = it->a == with;
        break;
    case BPF_JGT:
        holds = it->a > with;
        break;
    case BPF_JGE:
        holds = it->a >= with;
        break;
    case BPF_JSET:
        holds = (it->a & with) != 0;
        break;
    default: /* BPF_JA */
        return op->k;
    }
    return holds ? op->jt : op->jf;
}

/* What a filter answers. The system has seen that it only goes forward, up to an answer. */
static uint32_t answer_of(const struct filter *filter, const struct seccomp_data *call)
{
    struct machine it = {0};
    for (size_t at = 0; at < filter->count; at++) {
        const struct sock_filter *op = &filter->code[at];
        uint32_t with = BPF_SRC(op->code) == BPF_X ? it.x : op->k;
        switch (BPF_CLASS(op->code)) {
        case BPF_LD:
            it.a = loaded(&it, op, call);
            break;
        case BPF_LDX:
            it.x = loaded(&it, op, call);
            break;
        case BPF_ST:
            it.memory[op->k % BPF_MEMWORDS] = it.a;
            break;
        case BPF_STX:
            it.memory[op->k % BPF_MEMWORDS] = it.x;
            break;
        case BPF_ALU:
            it.a = computed(it.a, BPF_OP(op->code), with);
            break;
        case BPF_JMP:
            at += jumped(&it, op, with);
            break;
        case BPF_RET:
            return BPF_RVAL(op->code) == BPF_A ? it.a : op->k;
        default: /* BPF_MISC */
            if (BPF_MISCOP(op->code) == BPF_TAX)
                it.x = it.a;
            else
                it.a = it.x;
        }
    }
    return SECCOMP_RET_ALLOW;
}

static bool is_strictly_allowed(long number)
{
    return number == SYS_read || number == SYS_write || number == SYS_exit || number == SYS_rt_sigreturn;
}

/* Whether one of these ends the process at the call, or sends it a signal. */
static bool ends_at(const struct filter *filter, const struct seccomp_data *call)
{
    for (; filter != NULL; filter = filter->before) {
        int32_t action = SECCOMP_RET_TRAP;
        if (filter->count != 0)
            action = (int32_t)(answer_of(filter, call) & SECCOMP_RET_ACTION_FULL);
        else if (is_strictly_allowed(call->nr))
            action = SECCOMP_RET_ALLOW;
        if (action <= (int32_t)SECCOMP_RET_TRAP)
            return true;
    }
    return false;
}

long filtered_call(long number, long first, long second, long third, long fourth, long fifth, long sixth)
{
    struct seccomp_data call = {
        .nr = (int)number, .arch = SYSTEM_ARCHITECTURE, .instruction_pointer = CALLER(),
        .args = {(uint64_t)first, (uint64_t)second, (uint64_t)third, (uint64_t)fourth, (uint64_t)fifth,
                 (uint64_t)sixth}};
    if (ends_at(own, &call) || ends_at(atomic_load(&of_all), &call))
        return -EPERM;
    return direct_call(number, first, second, third, fourth, fifth, sixth);
}

/* Reads what the program gives. Where a filter refuses the question it is not asked: the system takes the filter. */
static bool read_given(const void *from, void *to, size_t size)
{
    if (!atomic_load(&filters_are_there))
        return memory_read((uintptr_t)from, to, size);
    memcpy(to, from, size);
    return true;
}

const struct filter *filters_copy(bool is_strict, const void *program)
{
    struct sock_fprog given = {0};
    if (!is_strict && (!read_given(program, &given, sizeof given) || given.len == 0 || given.len > BPF_MAXINSNS))
        return NULL;
    size_t bytes = given.len * sizeof *given.filter;
    long made = system_mmap(NULL, sizeof(struct filter) + bytes, PROT_READ | PROT_WRITE, MAP_PRIVATE | MAP_ANONYMOUS,
                            -1, 0);
    if (made <= 0)
        return NULL;
    struct filter *copy = (struct filter *)made;
    copy->before = own;
    copy->count = given.len;
    if (is_strict || read_given(given.filter, copy->code, bytes))
        return copy;
    system_munmap(copy, sizeof *copy + bytes);
    return NULL;
}

void filters_end(const struct filter *copy, bool is_installed, bool is_for_all)
{
    if (copy == NULL)
        return;
    if (!is_installed) {
        system_munmap(copy, sizeof *copy + copy->count * sizeof *copy->code);
        return;
    }
    own = copy;
    if (is_for_all)
        atomic_store(&of_all, copy);
    atomic_store(&filters_are_there, true);
}

const struct filter *filters_own(void)
{
    return own;
}

void filters_inherit(const struct filter *filters)
{
    own = filters;
}

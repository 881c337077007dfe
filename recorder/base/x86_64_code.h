/* Instructions of x86-64 in a constructor (processor_code.h).

   Called: by interface/registering.c alone, in the thread that loads a module, never in a signal handler; no lock:
   nothing here has a state. */
#ifndef ASANCOL_X86_64_CODE_H
#define ASANCOL_X86_64_CODE_H

#include <stdbool.h>
#include <stddef.h>
#include <stdint.h>
#include <string.h>

/* A call in a module whose two arguments are constants there, and where it goes, or the slot that has this. */
struct constant_call {
    uintptr_t first, second, target;
    bool is_by_slot;
};

/* Where the instructions stand that are looked at. */
struct instructions {
    const unsigned char *at, *end;
};

/* Whether an instruction begins so, and then goes past these bytes and a number of 4 bytes, if it is there. */
static inline bool take(struct instructions *code, const char *bytes, size_t length, int32_t *number)
{
    size_t whole = length + (number != NULL ? sizeof *number : 0);
    if ((size_t)(code->end - code->at) < whole || memcmp(code->at, bytes, length) != 0)
        return false;
    if (number != NULL)
        memcpy(number, code->at + length, sizeof *number);
    code->at += whole;
    return true;
}

#define TAKE(code, bytes, number) take(code, bytes, sizeof bytes - 1, number)

/* The address in the register of the first argument. */
static inline bool take_address(struct instructions *code, uintptr_t *address)
{
    int32_t number;
    if (TAKE(code, "\xbf", &number) || TAKE(code, "\x48\xc7\xc7", &number)) { /* mov $number, %edi or %rdi */
        *address = (uintptr_t)(intptr_t)number;
        return true;
    }
    if (!TAKE(code, "\x48\x8d\x3d", &number)) {   /* lea number(%rip), %rdi */
        if (!TAKE(code, "\x48\x8d\x05", &number)) /* or %rax */
            return false;
        *address = (uintptr_t)code->at + (uintptr_t)(intptr_t)number;
        return TAKE(code, "\x48\x89\xc7", NULL); /* and mov %rax, %rdi */
    }
    *address = (uintptr_t)code->at + (uintptr_t)(intptr_t)number;
    return true;
}

/* A call or a jump. */
static inline bool take_call(struct instructions *code, struct constant_call *call)
{
    int32_t number;
    bool leaves = TAKE(code, "\x5d", NULL) || TAKE(code, "\xc9", NULL); /* pop %rbp, leave */
    (void)leaves;
    bool is_direct = TAKE(code, "\xe8", &number) || TAKE(code, "\xe9", &number) || TAKE(code, "\x67\xe8", &number);
    call->is_by_slot = !is_direct && (TAKE(code, "\xff\x15", &number) || TAKE(code, "\xff\x25", &number));
    if (!is_direct && !call->is_by_slot)
        return false;
    call->target = (uintptr_t)code->at + (uintptr_t)(intptr_t)number;
    return true;
}

/* Finds the first such call from a place on, from behind which the next search may begin. */
static inline bool processor_find_call(const unsigned char **at, const unsigned char *end, struct constant_call *call)
{
    while (*at < end) {
        int32_t number;
        struct instructions code = {(*at)++, end};
        if (!TAKE(&code, "\xbe", &number)) /* mov $number, %esi */
            continue;
        call->second = (uint32_t)number;
        if (take_address(&code, &call->first) && take_call(&code, call))
            return true;
    }
    return false;
}

#undef TAKE

#endif

/* Instructions of AArch64 in a constructor (processor_code.h); what each part is for stands in x86_64_code.h.

   Called: as x86_64_code.h, in the thread that loads a module, never in a signal handler; no lock. */
#ifndef ASANCOL_AARCH64_CODE_H
#define ASANCOL_AARCH64_CODE_H

#include <stdbool.h>
#include <stddef.h>
#include <stdint.h>
#include <string.h>

struct constant_call {
    uintptr_t first, second, target;
    bool is_by_slot;
};

enum { CODE_PAGE = 4096 };

/* What an instruction puts into its register, of which the first two are known. 0: it is not known. */
static inline uintptr_t processor_constant(uint32_t code, uintptr_t at, const uintptr_t registers[2])
{
    unsigned from = code >> 5 & 31, shift = code >> 22 & 1 ? 12 : 0;
    int64_t distance = (int64_t)((int32_t)(code << 8) >> 13) * 4 + (code >> 29 & 3);
    if ((code & 0x9f000000) == 0x90000000) /* adrp */
        return (at & ~(uintptr_t)(CODE_PAGE - 1)) + (uintptr_t)(distance * CODE_PAGE);
    if ((code & 0x9f000000) == 0x10000000) /* adr */
        return at + (uintptr_t)distance;
    if ((code & 0x7fe00000) == 0x52800000) /* mov */
        return code >> 5 & 0xffff;
    bool is_sum = (code & 0xff800000) == 0x91000000 && from < 2 && registers[from] != 0;
    return is_sum ? registers[from] + ((uintptr_t)(code >> 10 & 0xfff) << shift) : 0;
}

static inline bool processor_find_call(const unsigned char **at, const unsigned char *end, struct constant_call *call)
{
    uintptr_t registers[2] = {0};
    for (uint32_t code; (size_t)(end - *at) >= sizeof code;) {
        uintptr_t here = (uintptr_t)*at;
        memcpy(&code, *at, sizeof code);
        *at += sizeof code;
        if ((code & 0x7c000000) == 0x14000000) { /* b, bl */
            int64_t distance = (int64_t)((int32_t)(code << 6) >> 6) * 4;
            *call = (struct constant_call){registers[0], registers[1], here + (uintptr_t)distance, false};
            if (call->first != 0 && call->second != 0)
                return true;
            registers[0] = registers[1] = 0;
        } else {
            unsigned to = code & 31, second = code >> 10 & 31; /* a load of a pair has a second one */
            uintptr_t value = processor_constant(code, here, registers);
            if (value == 0 && second < 2)
                registers[second] = 0;
            if (to < 2)
                registers[to] = value;
        }
    }
    return false;
}

#endif

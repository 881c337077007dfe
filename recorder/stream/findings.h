/* Findings: what the recorder knows to be wrong, and no event of the stream shows. Each is one entry in the list of
   faults, for each call site with its stack. Nobody checks it again: it is the recorder's word.

   Called: finding_note by heap/families.c, leaks/leaks.c and interface/odr.c, finding_note_call by watched.c, heap/,
   calls/ and interface/ (hooks.def): in any thread, also in a handler, with or without the allocator's lock, but not
   the stream's. No lock is needed: the list is atomic (fault_list.h), which may take the stream's for room on the
   disk. The program may be told (telling.h), which runs its code. */
#ifndef ASANCOL_FINDINGS_H
#define ASANCOL_FINDINGS_H

#include <stdint.h>

#include "base/platform.h"
#include "common/format.h"
#include "stacks/stacks.h"

struct finding {
    enum finding_kind kind;
    call_site call_site;    /* of the call; of a leak, of the malloc */
    const char *call;       /* the function that was called; null: the program itself */
    const char *name;       /* what has allocated the block, in words; or null; of a global its name */
    const char *other_name; /* of a global, that of its other definition; else null */
    uint64_t block;         /* the block that it is about: its start, its size, and its malloc's call site; 0: none */
    uint64_t block_size;
    call_site allocated;
    uint64_t start, size, other; /* what the call was given, as struct side_fault has it */
    uint64_t count;         /* of a leak: how many blocks, which replaces an earlier number; else 0 */
};

/* A call with arguments that can't be meant. */
struct wrong_call {
    enum finding_kind kind;
    uintptr_t caller;            /* the address after it */
    const char *call;            /* the function */
    uint64_t start, size, other; /* as of a finding */
};

/* Notes one, if there is anything beside the stream. errno stays as it is. */
void finding_note(const struct finding *finding) OWN_NAME(finding_note);
/* The same of a call, unless an option leaves out its function. */
void finding_note_call(const struct wrong_call *wrong) OWN_NAME(finding_note_call);

#endif

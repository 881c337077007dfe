/* No table but three switches: the family is in the block's note, and a caller is judged by the instruction before its
   return address. That is read by memory_read: its module may be closed meanwhile. */
#define _GNU_SOURCE
#include "heap/families.h"

#include <dlfcn.h>
#include <link.h>
#include <stdatomic.h>
#include <string.h>

#include "base/memory.h"
#include "libc/library.h"
#include "heap/blocks.h"
#include "environment/link_note.h"
#include "stream/findings.h"
#include "stream/maps.h"

static _Atomic bool are_checked, are_sizes_checked;

void heap_check_families(bool families, bool sizes)
{
    atomic_store_explicit(&are_checked, families, memory_order_relaxed);
    atomic_store_explicit(&are_sizes_checked, sizes, memory_order_relaxed);
}

/* Whether a module may have operators of its own: a plain program, which has this preloaded, may have the library of
   C++ inside. */
static bool has_own_operators(const void *module)
{
#ifdef IS_PRELOAD
    struct note note;
    return !maps_find_note((uintptr_t)module, LINK_NOTE_OWNER, LINK_NOTE_TYPE, &note);
#else
    (void)module;
    return false;
#endif
}

/* Whether a function that calls malloc or free may be an operator of C++: who has called that was not compiled here, so
   nobody has said so. It is not known which module an address is in before version 2.35 of the C library. */
static bool may_be_operator(uintptr_t caller)
{
#if __GLIBC_PREREQ(2, 35)
    struct dl_find_object found = {0};
    if (library._dl_find_object != NULL && library._dl_find_object((void *)(caller - 1), &found) == 0)
        return found.dlfo_link_map == NULL || library_is_of_cxx(found.dlfo_link_map->l_name)
               || has_own_operators(found.dlfo_map_start);
#else
    (void)caller;
#endif
    return true;
}

enum { ADDRESS_CALL = 0xe8, TABLE = 0xff, TABLE_CALL = 0x15, TABLE_JUMP = 0x25, BOUNDED = 0xf2 };
/* Of an instruction that ends with a distance to what it uses, from its own end. */
enum { OPERATION_BYTES = 2, DISTANCE_BYTES = 4, INSTRUCTION_BYTES = OPERATION_BYTES + DISTANCE_BYTES };

/* The address that such an instruction uses; `end` is its own end. */
static uintptr_t used_by(const unsigned char *instruction, uintptr_t end)
{
    int32_t distance;
    memcpy(&distance, instruction + OPERATION_BYTES, sizeof distance);
    return end + (uintptr_t)(intptr_t)distance;
}

/* 0: it can't be read. The address comes from bytes that may be no call at all. */
static uintptr_t word_at(uintptr_t address)
{
    uintptr_t word;
    return memory_read(address, &word, sizeof word) ? word : 0;
}

/* Where a stub of the linker's goes on by a module's table, or 0. */
static uintptr_t behind_stub(uintptr_t stub)
{
    static const unsigned char may_be_called[] = {0xf3, 0x0f, 0x1e, 0xfa};
    unsigned char code[16];
    size_t at = 0;
    if (!memory_read(stub, code, sizeof code))
        return 0;
    if (memcmp(code, may_be_called, sizeof may_be_called) == 0)
        at += sizeof may_be_called;
    at += code[at] == BOUNDED;
    bool is_jump = code[at] == TABLE && code[at + 1] == TABLE_JUMP;
    return is_jump ? word_at(used_by(code + at, stub + at + INSTRUCTION_BYTES)) : 0;
}

/* Whether the call that returns to this address is one of this function. */
static bool is_call_of(uintptr_t function, uintptr_t back)
{
    unsigned char call[INSTRUCTION_BYTES];
    if (!memory_read(back - sizeof call, call, sizeof call))
        return false;
    uintptr_t used = used_by(call, back);
    if (call[0] == TABLE && call[1] == TABLE_CALL)
        return word_at(used) == function;
    return call[1] == ADDRESS_CALL && (used == function || behind_stub(used) == function);
}

/* A delete of a library goes on to free by a jump, so that its caller seems to call that. So a free counts as one only
   if the call is one of free. */
static bool is_release(const struct release *release)
{
    return release->family != FAMILY_MALLOC || is_call_of(EXPORTED(free), release->caller)
           || is_call_of(EXPORTED(realloc), release->caller);
}

/* Whether a block's or a free's family is certain: that of malloc is not if the caller may be an operator. */
static bool is_known(enum family family, uintptr_t caller)
{
    return family != FAMILY_ANY && (family != FAMILY_MALLOC || (caller != 0 && !may_be_operator(caller)));
}

/* A delete that says no size fits each. */
static bool has_other_size(const struct block *block, const struct release *release)
{
    size_t said = release->size_and_one - 1, size = size_of(block);
    return release->size_and_one != 0 && said != size && (said != 0 || size != 1);
}

/* An alignment that each block has counts as none, as with AddressSanitizer. */
static size_t alignment_or_none(size_t alignment)
{
    return alignment < sizeof(void *) ? 0 : alignment;
}

/* Its mistake, or FINDING_NONE. */
static enum finding_kind kind_of(const struct block *block, const struct release *release)
{
    if (block->family != release->family)
        return atomic_load_explicit(&are_checked, memory_order_relaxed) ? FINDING_FAMILY : FINDING_NONE;
    if (!atomic_load_explicit(&are_sizes_checked, memory_order_relaxed))
        return FINDING_NONE;
    if (alignment_or_none(alignment_of(block)) != alignment_or_none(release->alignment))
        return FINDING_OTHER_ALIGNMENT;
    return has_other_size(block, release) ? FINDING_SIZE : FINDING_NONE;
}

static call_site allocated_at(const struct block *block)
{
    return NOTE_NOW(arena.call_sites[block - arena.blocks].allocated);
}

bool families_differ(const struct block *block, const struct release *release)
{
    if (arena.call_sites == NULL)
        return false;
    return kind_of(block, release) != FINDING_NONE
           && is_known((enum family)block->family, call_site_address(allocated_at(block)))
           && is_known(release->family, release->caller) && is_release(release);
}

void families_look_at(const struct block *block, const struct release *release)
{
    static const char *const freed[] = {NULL, "operator delete", "operator delete []"};
    if (!families_differ(block, release))
        return;
    call_site allocated = allocated_at(block);
    enum finding_kind kind = kind_of(block, release);
    bool is_alignment = kind == FINDING_OTHER_ALIGNMENT;
    finding_note(&(struct finding){
        .kind = kind,
        .call_site = call_site_from(release->frame, release->caller),
        .call = release->family == FAMILY_MALLOC ? release->call : freed[release->family],
        .name = family_name((enum family)block->family),
        .block = release->address,
        .block_size = size_of(block),
        .allocated = allocated,
        .start = is_alignment ? alignment_or_none(release->alignment) : release->address,
        .size = kind != FINDING_FAMILY && has_other_size(block, release) ? release->size_and_one - 1 : 0,
        .other = is_alignment ? alignment_or_none(alignment_of(block)) : 0,
    });
}

static _Atomic bool requests_are_checked;

void heap_check_requests(bool is_on)
{
    atomic_store(&requests_are_checked, is_on);
}

bool requests_are_noted(void)
{
    return atomic_load_explicit(&requests_are_checked, memory_order_relaxed);
}

void families_note_refused(size_t size, uintptr_t caller, enum family family, bool is_too_big)
{
    bool is_known_caller = family == FAMILY_MALLOC ? !may_be_operator(caller) : family != FAMILY_ANY;
    if (is_known_caller && requests_are_noted())
        finding_note_call(&(struct wrong_call){.kind = is_too_big ? FINDING_TOO_BIG : FINDING_NO_MEMORY,
                                               .caller = caller, .size = size});
}

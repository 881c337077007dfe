/* A library that asancol-cc did not link calls the C library by slots, which the loader fills. Here those that lead to
   a function of calls.def are led to its stub in the program (stubs.h), as the linker's --wrap leads the program's own
   calls there. So a library's call is checked in the same way, and the stub goes on to the C library's function by
   the program's own slot, which stays as it is. Nothing is exported: what the program, or a library before the C
   library, has by such a name is called as before. If nothing is recorded, no slot is touched.

   If this is preloaded, the program is plain too, and is looked at as they are.

   The loader's lock is held in read_library, look_at and what that calls (dl_iterate_phdr); but in a child forked from
   threads nobody takes it while there is one thread (library_go_without_lock). It guards `known` and its count. is_on
   is atomic, and the other `static` variables are written by plain_begin alone, before that is set. answer_dlsym and
   answer_dlvsym take it too, and then the stream's: a plain library's dlsym comes to them, or any module's if this is
   preloaded, in its thread, not in a handler. */
#define _GNU_SOURCE
#include "process/plain.h"

#include <dlfcn.h>
#include <errno.h>
#include <link.h>
#include <stdatomic.h>
#include <string.h>
#include <sys/mman.h>

#include "libc/library.h"
#include "libc/objects.h"
#include "base/platform.h"
#include "base/processor_stubs.h"
#include "base/system.h"
#include "common/text.h"
#include "heap/heap.h"
#include "process/preload_choice.h"
#include "environment/link_note.h"
#include "process/process.h"
#include "process/threads.h"
#include "shadow/mapping.h"
#include "stacks/unwinding.h"
#include "stream/maps.h"
#include "stream/side.h"

/* A stub, by the distances from each of these (LIST in stubs.h). */
struct stub {
    int32_t code, function, name;
};

/* The linker's names for the list, which has some from each file with stubs. */
#define plain_stubs __start_asancol_stubs
#define plain_stubs_end __stop_asancol_stubs
extern const struct stub plain_stubs[] __attribute__((visibility("hidden")));
extern const struct stub plain_stubs_end[] __attribute__((visibility("hidden")));

static const void *at_distance(const int32_t *from)
{
    return (const unsigned char *)from + *from;
}

/* The stubs by the hashes of their names: a number and 1, or 0. Filled by plain_begin, unless that does nothing. */
enum { STUB_PLACES = 2048 };
static AS_TABLE uint16_t stub_numbers[STUB_PLACES];

static void enter_stubs(void)
{
    for (const struct stub *it = plain_stubs; it != plain_stubs_end; it++) {
        size_t at = object_hash(at_distance(&it->name)) % STUB_PLACES;
        while (stub_numbers[at] != 0)
            at = (at + 1) % STUB_PLACES;
        stub_numbers[at] = (uint16_t)(it - plain_stubs + 1);
    }
}

static const struct stub *find_stub(const char *name)
{
    for (size_t at = object_hash(name) % STUB_PLACES; stub_numbers[at] != 0; at = (at + 1) % STUB_PLACES) {
        const struct stub *it = &plain_stubs[stub_numbers[at] - 1];
        if (strcmp(at_distance(&it->name), name) == 0)
            return it;
    }
    return NULL;
}

/* The recorder's function of this name, or null. */
static void *own_of(const char *name)
{
#ifdef IS_PRELOAD
    uintptr_t own = preload_choice_function_behind(name);
#else
    uintptr_t own = heap_function_behind(name);
    if (own == 0)
        own = thread_function_behind(name);
#endif
    return (void *)own;
}

void *plain_instead_of(void *found, const char *name, bool is_new)
{
    void *own = own_of(name);
    if (own != NULL || !is_new || range_has(own_code, (uintptr_t)found))
        return own != NULL && library_has(found) ? own : found;
    for (const struct stub *it = plain_stubs; it != plain_stubs_end; it++)
        if (*(void *const *)at_distance(&it->function) == found && strcmp(at_distance(&it->name), name) == 0)
            return (void *)(uintptr_t)at_distance(&it->code);
    return found;
}

/* What a library has opened by itself it asks for its functions first: so the loaded libraries are looked at then.
   dlsym and dlvsym answer by their caller, so they are jumped to, unless they would answer the C library's function
   where the recorder has one. If that comes next after the recorder, it does for all others. */
struct answer {
    void *own; /* or null: `by` says it */
    uintptr_t by;
};

static void look_for_opened(void);

static void *ask_for(void *where, const char *name, const char *version)
{
    return version == NULL ? library.dlsym(where, name) : library.dlvsym(where, name, version);
}

static void *find_own(void *where, const char *name, const char *version)
{
    look_for_opened();
    /* The first of all may be the program's. With a version it is none of those, which have no versions. */
    void *own = where != RTLD_DEFAULT || version != NULL ? own_of(name) : NULL;
    void *found = own != NULL ? ask_for(where, name, version) : NULL;
    return found != NULL && library_has(found) ? own : NULL;
}

__attribute__((used)) static struct answer answer_dlsym(void *where, const char *name)
{
    return (struct answer){find_own(where, name, NULL), (uintptr_t)library.dlsym};
}

__attribute__((used)) static struct answer answer_dlvsym(void *where, const char *name, const char *version)
{
    return (struct answer){find_own(where, name, version), (uintptr_t)library.dlvsym};
}

#ifdef IS_PRELOAD
#define STUB_OF(name) "asancol_instead_" name /* called from the first moment on (start/exports.c) */
#else
#define STUB_OF(name) "asancol_plain_" name
#endif

#define FINDS(name, label)                                                                                             \
    extern const unsigned char stub_of_##name[] NAMED(label) __attribute__((visibility("hidden")));                    \
    TOP_ASM(".pushsection .text\n"                                                                                     \
            ".p2align 4\n"                                                                                             \
            ".globl " label "\n"                                                                                       \
            ".hidden " label "\n"                                                                                      \
            ".type " label ",@function\n" label ":\n"                                                                  \
            "\t.cfi_startproc\n"                                                                                       \
            LANDING RETURN_OR_GO("answer_" #name)                                                                      \
            "\t.cfi_endproc\n"                                                                                         \
            ".size " label ", .-" label "\n"                                                                           \
            ".popsection\n");

FINDS(dlsym, STUB_OF("dlsym"))
FINDS(dlvsym, STUB_OF("dlvsym"))

/* Where a slot leads, and where it shall. `is_export`: to a function of the recorder's that has the name itself. */
struct way {
    uintptr_t from, to;
    bool is_export;
};

static bool is_checked(uintptr_t function)
{
    const struct hook_page *hook_page = HOOK_PAGE;
    return range_has(hook_page->library, function) || range_has(hook_page->system, function)
           || range_has(hook_page->mathematics, function);
}

/* What happens to calls by this name. False: they stay as they are. */
static bool find_way(const char *name, struct way *way)
{
    const struct stub *stub = find_stub(name);
    if (stub != NULL)
        *way = (struct way){*(const uintptr_t *)at_distance(&stub->function), (uintptr_t)at_distance(&stub->code),
                            preload_choice_is_behind(at_distance(&stub->function))};
    else if (strcmp(name, "dlsym") == 0)
        *way = (struct way){(uintptr_t)library.dlsym, (uintptr_t)stub_of_dlsym, false};
    else if (strcmp(name, "dlvsym") == 0)
        *way = (struct way){(uintptr_t)library.dlvsym, (uintptr_t)stub_of_dlvsym, false};
    else
        return false;
    return is_checked(way->from);
}

/* A module that is looked at. */
struct module {
    struct object object;
    struct code_range all, guarded; /* its addresses, and those that the loader makes read-only once they are filled */
    const struct dl_phdr_info *info;
    const _Atomic uintptr_t *slot; /* one that leads to a stub, or null */
    bool is_filled;                /* no slot was found that the loader has yet to fill */
    bool is_plain;                 /* asancol-cc has not linked it */
};

/* Reads the tables of a module that is loaded. */
static void read_module(struct module *module, const struct dl_phdr_info *info)
{
    *module = (struct module){.info = info, .all = object_range(info), .is_filled = true};
    for (int i = 0; i < info->dlpi_phnum; i++) {
        const Elf64_Phdr *it = &info->dlpi_phdr[i];
        uintptr_t start = info->dlpi_addr + it->p_vaddr, end = start + it->p_memsz;
        if (it->p_type == PT_DYNAMIC)
            module->object = object_read(info->dlpi_addr, (const Elf64_Dyn *)start);
        else if (it->p_type == PT_GNU_RELRO && end / SYSTEM_PAGE > start / SYSTEM_PAGE)
            module->guarded = (struct code_range){start / SYSTEM_PAGE * SYSTEM_PAGE,
                                                  (end / SYSTEM_PAGE - start / SYSTEM_PAGE) * SYSTEM_PAGE};
    }
}

/* Whether the loader has made it read-only: then it has filled it. The system is asked to write a byte as it is, which
   nobody changes. `otherwise`, if it refuses to say. */
static bool is_read_only(const struct module *module, bool otherwise)
{
    const Elf64_Dyn *end = NULL;
    for (int i = 0; i < module->info->dlpi_phnum; i++)
        if (module->info->dlpi_phdr[i].p_type == PT_DYNAMIC)
            end = (const Elf64_Dyn *)(module->info->dlpi_addr + module->info->dlpi_phdr[i].p_vaddr);
    while (end != NULL && end->d_tag != DT_NULL)
        end++;
    if (end == NULL || !range_has(module->guarded, (uintptr_t)end))
        return otherwise;
    unsigned char zero = 0;
    struct iovec here = {&zero, 1}, there = {(void *)(uintptr_t)end, 1};
    ssize_t written = system_process_vm_writev(system_getpid(), &here, &there);
    return written == -EFAULT || (written != 1 && otherwise);
}

static bool is_writable(const struct dl_phdr_info *info, uintptr_t slot)
{
    for (int i = 0; i < info->dlpi_phnum; i++) {
        const Elf64_Phdr *it = &info->dlpi_phdr[i];
        if (it->p_type == PT_LOAD && (it->p_flags & PF_W) && slot - (info->dlpi_addr + it->p_vaddr) < it->p_memsz)
            return slot % sizeof slot == 0;
    }
    return false;
}

/* The C library's tables. Written at the start. */
static struct object library_object;

/* Whether a slot leads to a function, or will. A call that waits for its first time leads into the module itself, and
   will find what the program has found. Both have to mean the same version: several may have the same code, as the
   memcpy that was once a memmove. */
static bool leads_to(const struct module *module, const Elf64_Rela *it, uintptr_t now, uintptr_t function)
{
    bool waits = ELF64_R_TYPE(it->r_info) == RELOCATES_CALL && range_has(module->all, now);
    return (now == function || waits) && object_asks_for_new(&module->object, ELF64_R_SYM(it->r_info), &library_object);
}

/* Leads one slot to where calls by its name shall go, if the loader has filled it and it can be written. */
static void lead(struct module *module, const Elf64_Rela *it)
{
    uint64_t type = ELF64_R_TYPE(it->r_info);
    const Elf64_Sym *symbol = &module->object.symbols[ELF64_R_SYM(it->r_info)];
    uintptr_t place = module->object.base + it->r_offset;
    struct way way;
    bool is_slot = type == RELOCATES_CALL || type == RELOCATES_SLOT
                   || (type == RELOCATES_WORD && it->r_addend == 0);
    if (!is_slot || symbol->st_shndx != SHN_UNDEF || !find_way(module->object.texts + symbol->st_name, &way)
        || (!way.is_export && !module->is_plain) || !is_writable(module->info, place))
        return;
    _Atomic uintptr_t *slot = (_Atomic uintptr_t *)place;
    uintptr_t now = atomic_load_explicit(slot, memory_order_relaxed);
    if (now < module->all.size && module->info->dlpi_addr != 0) { /* as it is in the file */
        module->is_filled = false;
        return;
    }
    if (leads_to(module, it, now, way.from))
        atomic_store_explicit(slot, way.to, memory_order_release);
    else if (now != way.to)
        return;
    module->slot = slot;
}

static void lead_all(struct module *module, const Elf64_Rela *relocations, size_t size)
{
    for (size_t i = 0; i < size / sizeof *relocations; i++)
        lead(module, &relocations[i]);
}

/* False: the loader is still at it. */
static bool lead_module(struct module *module, bool is_start)
{
    if (module->object.symbols == NULL || module->object.texts == NULL)
        return true;
    bool is_guarded = module->guarded.size != 0, is_closed = is_guarded && is_read_only(module, is_start);
    if (is_guarded && !is_closed && !is_start)
        return false;
    const void *guarded = (const void *)module->guarded.start;
    if (is_closed && system_mprotect(guarded, module->guarded.size, PROT_READ | PROT_WRITE) != 0)
        return true;
    lead_all(module, module->object.relocations, module->object.relocations_size);
    lead_all(module, module->object.calls, module->object.calls_size);
    if (is_closed)
        system_mprotect(guarded, module->guarded.size, PROT_READ);
    return module->is_filled;
}

bool plain_is_of_library(const char *name)
{
    static const char *const names[] = {"libc.so.", "libm.so.", "ld-linux", "linux-vdso"};
    for (size_t i = 0; i < sizeof names / sizeof *names; i++)
        if (begins_with(name, names[i]))
            return true;
    return false;
}

static bool is_plain(const struct dl_phdr_info *info)
{
    struct note note;
    return !maps_find_note(info->dlpi_addr, LINK_NOTE_OWNER, LINK_NOTE_TYPE, &note);
}

/* The modules that need no further look. Another may lie at the same place since: then its name is elsewhere, or its
   slot does not lead to a stub. If more are there than fit, they are all forgotten. */
enum { MOST_KNOWN = 1024 };
struct known {
    uintptr_t start;
    const char *name;
    const _Atomic uintptr_t *slot; /* or null */
    uintptr_t stub;
};
static AS_TABLE struct known known[MOST_KNOWN];
static size_t known_count;

static struct known *find_known(uintptr_t start)
{
    for (size_t i = 0; i < known_count; i++)
        if (known[i].start == start)
            return &known[i];
    return NULL;
}

static bool is_known(const struct dl_phdr_info *info)
{
    const struct known *it = find_known(info->dlpi_addr);
    if (it == NULL || it->name != info->dlpi_name)
        return false;
    return it->slot == NULL
           || (is_writable(info, (uintptr_t)it->slot)
               && atomic_load_explicit(it->slot, memory_order_relaxed) == it->stub);
}

static void keep_known(const struct module *module)
{
    struct known *it = find_known(module->info->dlpi_addr);
    if (it == NULL && known_count == MOST_KNOWN)
        known_count = 0;
    if (it == NULL)
        it = &known[known_count++];
    const uintptr_t stub = module->slot != NULL ? atomic_load_explicit(module->slot, memory_order_relaxed) : 0;
    *it = (struct known){module->info->dlpi_addr, module->info->dlpi_name, module->slot, stub};
}

struct look {
    bool is_start, is_past_program;
    bool has_found; /* a module that was not known */
};

/* Visits a module, with the loader's lock: leads the slots of a plain one that is not known yet. */
static int look_at(struct dl_phdr_info *info, size_t size, void *of)
{
    struct look *look = of;
    (void)size;
#ifndef IS_PRELOAD
    if (!look->is_past_program) {
        look->is_past_program = true;
        return 0;
    }
#endif
    if (is_known(info))
        return 0;
    struct module module;
    read_module(&module, info);
    bool is_of_library = plain_is_of_library(base_name(info->dlpi_name));
    module.is_plain = !is_of_library && is_plain(info);
    bool is_led = !is_of_library && (module.is_plain || IS_PRELOADED);
    if (!is_led || lead_module(&module, look->is_start)) {
        keep_known(&module);
        look->has_found = true;
    }
    return 0;
}

static _Atomic bool is_on;

static int read_library(struct dl_phdr_info *info, size_t size, void *unused)
{
    (void)size;
    (void)unused;
    struct module module;
    if (!range_has(object_range(info), (uintptr_t)library.vsnprintf))
        return 0;
    read_module(&module, info);
    library_object = module.object;
    return 1;
}

/* Whether the loader has filled all slots that there are, and has yet to make some read-only. */
#ifdef IS_PRELOAD
enum { IS_AT_START = false };
#else
enum { IS_AT_START = true };
#endif

void plain_begin(void)
{
    const struct hook_page *hook_page = HOOK_PAGE;
    if (hook_page->library.size == 0 || !recorder_checks_libraries())
        return;
    enter_stubs();
    library.dl_iterate_phdr(read_library, NULL);
#ifdef IS_PRELOAD
    preload_choice_find_behind(&library_object);
#endif
    library.dl_iterate_phdr(look_at, &(struct look){.is_start = IS_AT_START});
    atomic_store(&is_on, true);
}

void plain_look_again(void)
{
    if (is_on)
        library.dl_iterate_phdr(look_at, &(struct look){.is_start = false});
}

/* It has its place in the map of modules too. */
static void look_for_opened(void)
{
    struct look look = {.is_start = false};
    if (!is_on)
        return;
    library.dl_iterate_phdr(look_at, &look);
    if (look.has_found) {
        unwinding_modules_changed();
        stream_write_modules();
    }
}

/* What asancol-run preloads into the programs of a run, so that it knows of those that asancol-cc did not build. It
   looks for the note of asancol-cc in the program, and leaves a mark (program_marks.h). Programs of the system leave
   none.

   It changes nothing else: it has no symbol and no thread-local memory, needs no library, and makes two calls of the
   system. There is one for each kind of processor that the system starts programs for, since the loader says so if it
   finds none. Its file's name has libasan.so in it: AddressSanitizer's runtime ends a program in which another object
   comes before it, unless that is its own, as it knows by this.

   Called: by the dynamic linker, once, in the first thread, before the constructors of the program; no lock. The C
   library need not have begun. */
#include <stddef.h>
#include <stdint.h>

#include "common/hash.h"
#include "common/program_marks.h"
#include "environment/link_note.h"

/* The recorder names what has no note (unchecked.c). */
__attribute__((section(LINK_NOTE_SECTION), aligned(4), used)) static const struct {
    uint32_t owner_size, text_size, type;
    char owner[sizeof LINK_NOTE_OWNER], text[sizeof LINK_NOTE_KNOWN];
} own_note = {sizeof LINK_NOTE_OWNER, sizeof LINK_NOTE_KNOWN, LINK_NOTE_TYPE, LINK_NOTE_OWNER, LINK_NOTE_KNOWN};

#if defined __x86_64__
enum { READLINKAT = 267, SYMLINKAT = 266 };
#elif defined __i386__
enum { READLINKAT = 305, SYMLINKAT = 304 };
#else
enum { READLINKAT = 78, SYMLINKAT = 36 };
#endif
enum { CURRENT_FOLDER = -100 };

static long call_system(long number, uintptr_t first, uintptr_t second, uintptr_t third, uintptr_t fourth)
{
#if defined __x86_64__
    register uintptr_t last __asm__("r10") = fourth;
    __asm__ volatile("syscall" : "+a"(number) : "D"(first), "S"(second), "d"(third), "r"(last)
                     : "rcx", "r11", "memory");
#elif defined __i386__
    __asm__ volatile("int $0x80" : "+a"(number) : "b"(first), "c"(second), "d"(third), "S"(fourth) : "memory");
#else
    register long which __asm__("x8") = number;
    register uintptr_t result __asm__("x0") = first, next __asm__("x1") = second;
    register uintptr_t after __asm__("x2") = third, last __asm__("x3") = fourth;
    __asm__ volatile("svc 0" : "+r"(result) : "r"(which), "r"(next), "r"(after), "r"(last) : "memory");
    number = (long)result;
#endif
    return number;
}

/* What the system says to a program, behind its environment. */
struct given {
    uintptr_t what, value;
};
enum { GIVEN_SEGMENTS = 3, GIVEN_COUNT = 5 };

/* A program header, as ELF has it. */
struct program_segment {
    uint32_t type;
#if UINTPTR_MAX > UINT32_MAX
    uint32_t flags;
#endif
    uintptr_t offset, address, physical, size_in_file, size;
#if UINTPTR_MAX == UINT32_MAX
    uint32_t flags;
#endif
    uintptr_t alignment;
};
enum { SEGMENT_LOADED = 1, SEGMENT_NOTES = 4, SEGMENT_HEADERS = 6 };

struct program {
    const struct program_segment *segments;
    size_t count;
    uintptr_t base;
};

static size_t length_of(const char *text)
{
    size_t length = 0;
    while (text[length] != 0)
        length++;
    return length;
}

/* Where a text goes on behind this beginning; or null. */
static const char *after(const char *text, const char *beginning)
{
    for (; *beginning != 0; text++, beginning++)
        if (*text != *beginning)
            return NULL;
    return text;
}

static int has_note(const char *at, const char *end)
{
    enum { HEAD = 3 * sizeof(uint32_t) };
    while (at < end && (size_t)(end - at) >= HEAD + sizeof LINK_NOTE_OWNER) {
        const uint32_t *sizes = (const void *)at;
        if (sizes[0] == sizeof LINK_NOTE_OWNER && sizes[2] == LINK_NOTE_TYPE && after(at + HEAD, LINK_NOTE_OWNER))
            return 1;
        size_t size = HEAD + ((size_t)sizes[0] + 3) / 4 * 4 + ((size_t)sizes[1] + 3) / 4 * 4;
        if (size > (size_t)(end - at))
            return 0;
        at += size;
    }
    return 0;
}

static int is_loaded(const struct program *program, const struct program_segment *notes)
{
    for (size_t i = 0; i < program->count; i++) {
        const struct program_segment *it = &program->segments[i];
        if (it->type == SEGMENT_LOADED && notes->address >= it->address
            && notes->address - it->address + notes->size_in_file <= it->size_in_file)
            return 1;
    }
    return 0;
}

static int is_ours(const struct program *program)
{
    for (size_t i = 0; i < program->count; i++) {
        const struct program_segment *it = &program->segments[i];
        const char *notes = (const char *)(program->base + it->address);
        if (it->type == SEGMENT_NOTES && is_loaded(program, it) && has_note(notes, notes + it->size_in_file))
            return 1;
    }
    return 0;
}

/* The program, by what stands behind the environment. A linker notes where the headers are if it may be moved. */
static struct program find_program(const struct given *given)
{
    struct program program = {NULL, 0, 0};
    for (; given->what != 0; given++) {
        if (given->what == GIVEN_SEGMENTS)
            program.segments = (const void *)given->value;
        else if (given->what == GIVEN_COUNT)
            program.count = given->value;
    }
    for (size_t i = 0; program.segments != NULL && i < program.count; i++)
        if (program.segments[i].type == SEGMENT_HEADERS)
            program.base = (uintptr_t)program.segments - program.segments[i].address;
    return program;
}

/* Whether a program is the system's, or one of asancol's own: nobody builds it to be checked. */
static int is_of_system(const char *path)
{
    static const char folders[][12] = {"/usr/", "/bin/", "/sbin/", "/lib/", "/lib32/", "/lib64/", "/libx32/",
                                       "/nix/store/", "/gnu/store/"};
    const char *name = path;
    for (const char *at = path; *at != 0; at++)
        name = *at == '/' ? at + 1 : name;
    if (after(name, "asancol"))
        return 1;
    if (after(path, "/usr/src/") || after(path, "/usr/local/src/"))
        return 0;
    for (size_t i = 0; i < sizeof folders / sizeof *folders; i++)
        if (after(path, folders[i]))
            return 1;
    return 0;
}

/* The name of the mark: in the folder of the hub. 0: it has none, or no room. */
static int put_name(char *name, size_t room, const char *hub, const char *front, const char *path)
{
    size_t length = 0, slash = 0, size = length_of(path);
    for (; hub[length] != 0; length++)
        slash = hub[length] == '/' ? length : slash;
    if (slash == 0 || slash + 1 + length_of(front) + 2 * sizeof(uint32_t) * 2 >= room)
        return 0;
    for (size_t i = 0; i <= slash; i++)
        *name++ = hub[i];
    while (*front != 0)
        *name++ = *front++;
    uint32_t hashes[] = {hash_of(path, size), hash_of(path, size / 2)};
    for (size_t i = 0; i < sizeof hashes * 2; i++)
        *name++ = (char)('a' + (hashes[i / 8] >> i % 8 * 4 & 15));
    *name = 0;
    return 1;
}

/* The initial function of the object (-init): the arguments are those of main. */
__attribute__((visibility("hidden"))) void program_mark(int count, char **arguments, char **environment)
{
    char path[4096], name[256];
    const char *hub = NULL;
    (void)count;
    (void)arguments;
    for (; *environment != NULL; environment++)
        hub = hub == NULL ? after(*environment, "ASANCOL_HUB=") : hub;
    if (hub == NULL)
        return;
    long length = call_system(READLINKAT, (uintptr_t)CURRENT_FOLDER, (uintptr_t) "/proc/self/exe", (uintptr_t)path,
                              sizeof path - 1);
    path[length > 0 ? length : 0] = 0;
    if (path[0] != '/' || is_of_system(path))
        return;
    struct program program = find_program((const void *)(environment + 1));
    if (put_name(name, sizeof name, hub, is_ours(&program) ? MARK_OURS : MARK_OTHERS, path))
        call_system(SYMLINKAT, (uintptr_t)path, (uintptr_t)CURRENT_FOLDER, (uintptr_t)name, 0);
}

/* A file is looked at by its sections: switches that were noted, symbols that are asked for, texts that are loaded. The
   result is struct linked. */
#define _GNU_SOURCE
#include "wrapper/linked.h"

#include <stdio.h>
#include <string.h>

#include "common/array.h"
#include "common/text.h"
#include "wrapper/checked_names.h"
#include "wrapper/left_out.h"

/* How the files begin: an object; what Clang makes with -flto, in two forms; archives. */
#define OBJECT ELFMAG
#define BITCODE "BC\xc0\xde"
#define WRAPPED_BITCODE "\xde\xc0\x17\x0b"
#define ARCHIVE "!<arch>\n"
#define THIN_ARCHIVE "!<thin>\n"

/* rustc notes no switches, but who it is. What it compiles with checks asks for what prepares them. */
#define COMMENT ".comment"
#define RUST "rustc version "
#define CHECKS_ASKED_FOR "__asan_init"

/* What rustc makes beside the crates has no other names: these lead to the allocator. */
#define RUST_OWN "__rust_"

/* The crates of its library, which come compiled. An object has the name of its crate, and a point. */
static const char *const rust_crates[] = {
    "addr2line", "adler", "adler2", "alloc", "cfg_if", "compiler_builtins", "core", "gimli", "hashbrown", "libc",
    "memchr", "miniz_oxide", "object", "panic_abort", "panic_unwind", "rustc_demangle", "std", "std_detect", "unwind"};

/* The sections in which GCC keeps what it compiles at the link. */
#define GCC_LTO ".gnu.lto_"

/* Whether a word of noted switches begins here. Blanks are between words, and zeros around all of them. Clang writes a
   backslash before a blank in a word, and before a backslash. */
static bool begins_word(struct view view, const char *at)
{
    size_t backslashes = 0;
    if (at == view.bytes || at[-1] == 0)
        return true;
    if (at[-1] != ' ')
        return false;
    for (const char *before = at - 1; before > view.bytes && before[-1] == '\\'; before--)
        backslashes++;
    return backslashes % 2 == 0;
}

/* Whether the mark is a whole word of noted switches: it may also be a piece of another one, as of a macro. */
static bool has_mark(struct view view)
{
    const size_t length = strlen(COMPILED_SO);
    struct view rest = view;
    while (view_has_text(rest, COMPILED_SO)) {
        const char *found = memmem(rest.bytes, rest.size, COMPILED_SO, length), *after = found + length;
        rest = (struct view){after, (size_t)(view.bytes + view.size - after)};
        if (begins_word(view, found) && (rest.size == 0 || *after == 0 || *after == ' '))
            return true;
    }
    return false;
}

/* Takes the next word of noted switches, as much of it as there is room for. False: there are no more. */
static bool next_word(struct view *rest, char *word, size_t room)
{
    size_t length = 0;
    while (length < rest->size && (rest->bytes[length] == 0 || rest->bytes[length] == ' '))
        length++;
    *rest = (struct view){rest->bytes + length, rest->size - length};
    for (length = 0; length < rest->size && rest->bytes[length] != 0; length++)
        if (rest->bytes[length] == ' ' && begins_word(*rest, rest->bytes + length + 1))
            break;
    snprintf(word, room, "%.*s", (int)length, rest->bytes);
    *rest = (struct view){rest->bytes + length, rest->size - length};
    return length != 0;
}

/* Whether noted switches take a check away. GCC's begin with its name, and have parameters in one form; Clang's are as
   they were given. */
static bool lacks_checks(struct view switches)
{
    static const char gcc[] = "GNU", parameter[] = "--param=", llvm[] = "-mllvm", to_inner[] = "-Xclang";
    struct left_out left_out = {0};
    char word[64];
    bool is_gcc = next_word(&switches, word, sizeof word) && strcmp(word, gcc) == 0;
    for (bool is_llvm = false; next_word(&switches, word, sizeof word);) {
        if (is_llvm)
            left_out_take(&left_out, CHECK_LLVM, word);
        else if (begins_with(word, parameter))
            left_out_take(&left_out, CHECK_PARAMETER, word + strlen(parameter));
        else
            left_out_take(&left_out, CHECK_OPTION, word);
        is_llvm = strcmp(word, llvm) == 0 || strcmp(word, to_inner) == 0;
    }
    bool lacks = left_out_any(&left_out, is_gcc ? CHECKS_OF_GCC : CHECKS_OF_CLANG);
    left_out_free(&left_out);
    return lacks;
}

static bool is_bitcode(struct view view)
{
    return view_begins(view, BITCODE) || view_begins(view, WRAPPED_BITCODE);
}

static bool is_of_type(struct view view, Elf64_Half type)
{
    Elf64_Ehdr header;
    if (!view_begins(view, OBJECT) || view.size < sizeof header)
        return false;
    memcpy(&header, view.bytes, sizeof header);
    return header.e_type == type;
}

/* An object that is to be linked, and neither a program nor a shared object. */
static bool is_object(struct view view)
{
    return is_of_type(view, ET_REL) || is_bitcode(view);
}

bool linked_is_library(struct view view)
{
    return is_of_type(view, ET_DYN);
}

bool linked_takes(const char *path)
{
    struct view view = view_map(path);
    bool takes = view_begins(view, OBJECT) || is_object(view) || view_begins(view, ARCHIVE)
                 || view_begins(view, THIN_ARCHIVE);
    view_unmap(view);
    return takes;
}

/* What an object has of what matters here. */
struct parts {
    bool has_code, has_variables, has_lto;
    bool has_assembly; /* a label in code that is no function: no compiler makes one */
    bool is_of_rust;   /* rustc has made some of it */
    bool asks_checks;  /* of code compiled with checks */
    bool is_sanitized; /* checks that end in AddressSanitizer's runtime */
    bool has_own_names; /* functions or variables whose names are not rustc's */
    bool is_rust_own;   /* a crate of Rust's library */
    size_t files;  /* sources that the table of symbols names */
    size_t marked; /* those of them compiled this way */
    size_t whole;  /* and have all checks */
};

static bool is_called(struct view names, const Elf64_Shdr *section, const char *name, bool is_front)
{
    if (section->sh_name >= names.size)
        return false;
    const char *found = names.bytes + section->sh_name;
    return is_front ? strncmp(found, name, strlen(name)) == 0 : strcmp(found, name) == 0;
}

static void count_marked(struct parts *parts, struct view switches)
{
    while (switches.size > 0) {
        size_t length = strnlen(switches.bytes, switches.size);
        struct view one = {switches.bytes, length};
        bool is_marked = has_mark(one);
        parts->marked += is_marked;
        parts->whole += is_marked && !lacks_checks(one);
        length += length < switches.size;
        switches = (struct view){switches.bytes + length, switches.size - length};
    }
}

static bool is_of_rust_crate(const char *name)
{
    for (size_t i = 0; i < COUNT(rust_crates); i++)
        if (begins_with(name, rust_crates[i]) && name[strlen(rust_crates[i])] == '.')
            return true;
    return false;
}

static bool is_in_code(struct view view, const Elf64_Sym *symbol)
{
    size_t number = symbol->st_shndx;
    return number != SHN_UNDEF && number < SHN_LORESERVE && number < view_section_count(view)
           && (view_section(view, number).sh_flags & SHF_EXECINSTR) != 0;
}

/* Whether a name is one by which an assembler for ARM says where code begins, and where data in code. */
static bool is_mapping(const char *name)
{
    return name[0] == '$' && (name[1] == 'x' || name[1] == 'd') && (name[2] == 0 || name[2] == '.');
}

/* Whether it is what AddressSanitizer's runtime has and the recorder has not: its reports end the program. */
static bool is_sanitizers_report(const char *name)
{
    return (begins_with(name, "__asan_report_load") || begins_with(name, "__asan_report_store"))
           && !ends_with(name, "_noabort");
}

static void count_symbols(struct parts *parts, struct view view, const Elf64_Shdr *section)
{
    struct view table = view_of_section(view, section), texts = view_texts(view, section->sh_link);
    for (size_t at = 0; texts.size != 0 && table.size - at >= sizeof(Elf64_Sym); at += sizeof(Elf64_Sym)) {
        Elf64_Sym it;
        memcpy(&it, table.bytes + at, sizeof it);
        unsigned type = ELF64_ST_TYPE(it.st_info);
        const char *name = it.st_name < texts.size ? texts.bytes + it.st_name : "";
        bool is_defined = it.st_shndx != SHN_UNDEF;
        parts->files += type == STT_FILE && name[0] != 0;
        parts->is_rust_own |= type == STT_FILE && is_of_rust_crate(name);
        parts->asks_checks |= !is_defined && strcmp(name, CHECKS_ASKED_FOR) == 0;
        parts->is_sanitized |= !is_defined && is_sanitizers_report(name);
        bool is_name = is_defined && (type == STT_FUNC || type == STT_OBJECT);
        if (is_name && !parts->has_own_names)
            parts->has_own_names = strstr(name, RUST_OWN) == NULL;
        parts->has_assembly |= type == STT_NOTYPE && name[0] != 0 && strncmp(name, ".L", 2) != 0
                               && !is_mapping(name) && is_in_code(view, &it);
        parts->has_variables |= is_defined && (type == STT_OBJECT || type == STT_TLS);
    }
}

/* What the sections of an object have in them. */
static struct parts parts_of(struct view view)
{
    struct parts parts = {0};
    size_t count = view_section_count(view);
    struct view names = view_names(view);
    for (size_t i = 0; i < count; i++) {
        Elf64_Shdr section = view_section(view, i);
        struct view bytes = view_of_section(view, &section);
        parts.has_code |= (section.sh_flags & SHF_EXECINSTR) != 0 && section.sh_size > 0;
        parts.has_lto |= is_called(names, &section, GCC_LTO, true);
        if (is_called(names, &section, LINKED_SWITCHES, false))
            count_marked(&parts, bytes);
        if (is_called(names, &section, COMMENT, false))
            parts.is_of_rust |= view_has_text(bytes, RUST);
        if (section.sh_type == SHT_SYMTAB)
            count_symbols(&parts, view, &section);
    }
    return parts;
}

static bool is_checked_rust(const struct parts *parts)
{
    return parts->is_of_rust && parts->asks_checks;
}

/* Whether a text is in what comes into memory, or is a name. A file of ELF has most of its bytes for debuggers. */
static bool has_loaded_text(struct view view, const char *text)
{
    size_t count = view_section_count(view);
    bool has = count == 0 && view_has_text(view, text);
    for (size_t i = 0; i < count && !has; i++) {
        Elf64_Shdr section = view_section(view, i);
        if ((section.sh_flags & SHF_ALLOC) != 0 || section.sh_type == SHT_STRTAB)
            has = view_has_text(view_of_section(view, &section), text);
    }
    return has;
}

/* What matters of a file before the link. */
struct look {
    bool is_marked; /* some of it was compiled this way */
    bool is_lto;
    bool is_sanitized; /* its checks are for AddressSanitizer's runtime */
};

/* Whether a file was compiled this way, and whether it is compiled at the link: by its sections, or else its bytes. */
static struct look look_at(struct view view)
{
    if (view_section_count(view) != 0) {
        struct parts parts = parts_of(view);
        return (struct look){parts.marked != 0 || is_checked_rust(&parts), parts.has_lto, parts.is_sanitized};
    }
    bool is_lto = view_has_text(view, GCC_LTO), is_elf = view_begins(view, OBJECT);
    if (is_bitcode(view))
        return (struct look){has_mark(view), is_lto, false};
    if (is_elf || view_begins(view, ARCHIVE))
        return (struct look){is_lto && has_mark(view), is_lto, false};
    return (struct look){view_has_text(view, LINKED_SWITCHES), is_lto, false};
}

/* A member of an archive comes in only if something asks for it, and then the callbacks come in by themselves: so an
   archive counts only for what GCC will compile. */
void linked_look_at(struct linked *linked, const char *path)
{
    struct view view = view_map(path);
    bool is_elf = view_begins(view, OBJECT), is_one = is_object(view);
    bool is_library = view_begins(view, ARCHIVE) || (is_elf && !is_one);
    struct look look = look_at(view);
    linked->has_marked |= look.is_marked && (!is_library || look.is_lto);
    linked->has_lto |= look.is_lto;
    linked->has_bitcode |= is_bitcode(view);
    linked->may_open |= has_loaded_text(view, "dlopen");
    if (!is_library && !look.is_marked && look.is_lto && linked->unmarked_lto == NULL)
        linked->unmarked_lto = strdup(path);
    if (is_one && look.is_sanitized && linked->sanitized == NULL)
        linked->sanitized = strdup(path);
    view_unmap(view);
}

bool linked_is_marked_text(const char *path)
{
    struct view view = view_map(path);
    bool is_marked = is_bitcode(view) ? has_mark(view) : view_has_text(view, LINKED_SWITCHES);
    view_unmap(view);
    return is_marked;
}

/* An object that `ld -r` has made has the switches of each of its parts, and the name of each source that was compiled.
   If that linker has kept but one of those that are the same, or no name, nobody can say whose its parts are. */
enum origin linked_origin(struct view view)
{
    if (!is_object(view))
        return ORIGIN_NONE;
    if (is_bitcode(view))
        return has_mark(view) && !lacks_checks(view) ? ORIGIN_OURS : ORIGIN_OTHERS;
    struct parts parts = parts_of(view);
    bool is_rust = is_checked_rust(&parts);
    if (!parts.has_code && !parts.has_variables && !parts.has_lto)
        return ORIGIN_NONE;
    if (parts.is_of_rust && (parts.is_rust_own || !parts.has_own_names) && !parts.asks_checks)
        return ORIGIN_NONE;
    bool is_ours = is_rust || (parts.files != 0 && parts.whole >= parts.files);
    if (!is_ours || parts.has_assembly)
        return ORIGIN_OTHERS;
    /* They are not if the wrapper was killed before its compiler had ended, for one. */
    return checked_names_are_given(view) ? ORIGIN_OURS : ORIGIN_OTHERS;
}

/* A hash table of the names in the archive's index, and of an object its tables of symbols, to which new texts are
   appended. */
#define _GNU_SOURCE
#include "wrapper/checked_names.h"

#include <ar.h>
#include <elf.h>
#include <errno.h>
#include <limits.h>
#include <stdint.h>
#include <stdio.h>
#include <stdlib.h>
#include <string.h>
#include <sys/stat.h>
#include <unistd.h>

#include "common/hash.h"
#include "common/must.h"
#include "common/text.h"
#include "wrapper/say.h"
#include "wrapper/self.h"
#include "wrapper/view.h"

#define SUFFIX ".asancol"

/* The names of the archive, without the suffix: each lies in a place that its hash says, or after it. */
struct known {
    const char **names;
    size_t room; /* a power of two; 0: there is no archive, or none of them */
};

static size_t length_without(const char *name)
{
    return strlen(name) - (sizeof SUFFIX - 1);
}

/* Where a name of this length is, or where it would be. */
static const char **place_of(const struct known *known, const char *name, size_t length)
{
    size_t at = hash_of(name, length) & (known->room - 1);
    for (; known->names[at] != NULL; at = (at + 1) & (known->room - 1))
        if (length_without(known->names[at]) == length && memcmp(known->names[at], name, length) == 0)
            break;
    return &known->names[at];
}

/* The index of an archive is its first member: how many names, as many offsets, and then the names, with a zero after
   each. */
static struct view index_of(struct view archive, size_t *count)
{
    const size_t start = SARMAG + sizeof(struct ar_hdr);
    struct ar_hdr header;
    unsigned char digits[sizeof(uint32_t)];
    if (!view_begins(archive, ARMAG "/ ") || archive.size < start + sizeof digits)
        return (struct view){NULL, 0};
    memcpy(&header, archive.bytes + SARMAG, sizeof header);
    memcpy(digits, archive.bytes + start, sizeof digits);
    *count = 0;
    for (size_t i = 0; i < sizeof digits; i++)
        *count = *count << 8 | digits[i];
    size_t size = strtoul(header.ar_size, NULL, 10), at = sizeof digits + *count * sizeof(uint32_t);
    if (size > archive.size - start || at >= size || archive.bytes[start + size - 1] != 0)
        return (struct view){NULL, 0};
    return (struct view){archive.bytes + start + at, size - at};
}

/* The names in the index of the archive, as a hash table. */
static struct known read_names(void)
{
    struct known known = {NULL, 0};
    size_t count = 0;
    struct view names = index_of(view_map(self_file(CHECKED_ARCHIVE)), &count);
    if (names.size == 0)
        return known;
    for (known.room = 1; known.room < 2 * count; known.room *= 2) {
    }
    known.names = must(calloc(known.room, sizeof *known.names));
    for (const char *name = names.bytes; name < names.bytes + names.size; name += strlen(name) + 1)
        if (ends_with(name, SUFFIX))
            *place_of(&known, name, length_without(name)) = name;
    return known;
}

/* The archive is read once, and only if an object asks for anything of C++. */
static bool is_known(const char *name)
{
    static struct known known;
    static bool is_read;
    if (!is_read)
        known = read_names();
    is_read = true;
    return known.room != 0 && *place_of(&known, name, strlen(name)) != NULL;
}

/* How an object asks for a symbol. */
enum { BY_CALL = 1, OTHERWISE = 2 };

/* For each symbol of a table. An address that is taken stays that of the old name: all parts of a process have the same
   one for it, also those compiled otherwise. Tables of virtual functions have no such identity. */
static unsigned char *how_asked(struct view view, size_t table, size_t count)
{
    unsigned char *how = must(calloc(count + 1, 1));
    size_t sections = view_section_count(view);
    for (size_t i = 0; i < sections; i++) {
        Elf64_Shdr section = view_section(view, i);
        struct view bytes = view_of_section(view, &section);
        Elf64_Rela it;
        if (section.sh_type != SHT_RELA || section.sh_link != table)
            continue;
        for (size_t at = 0; bytes.size - at >= sizeof it; at += sizeof it) {
            memcpy(&it, bytes.bytes + at, sizeof it);
            if (ELF64_R_SYM(it.r_info) < count)
                how[ELF64_R_SYM(it.r_info)] |= ELF64_R_TYPE(it.r_info) == R_X86_64_PLT32 ? BY_CALL : OTHERWISE;
        }
    }
    return how;
}

/* A table of symbols, in which names are changed. */
struct table {
    struct view object, symbols, texts;
    size_t section;
    unsigned char *how; /* once one is known */
};

static size_t symbol_count(const struct table *table)
{
    return table->symbols.size / sizeof(Elf64_Sym);
}

static Elf64_Sym symbol_at(const struct table *table, size_t number)
{
    Elf64_Sym symbol;
    memcpy(&symbol, table->symbols.bytes + number * sizeof symbol, sizeof symbol);
    return symbol;
}

/* The name that a symbol has and shall not keep; or null. */
static const char *changed_name(struct table *table, size_t number)
{
    Elf64_Sym symbol = symbol_at(table, number);
    const char *name = symbol.st_name < table->texts.size ? table->texts.bytes + symbol.st_name : "";
    if (symbol.st_shndx != SHN_UNDEF || !begins_with(name, "_Z"))
        return NULL;
    if (!is_known(name))
        return NULL;
    if (begins_with(name, "_ZTV") || begins_with(name, "_ZTT"))
        return name;
    if (table->how == NULL)
        table->how = how_asked(table->object, table->section, symbol_count(table));
    return table->how[number] == BY_CALL ? name : NULL;
}

/* False: it has none. */
static bool find_table(struct view view, struct table *table)
{
    size_t sections = view_section_count(view), number = 0;
    while (number < sections && view_section(view, number).sh_type != SHT_SYMTAB)
        number++;
    if (number == sections)
        return false;
    Elf64_Shdr section = view_section(view, number);
    struct view symbols = view_of_section(view, &section), texts = view_texts(view, section.sh_link);
    *table = (struct table){.object = view, .symbols = symbols, .texts = texts, .section = number};
    return texts.size != 0;
}

bool checked_names_are_given(struct view view)
{
    struct table table;
    bool are_given = true;
    if (!find_table(view, &table))
        return true;
    for (size_t i = 0; are_given && i < symbol_count(&table); i++)
        are_given = changed_name(&table, i) == NULL;
    free(table.how);
    return are_given;
}

/* An object that is being changed, and the texts of its names as they become. */
struct object {
    char *bytes;
    size_t size;
    char *texts;
    size_t texts_size;
};

/* Gives each undefined symbol that the archive has the archive's name, as a new text. */
static void change_symbols(struct object *object, struct table *table, FILE *texts)
{
    char *symbols = object->bytes + (table->symbols.bytes - table->object.bytes);
    for (size_t i = 0; i < symbol_count(table); i++) {
        Elf64_Sym symbol = symbol_at(table, i);
        const char *name = changed_name(table, i);
        if (name == NULL)
            continue;
        symbol.st_name = (Elf64_Word)ftell(texts);
        memcpy(symbols + i * sizeof symbol, &symbol, sizeof symbol);
        fprintf(texts, "%s%s%c", name, SUFFIX, 0);
    }
}

/* The texts come behind all else, where there is room for more of them. */
static void change(struct object *object, struct view view)
{
    struct table table;
    if (!find_table(view, &table))
        return;
    object->bytes = memcpy(must(malloc(view.size)), view.bytes, view.size);
    FILE *texts = must(open_memstream(&object->texts, &object->texts_size));
    fwrite(table.texts.bytes, 1, table.texts.size, texts);
    change_symbols(object, &table, texts);
    fclose(texts);
    if (object->texts_size == table.texts.size)
        object->texts_size = 0; /* nothing has changed */
    size_t sections = view_section_count(view);
    for (size_t i = 0; i < sections; i++) {
        Elf64_Ehdr header;
        Elf64_Shdr section = view_section(view, i);
        memcpy(&header, view.bytes, sizeof header);
        if (view.bytes + section.sh_offset != table.texts.bytes || section.sh_type != SHT_STRTAB)
            continue;
        section.sh_offset = object->size;
        section.sh_size = object->texts_size;
        memcpy(object->bytes + header.e_shoff + i * sizeof section, &section, sizeof section);
    }
    free(table.how);
}

static bool write_object(const struct object *object, FILE *file)
{
    bool is_written = fwrite(object->bytes, 1, object->size, file) == object->size
                      && fwrite(object->texts, 1, object->texts_size, file) == object->texts_size;
    return (fclose(file) == 0) & is_written;
}

/* Another file takes its place, since the one that the compiler made may have other names, as in a store of objects.
   Where there can be no other, it is written itself. */
static void replace(const char *path, const struct object *object)
{
    char *other;
    struct stat seen;
    bool is_done = false;
    if (asprintf(&other, "%.*s.asancol-XXXXXX", (int)(base_name(path) - path), path) < 0)
        no_memory();
    int descriptor = stat(path, &seen) == 0 ? mkstemp(other) : -1;
    FILE *file = descriptor >= 0 ? fdopen(descriptor, "wb") : fopen(path, "wb");
    if (file != NULL && descriptor >= 0)
        is_done = fchmod(descriptor, seen.st_mode & ALLPERMS) == 0;
    if (file != NULL)
        is_done = write_object(object, file) && (descriptor < 0 || (is_done && rename(other, path) == 0));
    if (!is_done) {
        int error = errno;
        if (descriptor >= 0)
            unlink(other);
        unlink(path);
        fail(path, strerror(error));
    }
    free(other);
}

bool checked_names_give(const char *path)
{
    struct view view = view_map(path);
    struct object object = {.size = view.size};
    size_t sections = view_section_count(view);
    change(&object, view);
    view_unmap(view);
    if (object.texts_size != 0)
        replace(path, &object);
    free(object.bytes);
    free(object.texts);
    return sections != 0;
}

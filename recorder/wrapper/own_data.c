/* One pass over the symbols of the linker's output. */
#define _GNU_SOURCE
#include "wrapper/own_data.h"

#include <string.h>

#include "common/text.h"
#include "wrapper/view.h"

struct search {
    struct view view;
    const char *const *names;
    size_t count;
    const struct names *asked_for;
    struct own_data *found;
};

static bool is_variable(const Elf64_Sym *symbol)
{
    unsigned type = ELF64_ST_TYPE(symbol->st_info);
    return symbol->st_shndx != SHN_UNDEF && (type == STT_OBJECT || type == STT_TLS || type == STT_NOTYPE);
}

/* A variable of one file alone matters to no other. A hidden one is local too: some linkers keep that it was hidden,
   and others have it after a nameless file. */
static bool is_of_one_file(const Elf64_Sym *symbol, bool has_file)
{
    return ELF64_ST_BIND(symbol->st_info) == STB_LOCAL && ELF64_ST_VISIBILITY(symbol->st_other) == STV_DEFAULT
           && has_file;
}

static void look_for(struct search *search, const char *name)
{
    for (size_t i = 0; i < search->count; i++)
        if (strcmp(name, search->names[i]) == 0)
            search->found->is_own[i] = search->found->has_own = true;
}

/* The recorder's own are weak, except those of the operators. mold makes all of them local, and so keeps no sign. */
static void look_at_wrap(struct search *search, const Elf64_Sym *symbol, const char *name)
{
    static const char front[] = "__wrap_", operator_front[] = "__wrap__Z";
    struct own_data *found = search->found;
    bool is_there = symbol->st_shndx != SHN_UNDEF, is_strong = ELF64_ST_BIND(symbol->st_info) == STB_GLOBAL;
    if (!begins_with(name, front) || begins_with(name, operator_front)
        || names_have(search->asked_for, name + strlen(front)))
        return;
    found->lacks_a_call |= !is_there && !is_strong;
    for (size_t i = 0; is_there && is_strong && i < search->count && found->unasked == NULL; i++)
        if (strcmp(name + strlen(front), search->names[i]) == 0)
            found->unasked = strdup(name);
}

static void look_at_table(struct search *search, const Elf64_Shdr *section)
{
    struct view table = view_of_section(search->view, section);
    struct view texts = view_texts(search->view, section->sh_link);
    bool has_file = true;
    for (size_t at = 0; texts.size != 0 && table.size - at >= sizeof(Elf64_Sym); at += sizeof(Elf64_Sym)) {
        Elf64_Sym it;
        memcpy(&it, table.bytes + at, sizeof it); /* it may lie anywhere */
        const char *name = texts.bytes + (it.st_name < texts.size ? it.st_name : texts.size - 1);
        if (ELF64_ST_TYPE(it.st_info) == STT_FILE)
            has_file = name[0] != 0;
        else if (is_variable(&it) && !is_of_one_file(&it, has_file))
            look_for(search, name);
        else
            look_at_wrap(search, &it, name);
        search->found->has_every_call |= it.st_shndx != SHN_UNDEF && strcmp(name, EVERY_CALL) == 0;
    }
}

void own_data_find(const char *path, const char *const *names, size_t count, const struct names *asked_for,
                   struct own_data *found)
{
    struct search search = {view_map(path), names, count, asked_for, found};
    size_t sections = view_section_count(search.view);
    for (size_t i = 0; i < sections; i++) {
        Elf64_Shdr section = view_section(search.view, i);
        if (section.sh_type == SHT_SYMTAB)
            look_at_table(&search, &section);
    }
    view_unmap(search.view);
}

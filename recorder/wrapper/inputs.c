/* The table `suffixes` of the ends of names; a file with another end is looked into. */
#define _GNU_SOURCE
#include "wrapper/inputs.h"

#include <string.h>

#include "common/array.h"
#include "common/must.h"
#include "common/text.h"

/* The ends of names. What ends otherwise is compiled, unless its first bytes say that the linker takes it. */
static const struct suffix {
    const char *end;
    enum input input;
} suffixes[] = {
    {".o", INPUT_OBJECT},        {".a", INPUT_OBJECT},          {".so", INPUT_OBJECT},
    {".lo", INPUT_OBJECT},       {".obj", INPUT_OBJECT},        {".s", INPUT_ASSEMBLED},
    {".S", INPUT_ASSEMBLY},      {".sx", INPUT_ASSEMBLY},       {".asm", INPUT_ASSEMBLY},
    {".ll", INPUT_ASSEMBLY},     {".i", INPUT_PREPROCESSED},    {".ii", INPUT_PREPROCESSED},
    {".mi", INPUT_PREPROCESSED}, {".mii", INPUT_PREPROCESSED},  {".pcm", INPUT_PREPROCESSED},
    {".ast", INPUT_PREPROCESSED}, {".h", INPUT_HEADER},         {".hh", INPUT_HEADER},
    {".hpp", INPUT_HEADER},      {".hxx", INPUT_HEADER},
};

/* What Clang makes with -flto is linked by its bytes, and may have no checks. */
#define BITCODE ".bc"

struct language language_of(const char *name)
{
    struct language language = {strcmp(name, "none") != 0, INPUT_TEXT};
    if (begins_with(name, "assembler") || strcmp(name, "ir") == 0)
        language.input = INPUT_ASSEMBLY;
    else if (strcmp(name, "cpp-output") == 0 || ends_with(name, "-cpp-output"))
        language.input = INPUT_PREPROCESSED;
    else if (ends_with(name, "-header"))
        language.input = INPUT_HEADER;
    return language;
}

/* By the end of the name, or else by the first bytes of the file. */
static enum input input_of(const char *path)
{
    for (size_t i = 0; i < COUNT(suffixes); i++)
        if (ends_with(path, suffixes[i].end) && (suffixes[i].input <= INPUT_ASSEMBLED || !linked_takes(path)))
            return suffixes[i].input;
    if (strstr(path, ".so.") != NULL)
        return INPUT_OBJECT;
    if (linked_takes(path))
        return ends_with(path, BITCODE) ? INPUT_ASSEMBLED : INPUT_OBJECT;
    return INPUT_TEXT;
}

void inputs_add_file(struct request *request, const char *path)
{
    struct link_request *link = &request->link;
    link->has_libm |= begins_with(base_name(path), "libm.so");
    link->needs_every_call |= ends_with(path, ".so") || strstr(path, ".so.") != NULL;
    if (begins_with(base_name(path), "libstdc++."))
        link->cxx = must(strdup(path));
}

void inputs_add(struct request *request, struct language language, const char *path)
{
    struct inputs *inputs = &request->inputs;
    enum input input = language.is_named ? language.input : input_of(path);
    inputs->has_any = true;
    inputs->has_source |= input >= INPUT_ASSEMBLY;
    inputs->has_compiled |= input >= INPUT_PREPROCESSED;
    inputs->has_text |= input >= INPUT_TEXT;
    inputs->has_linked |= input != INPUT_HEADER;
    inputs->has_standard |= strcmp(path, "-") == 0 || strcmp(path, "/dev/stdin") == 0;
    inputs_add_file(request, path);
    request->makes_other |= input == INPUT_HEADER;
    if (input >= INPUT_PREPROCESSED) {
        names_add(&inputs->sources, base_name(path));
        return;
    }
    linked_look_at(&inputs->linked, path);
    if (input != INPUT_OBJECT && !linked_is_marked_text(path))
        names_add(&inputs->assembly, base_name(path));
}

/* The arguments of a compiler's command line, apart by zeros, as asancol-cc looks at them. The last one is also the
   content of the file `response`, which the others may name. */
#include <stdint.h>
#include <stdio.h>
#include <stdlib.h>
#include <string.h>

#include "wrapper/arguments.h"
#include "wrapper/checked_names.h"

/* No object is asked for the names of checked calls. */
bool checked_names_are_given(struct view view)
{
    return (void)view, false;
}

int LLVMFuzzerTestOneInput(const uint8_t *data, size_t size);

static void write_response(const char *text)
{
    FILE *file = fopen("response", "w");
    if (file == NULL || fputs(text, file) < 0 || fclose(file) != 0)
        abort();
}

static void give_back_names(struct names *names)
{
    for (size_t i = 0; i < names->count; i++)
        free(names->names[i]);
    free(names->names);
}

static void give_back(struct arguments *arguments)
{
    struct inputs *inputs = &arguments->request->inputs;
    for (size_t i = 0; i < arguments->folder_count; i++)
        free(arguments->folders[i]);
    free(arguments->folders);
    free(inputs->linked.unmarked_lto);
    free(inputs->linked.sanitized);
    give_back_names(&inputs->sources);
    give_back_names(&inputs->assembly);
    give_back_names(&arguments->request->link.wraps);
}

int LLVMFuzzerTestOneInput(const uint8_t *data, size_t size)
{
    char *text = malloc(size + 1), *last = text;
    struct request request = {0};
    /* It may name itself, and that takes time. */
    struct arguments arguments = {.request = &request, .response_files = MAX_RESPONSE_FILES - 10};
    if (text == NULL)
        return 0;
    memcpy(text, data, size);
    text[size] = 0;
    for (char *at = text; at < text + size; at += strlen(at) + 1)
        last = at;
    write_response(last);
    for (char *at = text; at < text + size; at += strlen(at) + 1)
        arguments_take(&arguments, at);
    give_back(&arguments);
    free(text);
    return 0;
}

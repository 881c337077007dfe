/* The command line of asancol-run: arguments apart by zeros. */
#include <stdint.h>
#include <stdlib.h>
#include <string.h>

#include "options.h"
#include "outer.h"
#include "ends.h"

enum { MAX_ARGUMENTS = 64 };

int LLVMFuzzerTestOneInput(const uint8_t *data, size_t size);

static void expect(bool holds)
{
    if (!holds)
        abort();
}

const char *outer_options(void)
{
    return "--leaks=yes\n--no-mismatches\n--suppressions=/nonexistent";
}

static void read_argv(char **argv)
{
    struct options options = options_read(argv);
    expect(options.exitcode <= 255 && options.incomplete <= 255 && options.nothing <= 255);
    expect(options.wait >= 0 && options.wait <= 86400 && options.timeout >= 0 && options.timeout <= 31536000);
    expect(options.check.count % 2 == 0 && options.command[0] != NULL);
    free(options.check.items);
    free(options.report.items);
}

int LLVMFuzzerTestOneInput(const uint8_t *data, size_t size)
{
    char *text = malloc(size + 1), *argv[MAX_ARGUMENTS + 2] = {"asancol-run"};
    size_t count = 1;
    if (text == NULL)
        return 0;
    memcpy(text, data, size);
    text[size] = 0;
    for (char *at = text; at < text + size && count <= MAX_ARGUMENTS; at += strlen(at) + 1)
        argv[count++] = at;
    if (setjmp(fuzz_end) == 0)
        read_argv(argv);
    free(text);
    return 0;
}

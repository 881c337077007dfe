/* An environment, as the recorder reads it at the start of a process: entries apart by zeros. */
#define _GNU_SOURCE
#include <stdlib.h>

/* The names of files by patterns are made there; what it would say is taken here. */
#define recorder_say recorder_say_line
#include "base/say.c"
#undef recorder_say
#include "common/format.h"
#include "environment/startup.h"
#include "environment/settings.h"
#include "environment/orphan.h"

/* No run of an ancestor is looked for. */
const char *orphan_value(const char *name)
{
    return (void)name, NULL;
}

/* AddressSanitizer's runtime asks for it here, as the recorder does. */
const char *__lsan_default_suppressions(void);
const char *__lsan_default_suppressions(void)
{
    return NULL;
}

struct startup startup;

int LLVMFuzzerTestOneInput(const uint8_t *data, size_t size);

void undisturbed_begin(struct disturbance *before)
{
    (void)before;
}

void undisturbed_end(const struct disturbance *before)
{
    (void)before;
}

const char *error_text(int error)
{
    return strerror(error);
}

void signal_take_away(int number)
{
    (void)number;
}

void recorder_say(const char *what, const char *of, const char *why)
{
    if (strlen(what) + strlen(of) + strlen(why) == 0)
        abort();
}

static void expect(bool holds)
{
    if (!holds)
        abort();
}

static void look_at(const struct settings *settings)
{
    static const size_t rooms[] = {1, 2, 20, PATH_MAX};
    expect(settings->limit >= 1 && settings->limit <= EVENT_LIMIT && settings->stop <= EVENT_LIMIT);
    expect(settings->quarantine <= (uint64_t)1 << 40 && settings->patience_ms >= 0);
    expect(settings->halt <= HALT_AND_RECORD);
    expect(settings->socket == NULL || (settings->hub == NULL && settings->trace == NULL));
    expect(settings->passed_over == NULL || settings->hub == NULL);
    for (size_t i = 0; settings->trace != NULL && i < sizeof rooms / sizeof *rooms; i++) {
        char *name = malloc(rooms[i]);
        if (name != NULL && name_of_pattern(settings->trace, name, rooms[i]))
            expect(strlen(name) < rooms[i]);
        free(name);
    }
}

int LLVMFuzzerTestOneInput(const uint8_t *data, size_t size)
{
    enum { MAX_ENTRIES = 64 };
    char *entries[MAX_ENTRIES + 1];
    char *text = malloc(size + 1);
    struct settings settings = {0};
    size_t count = 0;
    if (text == NULL)
        return 0;
    memcpy(text, data, size);
    text[size] = 0;
    for (char *at = text; at < text + size && count < MAX_ENTRIES; at += strlen(at) + 1)
        entries[count++] = at;
    entries[count] = NULL;
    startup.variables = entries;
    settings_read(&settings);
    look_at(&settings);
    free(text);
    return 0;
}

/* One pass over the environment looks for unknown names; then each setting is looked up there, or in the answer of the
   run (orphan.c). */
#define _GNU_SOURCE
#include "environment/settings.h"

#include <limits.h>
#include <string.h>
#include <unistd.h>

#include "environment/asan_options.h"
#include "environment/startup.h"
#include "base/digits.h"
#include "base/platform.h"
#include "common/distance.h"
#include "common/format.h"
#include "base/say.h"
#include "base/system.h"
#include "environment/orphan.h"

/* What libFuzzer and others call is a target, which ends at its first fault unless it is told not to. */
extern int LLVMFuzzerTestOneInput(const unsigned char *, size_t) __attribute__((weak));

#define PREFIX "ASANCOL_"

/* All that the recorder and its tools read. */
static const char *const names[] = {
    "ASANCOL_TRACE",
    "ASANCOL_HUB",
    "ASANCOL_SOCKET",
    "ASANCOL_WHERE",
    "ASANCOL_QUARANTINE",
    "ASANCOL_LIMIT",
    "ASANCOL_PATIENCE",
    "ASANCOL_LOG",
    "ASANCOL_ALL",
    "ASANCOL_HALT",
    "ASANCOL_STOP",
    "ASANCOL_REPORT",
    "ASANCOL_SYMBOLIZER",
    "ASANCOL_SEGMENTS",
    "ASANCOL_LEAKS",
    "ASANCOL_MISMATCHES",
    "ASANCOL_USE_AFTER_RETURN",
    "ASANCOL_LIBRARIES",
    "ASANCOL_FULL",
    "ASANCOL_OUTER",
    "ASANCOL_RUN",
    "ASANCOL_RUN_OPTIONS",
    "ASANCOL_ODR",
    "ASANCOL_ROOT",
    "ASANCOL_INIT_ORDER",
    "ASANCOL_POINTER_PAIRS",
    "ASANCOL_MAY_RETURN_NULL",
    "ASANCOL_TEXT",
    "ASANCOL_TEST",
    "ASANCOL_LIVE",
#define FRONT(name, end, variable, usual, has_new, links_libm) variable,
#include "wrapper/fronts.def"
};

enum { NAMES = sizeof names / sizeof *names, MAX_NAME_LENGTH = 32 };

static bool is_known(const char *name, size_t length)
{
    for (size_t i = 0; i < NAMES; i++)
        if (strlen(names[i]) == length && strncmp(name, names[i], length) == 0)
            return true;
    return false;
}

/* The name that is meant, if one is near; or null. */
static const char *nearest(const char *name, size_t length)
{
    const char *found = NULL;
    /* Of a short name there is little that could be meant. */
    size_t letters = length - strlen(PREFIX);
    size_t least = letters >= 4 ? 3 : letters >= 2 ? 2 : 0;
    for (size_t i = 0; i < NAMES; i++) {
        size_t far = edit_distance(name, length, names[i]);
        if (far < least) {
            found = names[i];
            least = far;
        }
    }
    return found;
}

static void say_unknown(const char *name, size_t length)
{
    char shown[MAX_NAME_LENGTH + 1], why[64 + MAX_NAME_LENGTH] = "unknown setting";
    const char *meant = length <= MAX_NAME_LENGTH ? nearest(name, length) : NULL;
    size_t count = length < MAX_NAME_LENGTH ? length : MAX_NAME_LENGTH;
    memcpy(shown, name, count);
    shown[count] = 0;
    if (meant != NULL)
        strcat(strcat(strcat(why, "; did you mean "), meant), "?");
    recorder_say("ignored: ", shown, why);
}

static void look_for_unknown(void)
{
    for (char **entry = startup.variables; entry != NULL && *entry != NULL; entry++) {
        size_t length = strcspn(*entry, "=");
        if (strncmp(*entry, PREFIX, strlen(PREFIX)) == 0 && !is_known(*entry, length))
            say_unknown(*entry, length);
    }
}

/* The value of a setting, or null where it has none. What the environment does not say the run may have said. */
static const char *value_of(const char *name)
{
    size_t length = strlen(name);
    for (char **entry = startup.variables; !startup.is_set_user && entry != NULL && *entry != NULL; entry++)
        if (strncmp(*entry, name, length) == 0 && (*entry)[length] == '=' && (*entry)[length + 1] != 0)
            return *entry + length + 1;
    return orphan_value(name);
}

/* Adds to a text that has this much room. Returns false where it does not fit. */
static bool add(char *text, size_t room, const char *more)
{
    size_t length = strlen(text);
    if (length + strlen(more) >= room)
        return false;
    strcpy(text + length, more);
    return true;
}

static void add_number(char *text, size_t room, uint64_t number)
{
    char digits[DIGITS_ROOM];
    add(text, room, put_digits(digits + sizeof digits, number, 1));
}

/* "'VALUE' is not a number (LEAST to MOST), so OTHERWISE applies" */
static void say_no_number(const char *name, const char *value, uint64_t least, uint64_t most, uint64_t otherwise)
{
    char why[256] = "'";
    strncat(why, value, 64);
    add(why, sizeof why, "' is not a number (");
    add_number(why, sizeof why, least);
    add(why, sizeof why, " to ");
    add_number(why, sizeof why, most);
    add(why, sizeof why, "), so ");
    if (otherwise == ALL_SEGMENTS) {
        add(why, sizeof why, "all are kept");
    } else {
        add_number(why, sizeof why, otherwise);
        add(why, sizeof why, " applies");
    }
    recorder_say("ignored: ", name, why);
}

/* A number of the environment, if it is one and in range. */
static uint64_t number_of(const char *name, uint64_t least, uint64_t most, uint64_t otherwise)
{
    const char *text = value_of(name);
    uint64_t value = 0;
    if (text == NULL)
        return otherwise;
    for (const char *digit = text; *digit != 0; digit++) {
        if (*digit < '0' || *digit > '9' || value > most) {
            value = UINT64_MAX;
            break;
        }
        value = value * 10 + (uint64_t)(*digit - '0');
    }
    if (value >= least && value <= most)
        return value;
    say_no_number(name, text, least, most, otherwise);
    return otherwise;
}

/* An entry of the environment with a file's name from the root. */
struct entry {
    char text[PATH_MAX + MAX_NAME_LENGTH];
};

/* Adds the first bytes of a name to a pattern, in which a percent sign is doubled. */
static bool add_name(char *text, size_t room, const char *name, size_t length)
{
    for (const char *from = name; from < name + length; from++) {
        char piece[3] = {*from, *from == '%' ? '%' : 0, 0};
        if (!add(text, room, piece))
            return false;
    }
    return true;
}

/* Adds the folder of the process. */
static bool add_folder(char *text, size_t room)
{
    char folder[PATH_MAX];
    if (system_getcwd(folder, sizeof folder) < 0)
        return false;
    return add_name(text, room, folder, strlen(folder)) && add(text, room, "/");
}

/* Gives the name that a setting has, from the root, and puts it back into the environment so. Null: there is none. */
static const char *name_from_root(const char *name, struct entry *entry)
{
    const char *value = value_of(name);
    char *text = entry->text;
    size_t room = sizeof entry->text;
    if (value == NULL)
        return NULL;
    text[0] = 0;
    bool is_relative = value[0] != '/';
    if (!add(text, room, name) || !add(text, room, "=") || (is_relative && !add_folder(text, room))
        || !add(text, room, value))
        return value; /* it is too long for a file's name */
    for (char **at = startup.variables; is_relative && *at != NULL; at++)
        if (strncmp(*at, text, strlen(name) + 1) == 0)
            *at = text;
    return text + strlen(name) + 1;
}

/* The pattern of traces beside a socket. Null: it is too long, or there is no folder. */
static const char *traces_beside(const char *path, struct entry *entry)
{
    const char *slash = strrchr(path, '/');
    size_t length = slash != NULL ? (size_t)(slash - path) + 1 : 0;
    entry->text[0] = 0;
    if (slash == path)
        return NULL; /* the name of a socket without a folder */
    bool fits = add_name(entry->text, PATH_MAX, path, length) && add(entry->text, PATH_MAX, "%p.trace");
    return fits ? entry->text : NULL;
}

const char *settings_hub(void)
{
    return value_of("ASANCOL_HUB");
}

/* The value of a setting, for good: a program may write over its environment, as for a title of its own in `ps`. */
static const char *kept_value(const char *name, struct entry *entry)
{
    const char *value = value_of(name);
    entry->text[0] = 0;
    return value != NULL && add(entry->text, sizeof entry->text, value) ? entry->text : value;
}

/* Where the stream goes: the trace comes first, and then the hub. */
static void read_outputs(struct settings *settings)
{
    static AS_TABLE struct entry trace, beside, hub, socket, text;
    settings->trace = name_from_root("ASANCOL_TRACE", &trace);
    const char *named = kept_value("ASANCOL_HUB", &hub);
    settings->hub = settings->trace == NULL ? named : NULL;
    settings->passed_over = settings->trace != NULL ? named : NULL;
    settings->socket = settings->trace == NULL && named == NULL ? kept_value("ASANCOL_SOCKET", &socket) : NULL;
    if (settings->hub != NULL)
        settings->trace = traces_beside(settings->hub, &beside);
    settings->text = settings->hub != NULL ? kept_value("ASANCOL_TEXT", &text) : NULL;
    settings->is_live = settings->text != NULL && number_of("ASANCOL_LIVE", 0, 1, 0) == 1;
}

/* What AddressSanitizer has options for too. A variable of ASANCOL comes first, except that a process can turn leaks
   off for itself, unless --leaks=yes was given. */
static void read_options_of_asan(struct settings *settings)
{
    enum { LEAKS_IN_ANY_CASE = 2 };
    asan_options_read(value_of("ASAN_OPTIONS"), value_of("LSAN_OPTIONS"));
    uint64_t held = asan_options_hold(MAX_QUARANTINE, QUARANTINE_BOUND);
    bool aborts = asan_options_say(ASAN_abort_on_error, false), is_fuzzer = LLVMFuzzerTestOneInput != NULL;
    bool halts = asan_options_say(ASAN_halt_on_error, aborts || is_fuzzer);
    bool exits = asan_options_say(ASAN_halt_on_error, false) && !is_fuzzer && value_of("ASANCOL_HALT") == NULL;
    uint64_t returns = asan_options_say(ASAN_detect_stack_use_after_return, true);
    uint64_t leaks = number_of("ASANCOL_LEAKS", 0, LEAKS_IN_ANY_CASE, 0);
    bool mismatches = number_of("ASANCOL_MISMATCHES", 0, 1, 1) == 1;
    settings->quarantine = number_of("ASANCOL_QUARANTINE", 0, MAX_QUARANTINE, held);
    settings->halt = (enum halt)number_of("ASANCOL_HALT", HALT_NEVER, HALT_AND_RECORD, halts ? HALT : HALT_NEVER);
    exits = !asan_options_say(ASAN_abort_on_error, !exits);
    settings->halt_status = exits ? (int)asan_options_level(ASAN_exitcode, UINT8_MAX, 1) : -1;
    settings->use_after_return = number_of("ASANCOL_USE_AFTER_RETURN", 0, 1, returns) == 1;
    settings->with_leaks = settings->with_side
                           && (leaks == LEAKS_IN_ANY_CASE || (leaks == 1 && asan_options_say(ASAN_detect_leaks, true)));
    settings->skipped = mismatches ? 0 : SKIPPED_FAMILIES;
    settings->mismatches = mismatches && asan_options_say(ASAN_alloc_dealloc_mismatch, true);
    settings->other_sizes = mismatches && asan_options_say(ASAN_new_delete_type_mismatch, true);
}

/* The same for classes that are on or off by default as there. */
static void read_classes(struct settings *settings)
{
    bool is_strict = asan_options_say(ASAN_strict_init_order, false); /* by itself, too */
    uint64_t order = is_strict ? 2 : asan_options_say(ASAN_check_initialization_order, false);
    uint64_t odr = asan_options_level(ASAN_detect_odr_violation, 2, 2);
    uint64_t pairs = asan_options_level(ASAN_detect_invalid_pointer_pairs, 2, 0);
    uint64_t may_return_null = asan_options_say(ASAN_allocator_may_return_null, false);
    settings->odr = (int)number_of("ASANCOL_ODR", 0, 2, odr);
    settings->init_order = (int)number_of("ASANCOL_INIT_ORDER", 0, 2, order);
    settings->pointer_pairs = (int)number_of("ASANCOL_POINTER_PAIRS", 0, 2, pairs);
    settings->may_return_null = number_of("ASANCOL_MAY_RETURN_NULL", 0, 1, may_return_null) == 1;
    settings->whole_strings = asan_options_say(ASAN_strict_string_checks, false);
    settings->containers = asan_options_say(ASAN_detect_container_overflow, true);
    settings->user_poison = asan_options_say(ASAN_allow_user_poisoning, true);
    settings->counts = asan_options_say(ASAN_poison_array_cookie, true);
    settings->formats = asan_options_say(ASAN_check_printf, true);
    settings->whole_memcmp = asan_options_say(ASAN_strict_memcmp, true);
    settings->keeps_empty = !asan_options_say(ASAN_allocator_frees_and_returns_null_on_realloc_zero, true);
}

/* Says which checks are off: by the options of AddressSanitizer, unless a variable of ASANCOL has turned them on;
   or by such a variable alone. */
static void name_turned_off(struct settings *settings)
{
    bool is_on[ASAN_UNKNOWN] = {[ASAN_detect_leaks] = settings->with_leaks,
                                [ASAN_detect_stack_use_after_return] = settings->use_after_return,
                                [ASAN_detect_odr_violation] = settings->odr == 2,
                                [ASAN_allocator_may_return_null] = !settings->may_return_null};
    bool leaks = !is_on[ASAN_detect_leaks] && asan_options_say(ASAN_detect_leaks, true);
    bool odr = !is_on[ASAN_detect_odr_violation] && asan_options_level(ASAN_detect_odr_violation, 2, 2) == 2;
    bool null = settings->may_return_null && !asan_options_say(ASAN_allocator_may_return_null, false);
    bool returns = !settings->use_after_return && asan_options_say(ASAN_detect_stack_use_after_return, true);
    settings->skipped |= (uint64_t)((leaks ? SKIPPED_LEAKS : 0) | (odr ? SKIPPED_ODR : 0) | (null ? SKIPPED_NULL : 0));
    settings->says_returns = returns;
    asan_options_name_turned_off(is_on);
}

/* The process has said nothing yet, and what it asks for is no report: so that goes to standard error alone. */
static void print_help(void)
{
    char text[sizeof asan_help_page];
    size_t length = asan_options_say(ASAN_help, false) ? asan_help(text) : 0;
    if (length > 0 && system_write(STDERR_FILENO, text, length) < 0)
        return; /* nobody reads it */
}

void settings_read_outputs(struct settings *settings)
{
    read_outputs(settings);
    settings->root = number_of("ASANCOL_ROOT", 1, UINT32_MAX, 0);
    settings->with_side = number_of("ASANCOL_WHERE", 0, 1, 0) == 1 || settings->hub != NULL;
    settings->is_full = number_of("ASANCOL_FULL", 0, 1, settings->hub == NULL) == 1;
}

void settings_read(struct settings *settings)
{
    static AS_TABLE struct entry log;
    say_to(name_from_root("ASANCOL_LOG", &log));
    if (!startup.is_set_user)
        look_for_unknown();
    settings_read_outputs(settings);
    settings->stop = number_of("ASANCOL_STOP", 1, EVENT_LIMIT, 0);
    settings->limit = number_of("ASANCOL_LIMIT", 1, EVENT_LIMIT, EVENT_LIMIT);
    settings->segments = number_of("ASANCOL_SEGMENTS", 0, MAX_SEGMENTS_KEPT, ALL_SEGMENTS);
    settings->patience_ms = (int)number_of("ASANCOL_PATIENCE", 0, 86400, 60) * 1000;
    read_options_of_asan(settings);
    read_classes(settings);
    settings->checks_libraries = number_of("ASANCOL_LIBRARIES", 0, 1, 1) == 1;
    name_turned_off(settings);
    print_help();
}

/* Four texts, of which the last word for an option counts. They are kept by address, and looked at only at the start:
   later the program may write over its environment. By then it is noted which calls are not checked, and which lines go
   beside the trace. */
#define _GNU_SOURCE
#include "environment/asan_options.h"

#include <limits.h>

#include "base/platform.h"
#include "common/format.h"

/* Those of the program, or the empty ones of interface.c. */
VISIBLE const char *__asan_default_options(void);
VISIBLE const char *__lsan_default_options(void);
VISIBLE const char *__asan_default_suppressions(void);
VISIBLE const char *__lsan_default_suppressions(void);

/* In the order in which AddressSanitizer reads them. Written and read at the start. */
enum { OF_ASAN, OF_LSAN, IN_ASAN, IN_LSAN, TEXTS };
static const char *texts[TEXTS];

static const char *const names_of_texts[TEXTS] = {"__asan_default_options", "__lsan_default_options", "ASAN_OPTIONS",
                                                  "LSAN_OPTIONS"};

/* What asan_options_lines answers: less than there is room for beside a trace. */
static struct {
    char text[4096];
    size_t length;
} lines;

/* The last word for an option, in all four texts. False: there is none. */
static bool find(enum asan_option option, struct asan_word *found)
{
    struct asan_word word;
    bool is_there = false;
    for (int i = 0; i < TEXTS; i++)
        for (const char *at = texts[i]; asan_next(&at, &word);)
            if (word.option == option) {
                *found = word;
                is_there = true;
            }
    return is_there;
}

bool asan_options_say(enum asan_option option, bool otherwise)
{
    struct asan_word word;
    if (!find(option, &word))
        return otherwise;
    return otherwise ? !asan_is_no(&word) : asan_is_yes(&word);
}

static AS_TABLE char log_path[PATH_MAX];

const char *asan_options_log(void)
{
    return log_path;
}

/* A name that is too long is none. */
static void read_log_path(void)
{
    struct asan_word word;
    if (!find(ASAN_log_path, &word) || word.value_length >= sizeof log_path || asan_is_word(&word, "stderr"))
        return;
    memcpy(log_path, word.value, word.value_length);
    log_path[word.value_length] = 0;
}

/* The functions whose checks an option turns off. A form of them, as __memcpy_chk, is not named. */
static const struct {
    enum asan_option option;
    const char *names; /* each between blanks */
} checks_of_calls[] = {
    {ASAN_replace_intrin, " memcpy mempcpy memmove memset bzero "},
    {ASAN_replace_str, " strcat strncat strcpy strncpy strdup strtol strtoll atoi atol atoll "},
    {ASAN_intercept_memcmp, " memcmp bcmp "},
    {ASAN_intercept_memmem, " memmem "},
    {ASAN_intercept_send, " send sendto sendmsg sendmmsg "},
    {ASAN_intercept_stat, " stat lstat fstat fstatat xstat lxstat fxstat fxstatat statx "},
    {ASAN_intercept_strchr, " strchr index strchrnul strrchr rindex "},
    {ASAN_intercept_strcmp, " strcmp strncmp strcasecmp strncasecmp "},
    {ASAN_intercept_strlen, " strlen strnlen "},
    {ASAN_intercept_strndup, " strndup "},
    {ASAN_intercept_strpbrk, " strpbrk "},
    {ASAN_intercept_strspn, " strspn strcspn "},
    {ASAN_intercept_strstr, " strstr strcasestr "},
    {ASAN_intercept_strtok, " strtok strtok_r "},
};

static bool are_unchecked[sizeof checks_of_calls / sizeof *checks_of_calls]; /* the functions of the row */

/* Whether a name is among these, each of which is between blanks. */
static bool is_listed(const char *names, const char *name, size_t length)
{
    while (*names++ != 0) {
        size_t listed = strcspn(names, " ");
        if (listed == length && strncmp(names, name, length) == 0)
            return true;
        names += listed;
    }
    return false;
}

bool asan_options_check_call(const char *name)
{
    static const char form[] = "_chk";
    while (*name == '_')
        name++;
    size_t length = strlen(name);
    if (length > strlen(form) && strcmp(name + length - strlen(form), form) == 0)
        length -= strlen(form);
    for (size_t i = 0; i < sizeof checks_of_calls / sizeof *checks_of_calls; i++)
        if (are_unchecked[i] && is_listed(checks_of_calls[i].names, name, length))
            return false;
    return true;
}

uint64_t asan_options_level(enum asan_option option, uint64_t most, uint64_t otherwise)
{
    struct asan_word word;
    uint64_t level;
    if (!find(option, &word) || !asan_number(&word, &level))
        return otherwise;
    return level > most ? most : level;
}

uint64_t asan_options_hold(uint64_t most, uint64_t otherwise)
{
    struct asan_word word;
    uint64_t bytes;
    if (find(ASAN_quarantine_size_mb, &word) && asan_quarantine(&word, most, &bytes))
        return bytes;
    return find(ASAN_quarantine_size, &word) && asan_quarantine(&word, most, &bytes) ? bytes : otherwise;
}

const char *asan_options_lines(void)
{
    return lines.text;
}

static void add(const char *text, size_t length)
{
    memcpy(lines.text + lines.length, text, length);
    lines.length += length;
}

/* A line that has no room is left out, whole. */
static void add_line(const char *front, const char *text, size_t length, const char *back)
{
    if (lines.length + strlen(front) + length + strlen(back) + 2 > sizeof lines.text)
        return;
    add(front, strlen(front));
    for (size_t i = 0; i < length; i++)
        lines.text[lines.length++] = text[i] == '\n' ? ' ' : text[i];
    add(back, strlen(back));
    add("\n", 1);
}

/* An option of the run that has no effect if a single process gives it. Of the others of the run, a process can turn
   leaks off for itself and set its own quarantine, and the rest change only the output. */
static bool is_of_run_alone(const struct asan_word *word)
{
    return word->fate == ASAN_IS_RUN && word->option != ASAN_detect_leaks && word->option != ASAN_quarantine_size_mb
           && word->option != ASAN_quarantine_size && word->option != ASAN_external_symbolizer_path
           && word->option != ASAN_strip_path_prefix && word->option != ASAN_verbosity && word->option != ASAN_help;
}

/* Adds the options of a text that have no effect. asancol-run names those of the environment itself (run/asan.c), so
   this is for the program's own texts. */
static void name_without_effect(const char *text, const char *back)
{
    struct asan_word word;
    while (asan_next(&text, &word)) {
        size_t length = (size_t)(word.value + word.value_length - word.name);
        bool is_other = word.fate == ASAN_IS_FIXED && !word.is_fixed_value;
        if (word.name_length > 0 && (word.fate == ASAN_IS_UNKNOWN || is_other || is_of_run_alone(&word)))
            add_line("", word.name, length, back);
    }
}

static void add_suppressions(const char *text)
{
    while (text != NULL && *text != 0) {
        size_t length = strcspn(text, "\n");
        if (length > 0 && *text != '#')
            add_line("!", text, length, "");
        text += length + (text[length] == '\n');
    }
}

/* Whether a later word for the same option comes first. */
static bool is_last(const struct asan_word *word)
{
    struct asan_word last;
    return find(word->option, &last) && last.name == word->name;
}

/* Adds a line that lists what a text turns off, with blanks between. What has no room is left out. */
static void name_turned_off(int number, const bool *is_on)
{
    char list[1024];
    struct asan_word word;
    size_t length = 0;
    for (const char *at = texts[number]; asan_next(&at, &word);) {
        size_t more = (size_t)(word.value + word.value_length - word.name);
        if (!asan_turns_off(&word) || is_on[word.option] || !is_last(&word)
            || length + more + 1 > sizeof list)
            continue;
        list[length++] = ' ';
        memcpy(list + length, word.name, more);
        length += more;
    }
    char front[sizeof CHECKS_TURNED_OFF + 32] = CHECKS_TURNED_OFF;
    strcat(strcat(front, names_of_texts[number]), ":");
    if (length > 0)
        add_line(front, list, length, "");
}

void asan_options_name_turned_off(const bool *is_on)
{
    for (int i = 0; i < TEXTS; i++)
        name_turned_off(i, is_on);
}

static const char *text_or_none(const char *text)
{
    return text != NULL ? text : "";
}

void asan_options_read(const char *asan, const char *lsan)
{
    texts[OF_ASAN] = text_or_none(__asan_default_options());
    texts[OF_LSAN] = text_or_none(__lsan_default_options());
    texts[IN_ASAN] = text_or_none(asan);
    texts[IN_LSAN] = text_or_none(lsan);
    for (size_t i = 0; i < sizeof are_unchecked; i++)
        are_unchecked[i] = !asan_options_say(checks_of_calls[i].option, true);
    read_log_path();
    name_without_effect(texts[OF_ASAN], " (__asan_default_options)");
    name_without_effect(texts[OF_LSAN], " (__lsan_default_options)");
    add_suppressions(__asan_default_suppressions());
    add_suppressions(__lsan_default_suppressions());
}

/* The words of ASAN_OPTIONS, LSAN_OPTIONS and of what a program says by __asan_default_options, and their properties.
   The recorder reads them at its start: nothing of the C library is called that needs more than its arguments.

   Called: by asan_options.c of the recorder, in the thread that starts it, and by asan.c of asancol-run; no lock: it
   only reads the text that it is given. */
#ifndef ASANCOL_ASAN_OPTIONS_H
#define ASANCOL_ASAN_OPTIONS_H

#include <stdbool.h>
#include <stddef.h>
#include <stdint.h>
#include <string.h>

/* The options, in the order of the table. */
enum asan_option {
#define OPTION(name, fate, value, here) ASAN_##name,
#include "common/asan_options.def"
#undef OPTION
    ASAN_UNKNOWN
};

/* What happens to them: the first letter of each row. */
enum asan_fate {
    ASAN_IS_UNKNOWN = 0,
    ASAN_IS_RUN = 'R',
    ASAN_IS_PROCESS = 'P',
    ASAN_IS_FIXED = 'F',
    ASAN_IS_HARMLESS = 'H'
};

/* An option as it is written, without quotes round its value. */
struct asan_word {
    const char *name, *value;
    size_t name_length, value_length;
    enum asan_option option;
    enum asan_fate fate;
    const char *usual;   /* the value in its row */
    bool is_fixed_value; /* the value is that one */
};

static inline bool asan_is_between(char byte)
{
    return byte == ' ' || byte == ',' || byte == ':' || byte == '\n' || byte == '\t' || byte == '\r';
}

static inline bool asan_is_word(const struct asan_word *word, const char *text)
{
    return strlen(text) == word->value_length && strncmp(text, word->value, word->value_length) == 0;
}

/* Whether it says no or yes, as compiler-rt reads that. */
static inline bool asan_is_no(const struct asan_word *word)
{
    return asan_is_word(word, "0") || asan_is_word(word, "no") || asan_is_word(word, "false");
}

static inline bool asan_is_yes(const struct asan_word *word)
{
    return asan_is_word(word, "1") || asan_is_word(word, "yes") || asan_is_word(word, "true");
}

/* Looks a word up. The rows are texts one after another: a letter, the name, and the value that holds here. */
static inline void asan_look_up(struct asan_word *word)
{
    static const char rows[] =
#define OPTION(name, fate, value, here) #fate "\0" #name "\0" value "\0"
#include "common/asan_options.def"
#undef OPTION
        ;
    int number = 0;
    word->option = ASAN_UNKNOWN;
    word->fate = ASAN_IS_UNKNOWN;
    word->usual = "";
    word->is_fixed_value = false;
    for (const char *fate = rows; *fate != 0; number++) {
        const char *name = fate + strlen(fate) + 1, *value = name + strlen(name) + 1;
        if (strlen(name) == word->name_length && strncmp(name, word->name, word->name_length) == 0) {
            bool is_no = strcmp(value, "0") == 0 && asan_is_no(word);
            bool is_yes = strcmp(value, "1") == 0 && asan_is_yes(word);
            word->option = (enum asan_option)number;
            word->fate = (enum asan_fate)*fate;
            word->usual = value;
            word->is_fixed_value = is_no || is_yes || asan_is_word(word, value);
            return;
        }
        fate = value + strlen(value) + 1;
    }
}

/* Takes the next word of a text, and moves on behind it. False: there is none. A word without `=` has no value. */
static inline bool asan_next(const char **at, struct asan_word *word)
{
    const char *from = *at;
    while (asan_is_between(*from))
        from++;
    *at = from;
    if (*from == 0)
        return false;
    while (**at != 0 && **at != '=' && !asan_is_between(**at))
        (*at)++;
    word->name = from;
    word->name_length = (size_t)(*at - from);
    char quote = **at == '=' ? *++*at : 0;
    bool is_quoted = quote == '\'' || quote == '"';
    word->value = *at += is_quoted;
    while (**at != 0 && (is_quoted ? **at != quote : !asan_is_between(**at)))
        (*at)++;
    word->value_length = (size_t)(*at - word->value);
    *at += is_quoted && **at != 0;
    asan_look_up(word);
    return true;
}

/* A number in decimal digits, of which more than fit are the greatest. False: it is none. */
static inline bool asan_number(const struct asan_word *word, uint64_t *number)
{
    *number = 0;
    for (size_t i = 0; i < word->value_length; i++) {
        if (word->value[i] < '0' || word->value[i] > '9')
            return false;
        uint64_t digit = (uint64_t)(word->value[i] - '0');
        *number = *number > (UINT64_MAX - digit) / 10 ? UINT64_MAX : *number * 10 + digit;
    }
    return word->value_length > 0;
}

/* Whether it turns checks off that are on by default. */
static inline bool asan_turns_off(const struct asan_word *word)
{
    uint64_t number;
    if ((word->fate != ASAN_IS_RUN && word->fate != ASAN_IS_PROCESS) || *word->usual == 0)
        return false;
    if (*word->usual == '0')
        return asan_is_yes(word);
    if (*word->usual == '1')
        return asan_is_no(word);
    return asan_number(word, &number) && number < (uint64_t)(*word->usual - '0');
}

/* What `help` prints. The remarks are as the page has them. */
static const char asan_help_page[] = "Available flags for AddressSanitizer:\n"
#define ASAN_HELP_RUN(name, here) "\t" name "\n\t\t- " here "\n"
#define ASAN_HELP_PROCESS(name, here) ASAN_HELP_RUN(name, here)
#define ASAN_HELP_FIXED(name, here) ""
#define ASAN_HELP_HARMLESS(name, here) ""
#define OPTION(name, fate, value, here) ASAN_HELP_##fate(#name, here)
#include "common/asan_options.def"
#undef OPTION
    ;

/* Makes the text of it, without quotes and links. Returns its length. */
static inline size_t asan_help(char text[sizeof asan_help_page])
{
    size_t length = 0;
    for (const char *at = asan_help_page; *at != 0; at++) {
        if (at[0] == ']' && at[1] == '(')
            at = strchr(at, ')');
        else if (*at != '`' && (at[0] != '[' || at[1] == ']'))
            text[length++] = *at;
    }
    return length;
}

/* How many bytes of freed blocks a word says. False: it says that of none. */
static inline bool asan_quarantine(const struct asan_word *word, uint64_t most, uint64_t *bytes)
{
    bool is_in_mb = word->option == ASAN_quarantine_size_mb;
    if ((!is_in_mb && word->option != ASAN_quarantine_size) || !asan_number(word, bytes))
        return false;
    uint64_t unit = is_in_mb ? UINT64_C(1) << 20 : 1;
    *bytes = *bytes > most / unit ? most : *bytes * unit;
    return true;
}

#endif

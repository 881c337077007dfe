/* Calls whose checks depend on options of AddressSanitizer. An argument names the case: the name of the option with
   which it has a report, or of the one that takes its report away, comes first. */
#include <sanitizer/asan_interface.h>
#include <stdint.h>
#include <stdio.h>
#include <stdlib.h>
#include <string.h>
#include <strings.h>

/* A text whose first bytes alone may be read: a search that ends there is good. */
static char text[64] __attribute__((aligned(16))) = "0123456/89abcdefghijklm";
static char number[64] __attribute__((aligned(16))) = "12 34567 9 10 11 12 13";
static char room[64];
static volatile char sink;
struct Counted {
    ~Counted() { sink = 0; }
    int value;
};

static const struct {
    const char *name;
    void (*run)(void);
} cases[] = {
    {"strict strchr", [] { sink = strchr(text, '3') != NULL; }},
    {"strict index", [] { sink = index(text, '3') != NULL; }},
    {"strict strchrnul", [] { sink = *strchrnul(text, '3'); }},
    {"strict strcmp", [] { sink = strcmp(text, "01x") < 0; }},
    {"strict strcmp of the other", [] { sink = strcmp("01x", text) < 0; }},
    {"strict strncmp", [] { sink = strncmp(text, "01x", 20) < 0; }},
    {"strict strcasecmp", [] { sink = strcasecmp(text, "01x") < 0; }},
    {"strict strncasecmp", [] { sink = strncasecmp(text, "01x", 20) < 0; }},
    {"strict strstr", [] { sink = strstr(text, "12") != NULL; }},
    {"strict strcasestr", [] { sink = strcasestr(text, "12") != NULL; }},
    {"strict strspn", [] { sink = strspn(text, "012") == 3; }},
    {"strict strcspn", [] { sink = strcspn(text, "3") == 3; }},
    {"strict strpbrk", [] { sink = strpbrk(text, "3") != NULL; }},
    {"strict strtok", [] { sink = strtok(text, "3") != NULL; }},
    {"strict strndup", [] { free(strndup(text, 4)); }},
    {"strict strtol", [] { sink = strtol(number, NULL, 10) == 12; }},
    {"strict strtol without a base", [] { sink = strtol(number, NULL, 1) == 0; }},
    {"strict strtoll", [] { sink = strtoll(number, NULL, 10) == 12; }},
    {"strict atoi", [] { sink = atoi(number) == 12; }},
    {"strict atol", [] { sink = atol(number) == 12; }},
    {"strict atoll", [] { sink = atoll(number) == 12; }},
    {"alone strtoul", [] { sink = strtoul(number, NULL, 10) == 12; }},
    {"alone strtod", [] { sink = strtod(number, NULL) > 12; }},
    {"alone atof", [] { sink = atof(number) > 12; }},
    {"alone strtok_r", [] { char *rest; sink = strtok_r(text, "3", &rest) != NULL; }},
    {"never strncmp", [] { sink = strncmp(text, "01x", 8) < 0; }},
    {"never strnlen", [] { sink = strnlen(text, 8) == 8; }},
    {"never strncpy", [] { strncpy(room, text, 8); }},
    {"never memchr", [] { sink = memchr(text, '3', 64) != NULL; }},
    {"replace_intrin memcpy", [] { memcpy(room, text, 20); }},
    {"replace_intrin memmove", [] { memmove(room, text, 20); }},
    {"replace_intrin memset", [] { memset(text, 1, 20); }},
    {"replace_str strcpy", [] { strcpy(room, text); }},
    {"replace_str strcat", [] { strcat(room, text); }},
    {"replace_str strncpy", [] { strncpy(room, text, 20); }},
    {"replace_str strdup", [] { free(strdup(text)); }},
    {"replace_str atoi", [] { sink = atoi(number + 8) == 9; }},
    {"replace_str strtol", [] { sink = strtol(number + 8, NULL, 10) == 9; }},
    {"strict_memcmp memcmp", [] { sink = memcmp(room, text, 20) == 0; }},
    {"check_printf snprintf", [] { snprintf(room, sizeof room, "%s", text); }},
    {"allocator_frees_and_returns_null_on_realloc_zero realloc", [] {
        char *block = (char *)malloc(8), *moved = (char *)realloc(block, 0);
        char *volatile at = moved != NULL ? moved : block;
        sink = *at;
    }},
    {"intercept_memcmp memcmp", [] { sink = memcmp(room, text, 20) == 0; }},
    {"intercept_memmem memmem", [] { sink = memmem(text, 20, "x", 1) != NULL; }},
    {"intercept_strchr strchr", [] { sink = strchr(text, 'x') != NULL; }},
    {"intercept_strchr strrchr", [] { sink = strrchr(text, '1') != NULL; }},
    {"intercept_strcmp strcmp", [] { sink = strcmp(text + 8, "89") < 0; }},
    {"intercept_strlen strlen", [] { sink = strlen(text) == 23; }},
    {"intercept_strlen in an environment that is written over", [] {
        if (char *options = getenv("ASAN_OPTIONS"))
            memset(options, 'x', strlen(options));
        sink = strlen(text) == 23;
    }},
    {"intercept_strndup strndup", [] { free(strndup(text, 20)); }},
    {"intercept_strpbrk strpbrk", [] { sink = strpbrk(text, "z") != NULL; }},
    {"intercept_strspn strspn", [] { sink = strspn(text + 8, "8") == 1; }},
    {"intercept_strstr strstr", [] { sink = strstr(text, "abd") != NULL; }},
    {"intercept_strtok strtok", [] { sink = strtok(text + 8, "9") != NULL; }},
    {"allow_user_poisoning access", [] { char *volatile at = text + 8; sink = *at; }},
    {"detect_container_overflow access", [] {
        char *block = (char *)malloc(64);
        __sanitizer_annotate_contiguous_container(block, block + 64, block + 64, block + 8);
        sink = block[16];
        __sanitizer_annotate_contiguous_container(block, block + 64, block + 8, block + 64);
        free(block);
    }},
    {"poison_array_cookie access", [] {
        Counted *items = new Counted[4];
        sink = (char)((volatile uint64_t *)items)[-1];
        delete[] items;
    }},
};

int main(int, char **argv)
{
    __asan_poison_memory_region(text + 8, 56);
    __asan_poison_memory_region(number + 8, 56);
    for (const auto &it : cases)
        if (strcmp(it.name, argv[1]) == 0)
            it.run();
    return 0;
}

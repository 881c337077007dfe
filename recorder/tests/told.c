/* What a program asks of reports and addresses while it runs. All of the output is the same under AddressSanitizer. */
#include <sanitizer/asan_interface.h>
#include <sanitizer/common_interface_defs.h>
#include <stdio.h>
#include <stdlib.h>
#include <string.h>

static char *block, *volatile kept;
static char table[10];
static volatile size_t twelve = 12;

static void print(const char *who)
{
    const char *text = __asan_get_report_description();
    printf("%s: %d, %s %zu, %s, pc %d\n", who, __asan_report_present(),
           __asan_get_report_access_type() ? "store" : "load", __asan_get_report_access_size(), text,
           __asan_get_report_pc() != NULL);
    if (strncmp(text, "heap", 4) == 0)
        printf("at byte %ld\n", (long)((char *)__asan_get_report_address() - block));
}

void __asan_on_error(void)
{
    print("on error");
}

static void on_report(const char *text)
{
    const char *const wanted[] = {"==ERROR: AddressSanitizer: ", " at pc 0x", "READ of size ", "WRITE of size ",
                                  "\n    #0 0x", "SUMMARY: AddressSanitizer: ", "10-byte region [0x",
                                  "freed by thread T0 here:\n", "allocated by thread T0 here:\n"};
    print("callback");
    for (size_t i = 0; i < sizeof wanted / sizeof *wanted; i++)
        printf("%d", strstr(text, wanted[i]) != NULL);
    printf("\n");
    free(malloc(3));
}

static void bugs(void)
{
    char local[10];
    block = malloc(10);
    memset(local, 0, sizeof local);
    block[twelve] = 1;
    for (int i = 0; i < 3; i++)
        table[1] = block[11]; /* at one place: once */
    memset(block, 1, twelve);
    table[0] = local[twelve];
    table[0] = table[twelve];
    memcpy(local, local + 1, twelve / 3);
    free(block);
    table[3] = block[1]; /* AddressSanitizer has its notes where a store would be */
    __asan_set_error_report_callback(NULL);
    table[4] = block[2];
}

/* AddressSanitizer ends after one of these. */
static void wrong_free(int is_double)
{
    char local[10];
    kept = is_double ? malloc(10) : local;
    if (is_double)
        free(kept);
    free(kept);
}

static void locate(const char *what, char *address, char *from)
{
    char name[32] = "x";
    void *start = NULL;
    size_t size = 0;
    const char *kind = __asan_locate_address(address, name, sizeof name, &start, &size);
    printf("%s: %s '%s' %ld %zu\n", what, kind, name, (long)((char *)start - from), size);
}

static void is_in(const char *what, void *function, void **frames, size_t count)
{
    int found = 0;
    for (size_t i = 0; i < count; i++)
        found |= (char *)frames[i] >= (char *)function && (char *)frames[i] < (char *)function + 64;
    printf("%s: %d\n", what, found);
}

static __attribute__((noinline)) char *make(void)
{
    return malloc(10);
}

static __attribute__((noinline)) void drop(char *it)
{
    free(it);
}

static __attribute__((noinline)) void say_anew(const char *what, char *it)
{
    printf("%s: allocated anew: %d\n", what, __asan_update_allocation_context(it));
}

static void addresses(void)
{
    char local[20], path[256];
    void *frames[8], *offset = NULL;
    int thread = -1;
    char *made = make();
    memset(local, 0, sizeof local);
    locate("in a block", made + 3, made);
    locate("after a block", made + 12, made);
    locate("before a block", made - 3, made);
    locate("a variable", local + 3, local);
    locate("after a variable", local + 20, local);
    locate("a global", table + 3, table);
    locate("after a global", table + 12, table);
    locate("nowhere", (char *)16, NULL);
    locate("shadow", (char *)0x7fff8000, NULL);
    locate("the shadow of the shadow", (char *)0x7fff8000 + 0x7fff8000 / 8, NULL);
    is_in("malloc", (void *)make, frames, __asan_get_alloc_stack(made, frames, 8, &thread));
    printf("free: %zu, thread %d\n", __asan_get_free_stack(made, frames, 8, &thread), thread);
    say_anew("inside a block", made + 1);
    is_in("malloc", (void *)make, frames, __asan_get_alloc_stack(made, frames, 8, &thread));
    say_anew("a block", made);
    is_in("malloc", (void *)make, frames, __asan_get_alloc_stack(made, frames, 8, &thread));
    is_in("anew", (void *)say_anew, frames, __asan_get_alloc_stack(made, frames, 8, &thread));
    drop(made);
    say_anew("a freed block", made);
    say_anew("no block", local);
    locate("a freed block", made + 3, made);
    is_in("malloc", (void *)make, frames, __asan_get_alloc_stack(made, frames, 8, &thread));
    is_in("free", (void *)drop, frames, __asan_get_free_stack(made, frames, 8, &thread));
    printf("elsewhere: %zu\n", __asan_get_alloc_stack(local, frames, 8, &thread));
    int found = __sanitizer_get_module_and_offset_for_pc((void *)addresses, path, sizeof path, &offset);
    const char *slash = strrchr(path, '/');
    printf("module: %d %s %d\n", found, slash != NULL ? "name" : path, offset != NULL);
    printf("module: %d\n", __sanitizer_get_module_and_offset_for_pc((void *)16, path, sizeof path, &offset));
}

static __attribute__((noinline)) void print_to_file(void)
{
    char text[4096] = "";
    __sanitizer_set_report_path("told.said");
    __sanitizer_print_stack_trace();
    FILE *file = fopen(__sanitizer_get_report_path(), "r");
    if (file != NULL)
        text[fread(text, 1, sizeof text - 1, file)] = 0;
    printf("%d%d%d%d\n", file != NULL, strncmp(text, "    #0 0x", 9) == 0,
           strstr(text, " in __sanitizer_print_stack_trace ") != NULL, strstr(text, "\n    #3 0x") != NULL);
    if (file != NULL)
        fclose(file);
    __sanitizer_set_report_path("stderr");
}

int main(int count, char **argv)
{
    setvbuf(stdout, NULL, _IONBF, 0);
    __asan_set_error_report_callback(on_report);
    printf("none: %d\n", __asan_report_present());
    if (count > 1) {
        wrong_free(argv[1][0] == 'd');
        return 0;
    }
    bugs();
    addresses();
    print_to_file();
    __sanitizer_print_stack_trace();
    return 0;
}

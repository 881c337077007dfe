/* The C library: its output, environment, locale, loader, and errno. */
#define _GNU_SOURCE
#include <dlfcn.h>
#include <fcntl.h>
#include <fenv.h>
#include <getopt.h>
#include <glob.h>
#include <iconv.h>
#include <langinfo.h>
#include <libgen.h>
#include <link.h>
#include <locale.h>
#include <math.h>
#include <pwd.h>
#include <regex.h>
#include <signal.h>
#include <stdbool.h>
#include <sys/auxv.h>
#include <sys/mman.h>
#include <sys/resource.h>
#include <sys/stat.h>
#include <sys/time.h>
#include <sys/utsname.h>
#include <sys/wait.h>
#include <time.h>
#include <wchar.h>

#include "alone.h"

extern char **environ;

SITUATION(locales)
{
    say("%s", setlocale(LC_ALL, NULL));
    TELL(strcmp(setlocale(LC_ALL, ""), "C"));
    say("%s %s", nl_langinfo(CODESET), nl_langinfo(RADIXCHAR));
    TELL(setlocale(LC_ALL, "xx_YY") == NULL);
    TELL(setlocale(LC_ALL, "C.UTF-8") != NULL);
    TELL(mbstowcs(NULL, "\xc3\xa9", 0));
    TELL((long)MB_CUR_MAX);
    TELL(iconv_open("nothing", "UTF-8") == (iconv_t)-1);
}

SITUATION(order_of_output)
{
    printf("first to output\n");
    fprintf(stderr, "first to error\n");
    say("at once");
    printf("second to output\n");
    TELL(setvbuf(stdout, NULL, _IONBF, 0));
    printf("third to output\n");
    fflush(stdout);
    printf("%2$s %1$d\n", 5, "words");
    TELL(fputs("", stdin));
    TELL(getchar());
    TELL(feof(stdin));
}

SITUATION(output_not_flushed)
{
    for (int i = 0; i < 2000; i++)
        printf("line %d\n", i);
}

SITUATION(errno_kept)
{
    errno = 111;
    void *volatile block = malloc(1000);
    say("%d", errno);
    errno = 112;
    free(block);
    say("%d", errno);
    errno = 113;
    block = calloc(10, 1000000);
    say("%d", errno);
    errno = 114;
    block = realloc(block, 50);
    say("%d", errno);
    free(block);
    errno = 115;
    block = strdup("text");
    say("%d", errno);
    free(block);
    errno = 116;
    block = aligned_alloc(64, 640);
    free(block);
    say("%d", errno);
    errno = 117;
    char text[64];
    snprintf(text, sizeof text, "%s %d %f", "x", 5, 1.5);
    memcpy(hide(text), "abc", 4);
    strtol("12", NULL, 10);
    say("%d %s", errno, text);
    errno = 118;
    pthread_join(begin(hide, NULL), NULL);
    say("%d", errno);
    errno = 119;
    dlclose(dlopen("libm.so.6", RTLD_LAZY));
    say("%d", errno);
    errno = 120;
    pid_t child = fork();
    if (child == 0) {
        say("%d", errno);
        _exit(0);
    }
    say("%d", errno);
    waitpid(child, NULL, 0);
    errno = 121;
    raise(SIGCHLD);
    signal(SIGUSR1, SIG_IGN);
    raise(SIGUSR1);
    getpid();
    say("%d", errno);
    errno = 122;
    TELL(isatty(0));
    TELL(strtol("99999999999999999999", NULL, 10) > 0);
}

SITUATION(environment)
{
    TELL(setenv("ALONE_A", "1", 1));
    TELL(setenv("ALONE_A", "2", 0));
    say("%s", getenv("ALONE_A"));
    TELL(setenv("", "x", 1));
    TELL(setenv("A=B", "x", 1));
    TELL(unsetenv("ALONE_A"));
    TELL(unsetenv(""));
    static char own[] = "ALONE_B=here";
    TELL(putenv(own));
    TELL(getenv("ALONE_B") == own + 8);
    own[8] = 'H';
    say("%s", getenv("ALONE_B"));
    TELL(secure_getenv("ALONE_B") == own + 8);
    static char *few[] = {(char *)"ONE=1", (char *)"TWO=2", (char *)"ONE=3", NULL};
    environ = few;
    say("%s", getenv("ONE"));
    TELL(system("env | grep -v -e ^PWD= -e ^SHLVL= -e ^_= -e ^ASANCOL -e ^LD_PRELOAD"));
    TELL(clearenv());
    TELL(environ == NULL);
    TELL(system("env | grep -v -e ^PWD= -e ^SHLVL= -e ^_= -e ^ASANCOL -e ^LD_PRELOAD"));
    pid_t child = fork();
    if (child == 0) {
        char *const argv[] = {(char *)"env", NULL}, *const none[] = {NULL};
        execve("/usr/bin/env", argv, none);
    }
    say_end("env", child);
}

SITUATION(first_of_environment)
{
    int count = 0;
    for (char **it = environ; *it; it++)
        count += strncmp(*it, "ASANCOL", 7) != 0 && strncmp(*it, "LD_PRELOAD", 10) != 0;
    say("%d", count);
    say("%s", getenv("LD_PRELOAD") ? getenv("LD_PRELOAD") : "-");
    say("%s", getenv("LD_LIBRARY_PATH") ? getenv("LD_LIBRARY_PATH") : "-");
    say("%s", getenv("ASAN_OPTIONS") ? getenv("ASAN_OPTIONS") : "-");
}

static int count_object(struct dl_phdr_info *info, size_t size, void *count)
{
    (void)size;
    const char *slash = strrchr(info->dlpi_name, '/');
    *(int *)count += !slash || (!strstr(slash, "asancol") && !strstr(slash, "libmodule"));
    return 0;
}

SITUATION(objects_loaded)
{
    int count = 0;
    TELL(dl_iterate_phdr(count_object, &count));
    say("%d", count);
    struct link_map *first = NULL;
    TELL(dlinfo(dlopen(NULL, RTLD_LAZY), RTLD_DI_LINKMAP, &first));
    say("%s", first ? first->l_name : "-");
}

SITUATION(symbols_found)
{
    static const char *const names[] = {"malloc",      "free",    "memcpy",        "printf",
                                        "nonexistent", "environ", "pthread_create"};
    for (size_t i = 0; i < sizeof names / sizeof *names; i++) {
        void *at = dlsym(RTLD_DEFAULT, names[i]), *next = dlsym(RTLD_NEXT, names[i]);
        Dl_info info = {0};
        int result = at ? dladdr(at, &info) : 0;
        say("%s: %d %d %d", names[i], at != NULL, next != NULL, result);
    }
    TELL(dlerror() != NULL);
    TELL(dlerror() == NULL);
    void *opened = dlopen("libnonexistent.so", RTLD_NOW);
    say("%d %s", opened == NULL, dlerror());
    opened = dlopen("libm.so.6", RTLD_NOW | RTLD_LOCAL);
    void *again = dlopen("libm.so.6", RTLD_NOW | RTLD_NOLOAD);
    TELL(opened == again);
    double (*cosine)(double) = (double (*)(double))dlsym(opened, "cos");
    say("%.3f", cosine(0));
    TELL(dlsym(opened, "nothing") == NULL);
    say("%s", strstr(dlerror(), "undefined symbol"));
    TELL(dlclose(again));
    TELL(dlclose(opened));
    void *with_name = dlvsym(RTLD_DEFAULT, "memcpy", "GLIBC_2.14");
    TELL(with_name != NULL);
    void *self = dlopen(NULL, RTLD_NOW);
    TELL(dlsym(self, "malloc") == dlsym(RTLD_DEFAULT, "malloc"));
    TELL(dlclose(self));
}

SITUATION(options_of_commands)
{
    char *argv[] = {(char *)"command", (char *)"-a",   (char *)"-z",        (char *)"--lon", (char *)"-b",
                    (char *)"v",       (char *)"rest", (char *)"--unknown", (char *)"-b",    NULL};
    static const struct option long_ones[] = {
        {"long", no_argument, NULL, 'l'}, {"longer", no_argument, NULL, 'm'}, {0}};
    optind = 1;
    for (int got; (got = getopt_long(9, argv, "ab:", long_ones, NULL)) != -1;)
        say("%c %s %d", got, optarg ? optarg : "-", optind);
    for (int i = 0; i < 9; i++)
        say("%s", argv[i]);
}

SITUATION(messages)
{
    errno = ENOENT;
    perror("perror");
    errno = EACCES;
    fprintf(stderr, "%m\n");
    say("%s", strerror(2));
    say("%s", strerror(9999));
    fprintf(stderr, "%s\n", strsignal(SIGSEGV));
}

SITUATION(masks_and_folders)
{
    TELL(umask(077));
    TELL(umask(027));
    TELL(close(open("file", O_CREAT | O_WRONLY, 0666)));
    TELL(mkdir("folder", 0777));
    TELL(chdir("folder"));
    char path[4096];
    TELL_KIND(getcwd(path, sizeof path));
    say("%s", basename(path));
    TELL(getcwd(path, 2) == NULL);
    TELL(rmdir("../folder"));
    TELL(getcwd(path, sizeof path) == NULL);
    TELL(chdir(".."));
    TELL(chdir("/nonexistent"));
    TELL(access("file", R_OK));
    TELL(mkstemp((char[]){"name"}));
    glob_t found;
    TELL(glob("f*", 0, NULL, &found));
    say("%zu %s", found.gl_pathc, found.gl_pathv[0]);
    globfree(&found);
}

SITUATION(auxiliary_vector)
{
    static const unsigned long asked[] = {AT_PAGESZ, AT_UID,    AT_EUID,  AT_SECURE,
                                          AT_HWCAP,  AT_CLKTCK, AT_FLAGS, AT_MINSIGSTKSZ};
    for (size_t i = 0; i < sizeof asked / sizeof *asked; i++)
        TELL(getauxval(asked[i]));
    TELL(getauxval(12345));
    const char *random = (const char *)getauxval(AT_RANDOM);
    TELL(random != NULL);
    TELL(getauxval(AT_SYSINFO_EHDR) != 0);
}

SITUATION(floating_environment)
{
    TELL(fetestexcept(FE_ALL_EXCEPT));
    volatile double zero = 0, one = 1;
    volatile double result = one / zero;
    say("%f %d", result, fetestexcept(FE_DIVBYZERO) != 0);
    TELL(feclearexcept(FE_ALL_EXCEPT));
    TELL(fesetround(FE_UPWARD));
    void *volatile block = malloc(100000);
    free(block);
    TELL(fegetround() == FE_UPWARD);
    TELL(fetestexcept(FE_ALL_EXCEPT));
    TELL(fesetround(FE_TONEAREST));
    TELL(feenableexcept(FE_DIVBYZERO));
    for (size_t i = 1; i < 1000; i++)
        free(hide(malloc(i * 100)));
    pid_t child = fork();
    if (child == 0) {
        result = one / zero;
        _exit(0);
    }
    say_end("child", child);
}

SITUATION(files_by_stdio)
{
    FILE *file = fopen("file", "w+");
    TELL(fprintf(file, "one %d\ntwo\n", 1));
    TELL(fseek(file, 0, SEEK_SET));
    char *line = NULL;
    size_t room = 0;
    TELL(getline(&line, &room, file));
    TELL(getdelim(&line, &room, 'w', file));
    TELL(ungetc('x', file));
    TELL(fgetc(file));
    TELL(ftell(file));
    TELL(fclose(file));
    free(line);
    TELL_KIND(fopen("/nonexistent/x", "r"));
    TELL_KIND(fopen("file", "z"));
    char *text = NULL;
    size_t size = 0;
    file = open_memstream(&text, &size);
    TELL(fputs("in memory", file));
    TELL(fclose(file));
    say("%s %zu", text, size);
    free(text);
    file = fmemopen(NULL, 100, "w+");
    TELL(fputs("text", file));
    TELL(fclose(file));
    TELL(remove("file"));
    TELL(rename("nothing", "other"));
}

SITUATION(users)
{
    struct passwd *root = getpwnam("root");
    say("%s %d", root ? root->pw_dir : "-", root ? (int)root->pw_uid : -1);
    TELL(getpwnam("nobody-of-this-name") == NULL);
    struct utsname name;
    TELL(uname(&name));
    say("%s", name.sysname);
}

SITUATION(expressions)
{
    regex_t made;
    char text[100];
    int error = regcomp(&made, "a(b", REG_EXTENDED);
    TELL(regerror(error, &made, text, sizeof text));
    say("%s", text);
    TELL(regcomp(&made, "a(b+)c", REG_EXTENDED));
    regmatch_t found[2];
    TELL(regexec(&made, "xxabbbc", 2, found, 0));
    say("%d %d", found[1].rm_so, found[1].rm_eo);
    regfree(&made);
}

static int order[8], ordered;

__attribute__((constructor(102))) static void starts_second(void)
{
    order[ordered++] = 2;
}

__attribute__((constructor(101))) static void starts_first(void)
{
    order[ordered++] = 1;
}

__attribute__((constructor)) static void starts_last(int count, char **argv, char **variables)
{
    order[ordered++] = count > 0 && argv[count] == NULL && variables == argv + count + 1 ? 3 : 4;
}

SITUATION(constructors)
{
    for (int i = 0; i < ordered; i++)
        say("%d", order[i]);
}

SITUATION(random_numbers)
{
    say("%ld", random());
    srand(5);
    say("%d %d", rand(), rand());
    srand48(5);
    say("%ld", lrand48());
}

/* Stateless: a text is expanded at its percent signs, and folders are tried in order. */
#define _GNU_SOURCE
#include "names.h"

#include <errno.h>
#include <limits.h>
#include <stdio.h>
#include <stdlib.h>
#include <string.h>
#include <sys/stat.h>
#include <unistd.h>

#include "common/array.h"
#include "common/path.h"
#include "say.h"

bool names_make_folders(const char *path)
{
    char *above = must(strdup(path)), *last = strrchr(above, '/');
    if (last == NULL) {
        free(above);
        return access(".", W_OK | X_OK) == 0;
    }
    for (char *slash = strchr(above + 1, '/'); slash != NULL; slash = strchr(slash + 1, '/')) {
        *slash = 0;
        mkdir(above, 0777); /* it may be there */
        *slash = '/';
    }
    last[last == above] = 0;
    bool is_good = access(above, W_OK | X_OK) == 0;
    int why = errno;
    free(above);
    errno = why;
    return is_good;
}

int name_descriptor(const char *name)
{
    static const char *const standard[] = {"/dev/stdin", "/dev/stdout", "/dev/stderr"};
    static const char *const folders[] = {"/dev/fd/", "/proc/self/fd/"};
    for (int i = 0; i <= STDERR_FILENO; i++)
        if (strcmp(name, standard[i]) == 0)
            return i;
    for (size_t i = 0; i < sizeof folders / sizeof *folders; i++) {
        const char *digits = name + strlen(folders[i]);
        if (strncmp(name, folders[i], strlen(folders[i])) == 0 && *digits != 0 && strlen(digits) < 8
            && digits[strspn(digits, "0123456789")] == 0)
            return atoi(digits);
    }
    return -1;
}

/* Writes the value of the mark %q{NAME}, and answers where the mark ends. */
static const char *expand_variable(FILE *to, const char *option, const char *text)
{
    const char *end = strchr(text, '}');
    char name[256];
    if (end == NULL)
        fail(OWN_FAILURE, option, "%q{ has no }");
    snprintf(name, sizeof name, "%.*s", (int)(end - text - 3), text + 3);
    const char *value = getenv(name);
    if (value == NULL) {
        char what[512];
        snprintf(what, sizeof what, "%%q{%s}: there is no such environment variable", name);
        fail(OWN_FAILURE, option, what);
    }
    fputs(value, to);
    return end + 1;
}

static void put_folder(FILE *to)
{
    char folder[PATH_MAX];
    if (getcwd(folder, sizeof folder) != NULL)
        fprintf(to, "%s/", strcmp(folder, "/") == 0 ? "" : folder);
}

char *name_expanded(const char *option, const char *text)
{
    char *name = NULL;
    size_t length = 0;
    if (*text == 0)
        fail(OWN_FAILURE, option, "the name is empty");
    FILE *to = must(open_memstream(&name, &length));
    if (text[0] != '/')
        put_folder(to);
    while (*text != 0) {
        if (text[0] == '%' && text[1] == 'p') {
            fprintf(to, "%d", getpid());
            text += 2;
        } else if (text[0] == '%' && text[1] == '%') {
            fputc('%', to);
            text += 2;
        } else if (text[0] == '%' && text[1] == 'q' && text[2] == '{') {
            text = expand_variable(to, option, text);
        } else if (text[0] == '%') {
            fail(OWN_FAILURE, option, "after a % comes p, q{NAME} or another %");
        } else {
            fputc(*text++, to);
        }
    }
    if (fclose(to) != 0)
        must(NULL);
    return name;
}

/* The file of that name in the first of these folders, which are counted from that of this program, where there is such
   a one; or null. */
static char *find_beside(const char *const *folders, size_t count, const char *name, bool is_such(const char *))
{
    char self[PATH_MAX], folder[PATH_MAX + 32];
    ssize_t length = readlink("/proc/self/exe", self, sizeof self - 1);
    self[length > 0 ? length : 0] = 0;
    char *slash = strrchr(self, '/');
    if (slash == NULL)
        return NULL;
    *slash = 0;
    for (size_t i = 0; i < count; i++) {
        snprintf(folder, sizeof folder, "%s%s", self, folders[i]);
        char *path = path_in(folder, strlen(folder), name);
        if (is_such(path))
            return path;
        free(path);
    }
    return NULL;
}

char *find_own_program(const char *name, const char *variable)
{
    /* Where all is installed; and in the tree that all is built in. */
    static const char *const folders[] = {"", "/..", "/../report"};
    const char *named = getenv(variable);
    if (named != NULL && *named != 0)
        return path_of_program(named, NULL);
    char *path = find_beside(folders, COUNT(folders), name, path_is_program);
    return path != NULL ? path : path_of_program(name, NULL);
}

static bool can_be_read(const char *path)
{
    return access(path, R_OK) == 0;
}

char *find_recorders_file(const char *name)
{
    static const char *const folders[] = {"/../lib/asancol", "/../recorder"};
    char *path = find_beside(folders, COUNT(folders), name, can_be_read);
    return path != NULL ? realpath(path, NULL) : NULL;
}

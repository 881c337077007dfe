/* What the situations share. */
#define _GNU_SOURCE
#include <fcntl.h>
#include <sched.h>
#include <signal.h>
#include <stdbool.h>
#include <stdarg.h>
#include <stdint.h>
#include <sys/resource.h>
#include <sys/syscall.h>
#include <sys/wait.h>
#include <time.h>

#include "alone.h"

static void put(const char *text, size_t size)
{
    int kept = errno;
    while (size > 0) {
        ssize_t written = write(1, text, size);
        if (written <= 0)
            break;
        text += written;
        size -= (size_t)written;
    }
    errno = kept;
}

void say(const char *format, ...)
{
    char line[4096];
    va_list values;
    va_start(values, format);
    int size = vsnprintf(line, sizeof line - 1, format, values);
    va_end(values);
    if (size < 0)
        return;
    size_t length = (size_t)size < sizeof line - 2 ? (size_t)size : sizeof line - 2;
    line[length] = '\n';
    put(line, length + 1);
}

static const char *error_name(int number)
{
    const char *name = strerrorname_np(number);
    return number == 0 ? "" : name ? name : "?";
}

void say_result(const char *call, long result)
{
    say("%s = %ld %s", call, result, error_name(errno));
}

void say_kind(const char *call, long result)
{
    say("%s %s %s", call, result == 0 ? "is 0" : result == -1 ? "is -1" : "is", error_name(errno));
}

void say_status(const char *who, int status)
{
    if (WIFEXITED(status))
        say("%s exited with %d", who, WEXITSTATUS(status));
    else if (WIFSIGNALED(status))
        say("%s was ended by SIG%s%s", who, sigabbrev_np(WTERMSIG(status)) ? sigabbrev_np(WTERMSIG(status)) : "RT",
            WCOREDUMP(status) ? " with a core" : "");
    else if (WIFSTOPPED(status))
        say("%s was stopped by SIG%s", who, sigabbrev_np(WSTOPSIG(status)));
    else if (WIFCONTINUED(status))
        say("%s was continued", who);
}

void say_end(const char *who, pid_t child)
{
    int status = 0;
    pid_t got = waitpid(child, &status, 0);
    if (got == child)
        say_status(who, status);
    else
        say("%s: waitpid fails: %s", who, error_name(errno));
}

void *hide(void *value)
{
    __asm__ volatile("" : "+r"(value) : : "memory");
    return value;
}

static char state_of(pid_t thread)
{
    char path[64], text[256];
    snprintf(path, sizeof path, "/proc/%d/stat", (int)thread);
    int file = open(path, O_RDONLY | O_CLOEXEC);
    if (file < 0)
        return 'X';
    ssize_t size = read(file, text, sizeof text - 1);
    close(file);
    text[size < 0 ? 0 : size] = 0;
    const char *at = strrchr(text, ')');
    return at ? at[2] : 'X';
}

void wait_asleep(pid_t thread)
{
    for (int seen = 0, turn = 0; seen < 3 && turn < 20000; turn++) {
        char state = state_of(thread);
        seen = state == 'S' || state == 'X' || state == 'Z' || state == 'T' || state == 't' ? seen + 1 : 0;
        usleep(seen ? 300 : 1000);
    }
}

pthread_t begin(void *(*run)(void *), void *argument)
{
    pthread_t thread;
    int error = pthread_create(&thread, NULL, run, argument);
    if (error) {
        say("no thread: %s", error_name(error));
        _exit(9);
    }
    return thread;
}

void become(const char *name)
{
    execl("/proc/self/exe", "alone", name, (char *)NULL);
    say("exec fails: %s", error_name(errno));
    _exit(9);
}

void say_lines(const char *path, const char *const *words)
{
    FILE *file = fopen(path, "re");
    char line[4096];
    if (!file)
        say("%s: %s", path, error_name(errno));
    while (file && fgets(line, sizeof line, file)) {
        line[strcspn(line, "\n")] = 0;
        bool is_wanted = !words;
        for (size_t i = 0; words && words[i]; i++)
            is_wanted |= strncmp(line, words[i], strlen(words[i])) == 0;
        if (is_wanted)
            say("%s", line);
    }
    if (file)
        fclose(file);
}

static void list(void)
{
    for (const struct situation *it = __start_situations; it < __stop_situations; it++) {
        const char *slash = strrchr(it->file, '/');
        printf("%s %s\n", slash ? slash + 1 : it->file, it->name);
    }
}

int situations_main(int count, char **argv)
{
    struct rlimit none = {0, 0};
    setrlimit(RLIMIT_CORE, &none); /* a file of that would differ */
    const char *name = count > 1 ? argv[1] : "--list";
    if (strcmp(name, "--list") == 0) {
        list();
        return 0;
    }
    for (const struct situation *it = __start_situations; it < __stop_situations; it++) {
        if (strcmp(it->name, name) == 0) {
            it->run();
            return 0;
        }
    }
    fprintf(stderr, "no situation %s\n", name);
    return 9;
}

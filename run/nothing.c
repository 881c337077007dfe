/* Three reasons can be seen: a signal; a program that has AddressSanitizer's runtime; a command that is a static
   program, in which no library of ours is loaded. */
#define _GNU_SOURCE
#include "nothing.h"

#include <elf.h>
#include <fcntl.h>
#include <stdio.h>
#include <stdlib.h>
#include <string.h>
#include <sys/mman.h>
#include <sys/stat.h>
#include <sys/wait.h>
#include <unistd.h>

#include "common/crash.h"
#include "common/path.h"
#include "say.h"
#include "unchecked.h"
#include "verdict.h"

/* A function that each program calls which was compiled for AddressSanitizer. Ours calls it too. */
#define SANITIZED "__asan_init"

/* Answers the whole file, or null. */
static const char *map_file(const char *path, size_t *size)
{
    struct stat seen;
    int file = open(path, O_RDONLY | O_CLOEXEC | O_NONBLOCK | O_NOCTTY);
    void *mapped = MAP_FAILED;
    if (file >= 0 && fstat(file, &seen) == 0 && S_ISREG(seen.st_mode) && seen.st_size > 0)
        mapped = mmap(NULL, *size = (size_t)seen.st_size, PROT_READ, MAP_PRIVATE, file, 0);
    if (file >= 0)
        close(file);
    return mapped != MAP_FAILED ? mapped : NULL;
}

static bool is_sanitized(const char *path)
{
    size_t size;
    const char *bytes = map_file(path, &size);
    bool is_there = bytes != NULL && memmem(bytes, size, SANITIZED, sizeof SANITIZED) != NULL;
    if (bytes != NULL)
        munmap((void *)bytes, size);
    return is_there;
}

/* Whether no dynamic linker starts it. */
static bool has_no_interpreter(const char *bytes, size_t size)
{
    Elf64_Ehdr header;
    if (size < sizeof header || memcmp(bytes, ELFMAG, SELFMAG) != 0 || bytes[EI_CLASS] != ELFCLASS64)
        return false;
    memcpy(&header, bytes, sizeof header);
    if (header.e_phentsize != sizeof(Elf64_Phdr) || header.e_phoff > size
        || header.e_phnum > (size - header.e_phoff) / sizeof(Elf64_Phdr))
        return false;
    for (size_t i = 0; i < header.e_phnum; i++) {
        Elf64_Phdr part;
        memcpy(&part, bytes + header.e_phoff + i * sizeof part, sizeof part);
        if (part.p_type == PT_INTERP)
            return false;
    }
    return true;
}

static bool is_static(const char *command)
{
    size_t size;
    char *path = path_of_program(command, NULL);
    const char *bytes = path != NULL ? map_file(path, &size) : NULL;
    bool is_found = bytes != NULL && has_no_interpreter(bytes, size);
    if (bytes != NULL)
        munmap((void *)bytes, size);
    free(path);
    return is_found;
}

/* The first program of the run that is built for AddressSanitizer, or null. */
static const char *sanitized_program(void)
{
    const char *program;
    for (size_t i = 0; (program = unchecked_program(i)) != NULL; i++)
        if (is_sanitized(program))
            return program;
    return NULL;
}

int signal_of(int status)
{
    return WIFSIGNALED(status) ? WTERMSIG(status) : WIFEXITED(status) ? WEXITSTATUS(status) - 128 : 0;
}

char *nothing_text(const char *command, int status, bool has_timed_out)
{
    const char *program = sanitized_program();
    int signal = has_timed_out ? 0 : signal_of(status);
    char *text;
    int length;
    if (program != NULL)
        length = asprintf(&text, "NOTHING WAS RECORDED: %s was built for AddressSanitizer: build it with asancol-cc",
                          program);
    else if (signal > 0 && crash_is((unsigned)signal))
        length = asprintf(&text, "NOTHING WAS RECORDED: %s ended by %s before a recording began, or not built with "
                          "asancol-cc",
                          WIFSIGNALED(status) ? "the command was" : "a program of the command was",
                          signal_name(signal));
    else if (is_static(command))
        length = asprintf(&text, "NOTHING WAS RECORDED: %s is a static program that was not built with asancol-cc",
                          command);
    else
        length = asprintf(&text, "NOTHING WAS RECORDED: was a program built with asancol-cc?");
    return length < 0 ? must(NULL) : text;
}

/* The first process of an emulated system (arm_system.py): init PROGRAM WORD.. runs the program with each word and
   records it into files, shows these on the console, without rows of zeros, and turns the system off. */
#define _GNU_SOURCE
#include <fcntl.h>
#include <stdio.h>
#include <stdlib.h>
#include <string.h>
#include <sys/mount.h>
#include <sys/reboot.h>
#include <sys/stat.h>
#include <sys/wait.h>
#include <unistd.h>

enum { ROW = 16, PART = 4096 };

static void show_part(const unsigned char *part, long offset)
{
    static const unsigned char zeros[ROW];
    for (int at = 0; at < PART; at += ROW) {
        if (memcmp(part + at, zeros, ROW) == 0)
            continue;
        printf("ROW %ld ", offset + at);
        for (int i = 0; i < ROW; i++)
            printf("%02x", part[at + i]);
        putchar('\n');
    }
}

static void show(const char *path)
{
    unsigned char part[PART];
    int file = open(path, O_RDONLY);
    if (file < 0)
        return;
    printf("FILE %s %ld\n", path, (long)lseek(file, 0, SEEK_END));
    for (long at = 0; (at = lseek(file, at, SEEK_DATA)) >= 0; at += PART) {
        at -= at % PART;
        memset(part, 0, sizeof part);
        if (pread(file, part, sizeof part, at) <= 0)
            break;
        show_part(part, at);
    }
    close(file);
}

static void run(char *program, char *word)
{
    char trace[200], where[220];
    int status = 0;
    snprintf(trace, sizeof trace, "/out/%s.trace", word);
    snprintf(where, sizeof where, "%s.where", trace);
    pid_t child = fork();
    if (child == 0) {
        setenv("ASANCOL_TRACE", trace, 1);
        setenv("ASANCOL_WHERE", "1", 1);
        execv(program, (char *[]){program, word, NULL});
        _exit(127);
    }
    waitpid(child, &status, 0);
    printf("STATUS %s %x\n", word, (unsigned)status);
    show(trace);
    show(where);
}

int main(int count, char **argv)
{
    static const char *const folders[] = {"/proc", "/out"};
    for (int i = 0; i < 2; i++)
        mkdir(folders[i], 0755);
    mount("proc", "/proc", "proc", 0, NULL);
    mount("out", "/out", "tmpfs", 0, NULL);
    for (int i = 2; i < count; i++)
        run(argv[1], argv[i]);
    fflush(stdout);
    sync();
    reboot(RB_POWER_OFF);
    return 1;
}

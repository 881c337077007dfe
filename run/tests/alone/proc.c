/* What a process learns of itself from the system. */
#define _GNU_SOURCE
#include <dirent.h>
#include <fcntl.h>
#include <libgen.h>
#include <linux/securebits.h>
#include <sched.h>
#include <signal.h>
#include <sys/auxv.h>
#include <sys/personality.h>
#include <sys/prctl.h>
#include <sys/resource.h>
#include <sys/stat.h>
#include <sys/syscall.h>
#include <sys/wait.h>

#include "alone.h"

extern char **environ;

static void say_file(const char *path)
{
    char text[4096];
    int file = open(path, O_RDONLY);
    ssize_t size = read(file, text, sizeof text - 1);
    close(file);
    for (ssize_t i = 0; i < size; i++)
        if (text[i] == 0)
            text[i] = '|';
    text[size < 0 ? 0 : size] = 0;
    say("%s: %s", path, text);
}

SITUATION(proc_names)
{
    say_file("/proc/self/cmdline");
    say_file("/proc/self/comm");
    char path[4096] = "";
    TELL_KIND(readlink("/proc/self/exe", path, sizeof path - 1));
    say("%s", basename(path));
    say("%s %s", program_invocation_name, program_invocation_short_name);
    say("%s", basename((char *)getauxval(AT_EXECFN)));
    TELL(prctl(PR_SET_NAME, "renamed"));
    say_file("/proc/self/comm");
    TELL(pthread_setname_np(pthread_self(), "again"));
    say_file("/proc/thread-self/comm");
}

SITUATION(proc_status)
{
    static const char *const words[] = {
        "Name",         "Umask",  "State",  "TracerPid",    "Uid",         "Gid",         "Groups",
        "Threads",      "SigPnd", "ShdPnd", "SigBlk",       "SigIgn",      "CapInh",      "CapPrm",
        "CapEff",       "CapBnd", "CapAmb", "NoNewPrivs",   "Seccomp",     "Speculation", "Cpus_allowed",
        "Mems_allowed", "VmLck",  "VmPin",  "HugetlbPages", "CoreDumping", "THP_enabled", NULL};
    say_lines("/proc/self/status", words);
}

SITUATION(proc_signals)
{
    static const char *const words[] = {"SigCgt", NULL};
    say_lines("/proc/self/status", words);
}

SITUATION(proc_limits)
{
    say_lines("/proc/self/limits", NULL);
    for (int i = 0; i < RLIM_NLIMITS; i++) {
        struct rlimit limit;
        TELL(getrlimit(i, &limit));
        say("%ld %ld", (long)limit.rlim_cur, (long)limit.rlim_max);
    }
}

SITUATION(proc_small_files)
{
    say_file("/proc/self/coredump_filter");
    say_file("/proc/self/oom_score_adj");
    say_file("/proc/self/loginuid");
    say_file("/proc/self/personality");
    say_file("/proc/self/timerslack_ns");
    say_file("/proc/self/uid_map");
    say_file("/proc/self/setgroups");
    say_file("/proc/self/task/1/comm");
    say_file("/proc/self/timers");
    say_file("/proc/self/cgroup");
    TELL(personality(0xffffffff));
}

static int count_of(const char *path)
{
    DIR *folder = opendir(path);
    int count = 0;
    for (struct dirent *it; folder && (it = readdir(folder));)
        count += it->d_name[0] != '.';
    closedir(folder);
    return count;
}

SITUATION(proc_threads)
{
    TELL(count_of("/proc/self/task"));
    TELL(gettid() == getpid());
    free(hide(malloc(1000000)));
    TELL(count_of("/proc/self/task"));
    char path[64], text[64];
    snprintf(path, sizeof path, "/proc/self/task/%d/children", gettid());
    int file = open(path, O_RDONLY);
    TELL(read(file, text, sizeof text));
    TELL(close(file));
}

SITUATION(proc_environment)
{
    char text[65536] = "";
    int file = open("/proc/self/environ", O_RDONLY);
    TELL_KIND(read(file, text, sizeof text - 2));
    for (char *it = text; *it; it += strlen(it) + 1)
        if (strncmp(it, "ASANCOL", 7) != 0 && strncmp(it, "LD_PRELOAD", 10) != 0)
            say("%s", it);
    for (char **it = environ; *it; it++)
        if (strncmp(*it, "ASANCOL", 7) != 0)
            say("%s", *it);
    TELL(close(file));
}

SITUATION(proc_attributes)
{
    static const int asked[] = {PR_GET_DUMPABLE,     PR_GET_KEEPCAPS,    PR_GET_TIMING,
                                PR_GET_NO_NEW_PRIVS, PR_GET_THP_DISABLE, PR_GET_SECUREBITS,
                                PR_MCE_KILL_GET,     PR_GET_SECCOMP,     PR_GET_IO_FLUSHER};
    for (size_t i = 0; i < sizeof asked / sizeof *asked; i++) {
        errno = 0;
        int result = prctl(asked[i], 0, 0, 0, 0);
        say("%d: %d %s", asked[i], result, errno ? strerrorname_np(errno) : "");
    }
    int value = 7;
    TELL(prctl(PR_GET_PDEATHSIG, &value));
    say("%d", value);
    TELL(prctl(PR_GET_CHILD_SUBREAPER, &value));
    say("%d", value);
    TELL(prctl(PR_GET_TSC, &value));
    say("%d", value);
    TELL(getpriority(PRIO_PROCESS, 0));
    TELL(sched_getscheduler(0));
    cpu_set_t set;
    TELL(sched_getaffinity(0, sizeof set, &set));
    say("%d", CPU_COUNT(&set));
    TELL(getpgrp() == getpid());
    TELL(getsid(0) == getpid());
    TELL(umask(022));
    TELL(getuid());
}

/* The ways out of a process, most of them without its exit handlers, and those into another program or a child; also by
   the program's own calls of the system.

   Called: by the program, in any thread, also in a handler and in a child of vfork. So nothing is allocated, and what
   an exec is given as a list lies on the stack. Lock: none is held or taken here, but a handler may have interrupted
   the allocator. By hooks.def ask_finish and ask_leave take the loader's, the allocator's and the stream's, and the
   allocator's may be kept from ask_leave up to note_exec_failed. fork and daemon come to the recorder's handlers of a
   fork, which take all three. */
#define _GNU_SOURCE
#include <errno.h>
#include <fcntl.h>
#include <linux/sched.h>
#include <linux/seccomp.h>
#include <signal.h>
#include <stdarg.h>
#include <stdlib.h>
#include <sys/prctl.h>
#include <sys/stat.h>
#include <unistd.h>

#include "base/system.h"
#include "calls/words.h"

REAL(_Noreturn void, exit, (int));
REAL(_Noreturn void, _exit, (int));
REAL(_Noreturn void, _Exit, (int));
REAL(_Noreturn void, quick_exit, (int));
REAL(_Noreturn void, abort, (void));
REAL(_Noreturn void, __assert_fail, (const char *, const char *, unsigned, const char *));
REAL(int, daemon, (int, int));
REAL(pid_t, fork, (void));
REAL(pid_t, _Fork, (void));
REAL(int, clone, (int (*)(void *), void *, int, void *, ...));
REAL(long, syscall, (long, ...));
REAL(int, execve, (const char *, char *const *, char *const *));
REAL(int, execv, (const char *, char *const *));
REAL(int, execvpe, (const char *, char *const *, char *const *));
REAL(int, execvp, (const char *, char *const *));
REAL(int, fexecve, (int, char *const *, char *const *));

/* An initialiser may exit: what its handlers access is not said to depend on the order of files. */
GUARD_OWN(exit);
CHECK _Noreturn void checked_exit(int status)
{
    note_after_init();
    real_exit(status);
}

GUARD_OWN(_exit);
CHECK _Noreturn void checked__exit(int status)
{
    real__exit(ask_finish(status));
}

GUARD_OWN(_Exit);
CHECK _Noreturn void checked__Exit(int status)
{
    real__Exit(ask_finish(status));
}

GUARD_OWN(quick_exit);
CHECK _Noreturn void checked_quick_exit(int status)
{
    note_quick_exit(status);
    real_quick_exit(status);
}

GUARD_OWN(abort);
CHECK _Noreturn void checked_abort(void)
{
    note_abort(CALLER());
    real_abort();
}

GUARD_OWN(__assert_fail);
CHECK _Noreturn void checked___assert_fail(const char *assertion, const char *file, unsigned line,
                                           const char *function)
{
    note_abort(CALLER());
    real___assert_fail(assertion, file, line, function);
}

/* Puts /dev/null in the place of the standard streams. Answers 0, or an error below zero. */
static int leave_streams(void)
{
    int null = system_open("/dev/null", O_RDWR, 0);
    struct stat seen;
    if (null < 0)
        return null;
    bool is_null = system_fstat(null, &seen) == 0 && S_ISCHR(seen.st_mode);
    for (int stream = STDIN_FILENO; is_null && stream <= STDERR_FILENO; stream++)
        system_dup2(null, stream);
    if (null > STDERR_FILENO)
        system_close(null);
    return is_null ? 0 : -ENODEV;
}

/* As the C library's, in which the parent ends where nobody sees it. */
GUARD_OWN(daemon);
CHECK int checked_daemon(int keeps_folder, int keeps_streams)
{
    if (!HAS_HOOKS)
        return real_daemon(keeps_folder, keeps_streams);
    int result = LIBRARY->fork();
    if (result > 0)
        system_exit(ask_finish(EXIT_SUCCESS));
    if (result < 0)
        return -1;
    result = system_setsid();
    if (result >= 0 && keeps_folder == 0)
        system_chdir("/");
    if (result >= 0 && keeps_streams == 0)
        result = leave_streams();
    if (result >= 0)
        return 0;
    errno = -result;
    return -1;
}

/* Its number is noted: a child that is ended at once says nothing itself. */
GUARD_OWN(fork);
CHECK pid_t checked_fork(void)
{
    IS_OWN_FRAME;
    pid_t child = real_fork();
    if (child > 0)
        note_child_forked(child);
    return child;
}

/* A function that returns twice is not called from here, where its second return would meet other frames: the caller's
   place is noted, and it goes on there. */
CHECK void note_caller_of_vfork(uintptr_t stack)
{
    note_vfork(stack);
}

GUARD_OWN(vfork);
TOP_ASM(".pushsection .text\n"
        ".type checked_vfork,@function\nchecked_vfork:\n"
        "\t.cfi_startproc\n"
        LANDING CALL_WITH_STACK_ALONE("note_caller_of_vfork") GO_BY_SLOT("__real_vfork")
        "\t.cfi_endproc\n"
        ".size checked_vfork, .-checked_vfork\n"
        ".popsection\n");

/* Forks of which the C library knows nothing. */

static void end_fork(long child)
{
    if (child == 0) {
        note_child_begins();
        return;
    }
    note_fork_ends();
    if (child > 0)
        note_child_forked((int)child);
}

GUARD_OWN(_Fork);
CHECK pid_t checked__Fork(void)
{
    IS_OWN_FRAME;
    note_fork_begins();
    pid_t child = real__Fork();
    end_fork(child);
    return child;
}

/* Whether the child gets all that this process has as a copy, and goes on with the same thread. */
static bool copies_process(uint64_t flags)
{
    return (flags & (CLONE_VM | CLONE_FILES | CLONE_SETTLS)) == 0;
}

/* Whether the C library can write there, above the child's stack, what the child is to do. A fault is to come while no
   lock is held: the program may handle it. */
static bool is_writable(void *stack)
{
    enum { WRITTEN = 16 };
    uintptr_t top = (uintptr_t)stack / WRITTEN * WRITTEN - WRITTEN;
    return system_sigprocmask(SIG_BLOCK, NULL, (uint64_t *)top) == 0;
}

/* What the child of clone is to do. */
struct beginning {
    int (*function)(void *);
    void *argument;
};

/* The C library ends the process with the answer, in silence. */
static int begin_child(void *with)
{
    IS_OWN_FRAME;
    const struct beginning *it = with;
    note_child_begins();
    return ask_finish(it->function(it->argument));
}

GUARD_OWN(clone);
CHECK int checked_clone(int (*function)(void *), void *stack, int flags, void *argument, ...)
{
    IS_OWN_FRAME;
    va_list rest;
    va_start(rest, argument);
    void *parent_number = va_arg(rest, void *), *tls = va_arg(rest, void *), *number = va_arg(rest, void *);
    va_end(rest);
    if (function == NULL || stack == NULL || !copies_process((unsigned)flags) || !is_writable(stack))
        return real_clone(function, stack, flags, argument, parent_number, tls, number);
    struct beginning beginning = {function, argument};
    note_fork_begins();
    int child = real_clone(begin_child, stack, flags, &beginning, parent_number, tls, number);
    end_fork(child);
    return child;
}

/* What the process has to take back if an exec fails. */
struct leaving {
    bool is_recorded, is_expected;
};

static struct leaving leave(const struct target *target)
{
    unsigned left = ask_leave(target);
    return (struct leaving){(left & LEFT_RECORDING) != 0, (left & LEFT_WORD) != 0};
}

/* The exec has failed: stays in the recording, and answers as the exec. */
static int stay(struct leaving leaving)
{
    int error = errno;
    if (leaving.is_recorded)
        note_exec_failed();
    if (leaving.is_expected)
        note_not_becoming();
    errno = error;
    return -1;
}

static char *const *environment_now(void)
{
    bool is_known = HAS_HOOKS && LIBRARY->environment != NULL;
    return is_known ? *LIBRARY->environment : NULL;
}

/* What cannot be read the system refuses. */
static void reads_target(const struct target *target, char *const *words, struct call call)
{
    call_gives(target->name, call);
    GIVES_LIST(words);
    GIVES_LIST(target->environment);
}

/* After the arguments stands what the process becomes. A function of another form has its own call. */
#define EXEC(name, parameters, arguments, ...)                                                                         \
    static int run_##name(struct call call, UNPACKED parameters)                                                       \
    {                                                                                                                  \
        IS_OWN_FRAME;                                                                                                  \
        const struct target target = {__VA_ARGS__};                                                                    \
        reads_target(&target, argv, call);                                                                             \
        struct leaving leaving = leave(&target);                                                                       \
        real_##name(UNPACKED arguments);                                                                               \
        return stay(leaving);                                                                                          \
    }                                                                                                                  \
    GUARD_OWN(name);                                                                                                   \
    CHECK int checked_##name(UNPACKED parameters)                                                                      \
    {                                                                                                                  \
        IS_OWN_FRAME;                                                                                                  \
        return run_##name(THIS_CALL(#name), UNPACKED arguments);                                                       \
    }

EXEC(execve, (const char *path, char *const *argv, char *const *environment), (path, argv, environment),
     .name = path, .environment = environment)
EXEC(execv, (const char *path, char *const *argv), (path, argv), .name = path, .environment = environment_now())
EXEC(execvpe, (const char *file, char *const *argv, char *const *environment), (file, argv, environment),
     .name = file, .is_looked_for = true, .environment = environment)
EXEC(execvp, (const char *file, char *const *argv), (file, argv),
     .name = file, .is_looked_for = true, .environment = environment_now())
EXEC(fexecve, (int descriptor, char *const *argv, char *const *environment), (descriptor, argv, environment),
     .descriptor = descriptor, .environment = environment)

/* How many arguments there are, with the null at their end. */
static size_t count_argv(va_list rest)
{
    size_t count = 2;
    while (va_arg(rest, char *) != NULL)
        count++;
    return count;
}

static void take_argv(char **argv, size_t count, const char *first, va_list rest)
{
    argv[0] = (char *)first;
    for (size_t i = 1; i < count; i++)
        argv[i] = va_arg(rest, char *);
}

#define WITH_ARGV(first, call)                                                                                         \
    va_list rest, again;                                                                                               \
    va_start(rest, first);                                                                                             \
    va_copy(again, rest);                                                                                              \
    size_t count = count_argv(rest);                                                                                   \
    char *argv[count];                                                                                                 \
    take_argv(argv, count, first, again);                                                                              \
    int result = call;                                                                                                 \
    va_end(again);                                                                                                     \
    va_end(rest);                                                                                                      \
    return result

GUARD_OWN(execl);
CHECK int checked_execl(const char *path, const char *first, ...)
{
    WITH_ARGV(first, run_execv(THIS_CALL("execl"), path, argv));
}

GUARD_OWN(execlp);
CHECK int checked_execlp(const char *file, const char *first, ...)
{
    WITH_ARGV(first, run_execvp(THIS_CALL("execlp"), file, argv));
}

GUARD_OWN(execle);
CHECK int checked_execle(const char *path, const char *first, ...)
{
    WITH_ARGV(first, run_execve(THIS_CALL("execle"), path, argv, va_arg(again, char **)));
}

/* Calls of the system by their numbers. A child that is to go on in the same frame, as that of vfork, would find it
   changed: so a stub goes to the C library's function in all cases but these. */

/* Whether this is a call of clone by which the child goes on here, in a copy of all. */
static bool is_fork(long number, long first, long second)
{
    struct clone_args asked;
    if (number == SYS_clone3) {
        if (!ask_is_there((uintptr_t)first, CLONE_ARGS_SIZE_VER0))
            return false;
        memcpy(&asked, (const void *)first, CLONE_ARGS_SIZE_VER0);
        return copies_process(asked.flags) && asked.stack == 0;
    }
#ifdef SYS_fork
    if (number == SYS_fork)
        return true;
#endif
    return number == SYS_clone && copies_process((unsigned long)first) && second == 0;
}

/* A filter of calls is known from here on, unless it is refused. */
static long install_filter(long number, long first, long second, long third, long fourth, long fifth)
{
    bool is_strict = second == SECCOMP_MODE_STRICT && number == SYS_prctl;
    if (number == SYS_seccomp)
        is_strict = first == SECCOMP_SET_MODE_STRICT;
    const struct filter *copy = ask_filter_copied(is_strict, (const void *)third);
    long result = real_syscall(number, first, second, third, fourth, fifth);
    bool is_for_all = number == SYS_seccomp && ((unsigned long)second & SECCOMP_FILTER_FLAG_TSYNC) != 0;
    note_filter_ends(copy, result == 0 || (result > 0 && !is_for_all), is_for_all);
    return result;
}

static bool is_installing(long number, long first)
{
    return (number == SYS_prctl && first == PR_SET_SECCOMP)
           || (number == SYS_seccomp && (first == SECCOMP_SET_MODE_STRICT || first == SECCOMP_SET_MODE_FILTER));
}

static long checked_call(long number, long first, long second, long third, long fourth, long fifth, long sixth)
{
    IS_OWN_FRAME;
    if (number == SYS_execve)
        return run_execve(THIS_CALL("syscall"), (const char *)first, (char *const *)second, (char *const *)third);
    if (number == SYS_exit_group || number == SYS_exit)
        return real_syscall(number, (long)ask_finish((int)first));
    if (number == SYS_prctl || number == SYS_seccomp)
        return install_filter(number, first, second, third, fourth, fifth);
    note_fork_begins();
    long child = real_syscall(number, first, second, third, fourth, fifth, sixth);
    end_fork(child);
    return child;
}

/* Where a call goes on. */
CHECK uintptr_t way_of_call(long number, long first, long second)
{
    bool is_ours = number == SYS_execve || number == SYS_exit_group || (number == SYS_exit && ask_ends_process())
                   || is_installing(number, first) || is_fork(number, first, second);
    return is_ours ? (uintptr_t)checked_call : (uintptr_t)real_syscall;
}

GUARD_OWN(syscall);
TOP_ASM(".pushsection .text\n"
        ".type checked_syscall,@function\nchecked_syscall:\n"
        "\t.cfi_startproc\n"
        LANDING GO_WITH_ALL_TO_RESULT("way_of_call")
        "\t.cfi_endproc\n"
        ".size checked_syscall, .-checked_syscall\n"
        ".popsection\n");

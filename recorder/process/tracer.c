/* The tracing process is made as vfork makes one: while it lives, the thread that has made it waits. It is no thread,
   since a thread can't trace others of its process. `tracing` has the work, and the threads that are traced. */
#define _GNU_SOURCE
#include "process/tracer.h"

#include "base/platform.h"

#if CAN_TRACE

#include <elf.h>
#include <errno.h>
#include <signal.h>
#include <stdint.h>
#include <sys/prctl.h>
#include <sys/ptrace.h>
#include <sys/uio.h>
#include <sys/wait.h>

#include "base/processor_stubs.h"
#include "base/system.h"
#include "environment/other_threads.h"

enum { MAX_TRACED = 1024, VECTORS_ROOM = 1 << 14 };

static struct {
    void (*work)(void *with);
    void *with;
    bool has_failed, is_refused, has_worked;
    uint32_t count;
    struct {
        pid_t thread;
        int number; /* of the signal with which it stopped, and goes on; or 0 */
    } traced[MAX_TRACED];
} tracing;

static long trace(long what, pid_t thread, long of, long with)
{
    return system_call4(SYS_ptrace, what, thread, of, with);
}

static bool is_traced(pid_t thread)
{
    for (uint32_t i = 0; i < tracing.count; i++)
        if (tracing.traced[i].thread == thread)
            return true;
    return false;
}

/* Waits until a thread that is traced has stopped. Answers what the system says of it, or 0: it has ended. */
static int wait_for(pid_t thread)
{
    int status;
    long result;
    while ((result = system_call4(SYS_wait4, thread, (long)&status, __WALL, 0)) == -EINTR)
        ;
    return result == thread && WIFSTOPPED(status) ? status : 0;
}

static void stop_one(pid_t thread, void *found)
{
    if (tracing.has_failed || is_traced(thread))
        return;
    *(bool *)found = true;
    long result = tracing.count < MAX_TRACED ? trace(PTRACE_SEIZE, thread, 0, 0) : -E2BIG;
    if (result != 0) { /* also if it ends just now */
        tracing.has_failed = other_threads_has(thread);
        tracing.is_refused = result == -EPERM;
        return;
    }
    trace(PTRACE_INTERRUPT, thread, 0, 0);
    int status = wait_for(thread);
    if (status == 0)
        return;
    tracing.traced[tracing.count].thread = thread;
    tracing.traced[tracing.count++].number = status >> 16 == 0 ? WSTOPSIG(status) : 0;
}

/* Until no other is there: one may have been created by one that still ran. */
static bool stop_all(void)
{
    bool found = true;
    while (found && !tracing.has_failed) {
        found = false;
        if (!other_threads_visit(stop_one, &found))
            return false;
    }
    return !tracing.has_failed;
}

static bool registers_of(pid_t thread, struct user_regs_struct *registers)
{
    struct iovec room = {registers, sizeof *registers};
    return trace(PTRACE_GETREGSET, thread, NT_PRSTATUS, (long)&room) == 0;
}

/* The system repeats most calls by itself, but some answer EINTR at once: they are to be repeated too, unless a handler
   comes first. A descriptor is closed even so. */
static void repeat_call(pid_t thread)
{
    struct user_regs_struct registers;
    struct iovec room = {&registers, sizeof registers};
    if (registers_of(thread, &registers) && processor_repeats_call(&registers))
        trace(PTRACE_SETREGSET, thread, NT_PRSTATUS, (long)&room);
}

static void let_all_go(void)
{
    for (uint32_t i = 0; i < tracing.count; i++) {
        repeat_call(tracing.traced[i].thread);
        trace(PTRACE_DETACH, tracing.traced[i].thread, 0, tracing.traced[i].number);
    }
}

/* In the tracing process. */
__attribute__((used)) static void stop_and_work(void) OWN_NAME(stop_and_work);
static void stop_and_work(void)
{
    system_call4(SYS_prctl, PR_SET_PDEATHSIG, SIGKILL, 0, 0);
    if (stop_all()) {
        tracing.work(tracing.with);
        tracing.has_worked = true;
    }
    let_all_go();
}

/* Makes a process like a child of vfork, which calls stop_and_work and ends. Answers its number, or an error. */
long make_helper(void) OWN_NAME(make_helper);
TOP_ASM(".pushsection .text\n"
        ".p2align 4\n"
        ".hidden asancol_make_helper\n"
        ".globl asancol_make_helper\n"
        ".type asancol_make_helper,@function\n"
        "asancol_make_helper:\n"
        "\t.cfi_startproc\n"
        CALL_IN_HELPER("asancol_stop_and_work")
        "\t.cfi_endproc\n"
        ".size asancol_make_helper, .-asancol_make_helper\n"
        ".popsection\n");

static void run_helper(void)
{
    int status;
    tracing.count = 0;
    tracing.has_failed = tracing.is_refused = false;
    other_threads_are_of(system_getpid(), system_gettid());
    long helper = make_helper();
    while (helper > 0 && system_call4(SYS_wait4, helper, (long)&status, __WALL, 0) == -EINTR)
        ;
    other_threads_are_of(0, 0);
}

bool tracer_stop_for(void (*work)(void *with), void *with)
{
    tracing.work = work;
    tracing.with = with;
    tracing.has_worked = false;
    run_helper();
    /* Where a process may be traced by those alone that it names, as Yama has it. */
    if (tracing.is_refused && system_call4(SYS_prctl, PR_SET_PTRACER, (long)PR_SET_PTRACER_ANY, 0, 0) == 0) {
        run_helper();
        system_call4(SYS_prctl, PR_SET_PTRACER, 0, 0, 0);
    }
    return tracing.has_worked;
}

void tracer_visit(void (*visit)(const struct stopped_thread *thread))
{
    static _Alignas(64) unsigned char vectors[VECTORS_ROOM];
    for (uint32_t i = 0; i < tracing.count; i++) {
        struct user_regs_struct registers;
        struct iovec room = {vectors, sizeof vectors};
        ucontext_t context;
        if (!registers_of(tracing.traced[i].thread, &registers))
            continue;
        bool has_vectors = trace(PTRACE_GETREGSET, tracing.traced[i].thread, NT_X86_XSTATE, (long)&room) == 0;
        processor_context(&context, &registers, has_vectors ? vectors : NULL, room.iov_len);
        visit(&(struct stopped_thread){&context, registers.fs_base});
    }
}

#else

bool tracer_stop_for(void (*work)(void *with), void *with)
{
    (void)work, (void)with;
    return false;
}

void tracer_visit(void (*visit)(const struct stopped_thread *thread))
{
    (void)visit;
}

#endif

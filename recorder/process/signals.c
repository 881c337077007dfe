/* Each signal has one of three actions: the recorder's (on_ending), in place of the default; the recorder's before the
   program's handler of a fault (before_handler, which asks handler_to_come); or the program's. sigaction hides the
   recorder's. */
#define _GNU_SOURCE
#include "process/signals.h"

#include <errno.h>
#include <signal.h>
#include <stdatomic.h>
#include <ucontext.h>

#include "base/actions.h"
#include "base/disturbance.h"
#include "base/memory.h"
#include "base/own_code.h"
#include "base/processor_stubs.h"
#include "base/self.h"
#include "base/system.h"
#include "libc/library.h"
#include "process/process.h"
#include "process/root.h"
#include "process/signal_stack.h"
#include "shadow/mapping.h"
#include "stacks/own_stack.h"
#include "stream/faults.h"
#include "stream/keeping.h"
#include "stream/side.h"

enum { LAST_SIGNAL = 64 };

/* The default of a signal, for this process and with nothing that holds it back. */
static void raise_by_default(int number)
{
    struct system_action none = {0};
    uint64_t set = signal_bit(number);
    action_set(number, &none, NULL);
    system_tgkill(system_getpid(), system_gettid(), number);
    system_sigprocmask(SIG_UNBLOCK, &set, NULL);
}

/* A handler of the program's may come first, or leave by a jump. */
_Noreturn void signals_abort(void)
{
    uint64_t set = signal_bit(SIGABRT);
    system_sigprocmask(SIG_UNBLOCK, &set, NULL);
    system_tgkill(system_getpid(), system_gettid(), SIGABRT);
    raise_by_default(SIGABRT);
    system_exit(127);
}

/* Signals that end the process. Everything recorded so far is in the stream: a handler ends it in order, and then lets
   the signal do what it does. The program sees the default in place of this handler. */

static bool has_handlers;

static bool ends_process(int number)
{
    static const int others[] = {SIGKILL, SIGSTOP, SIGTSTP, SIGTTIN, SIGTTOU, SIGCONT, SIGCHLD, SIGURG, SIGWINCH,
                                 CANCEL_SIGNAL, USER_SIGNAL};
    for (size_t i = 0; i < sizeof others / sizeof *others; i++)
        if (others[i] == number)
            return false;
    return true;
}

/* Where this thread has called abort, or 0. */
static _Thread_local call_site aborting;

void signals_note_abort(uintptr_t caller)
{
    aborting = call_site_of(caller);
}

/* An access so near the stack pointer finds no memory only if the stack is used up: as AddressSanitizer has it. */
enum { BELOW_STACK_POINTER = 512, ABOVE_STACK_POINTER = 0xffff };

/* By a load, a store or a jump, as the processor says (SIDE_BY_LOAD ..), and whether the stack is used up. */
static uint32_t how_accessed(int number, uint64_t address, const ucontext_t *context)
{
    uint64_t stack = CONTEXT_STACK(context);
    enum processor_access access = CONTEXT_ACCESS(context);
    if (access == ACCESS_IS_UNKNOWN)
        return SIDE_HAS_ADDRESS;
    if (access == ACCESS_BY_JUMP)
        return SIDE_HAS_ADDRESS | SIDE_BY_JUMP;
    bool is_near = address + BELOW_STACK_POINTER >= stack && address < stack + ABOVE_STACK_POINTER;
    return SIDE_HAS_ADDRESS | (access == ACCESS_BY_STORE ? SIDE_BY_STORE : SIDE_BY_LOAD)
           | (number == SIGSEGV && is_near ? SIDE_STACK_USED_UP : 0);
}

/* Signals that a fault raises; each may be sent as well. */
static const int faults[] = {SIGSEGV, SIGBUS, SIGILL, SIGFPE};
enum { FAULTS = sizeof faults / sizeof *faults };

/* Its place among them, or FAULTS. */
static unsigned place_of(int number)
{
    unsigned place = 0;
    while (place < FAULTS && faults[place] != number)
        place++;
    return place;
}

static bool is_fault(int number, const siginfo_t *info)
{
    return place_of(number) < FAULTS && info->si_code > 0;
}

/* What a signal says: where it has come, and which address could not be accessed, of which the kernel says nothing if
   it is so wild that it has no number for it. */
struct met {
    struct registers registers;
    uint64_t address;
    uint32_t how;
};

static struct met met_by(int number, const siginfo_t *info, const ucontext_t *context)
{
    bool has_address = (number == SIGSEGV || number == SIGBUS) && info->si_code > 0 && info->si_code != SI_KERNEL;
    struct met met = {.address = has_address ? (uintptr_t)info->si_addr : 0};
    met.how = has_address ? how_accessed(number, met.address, context) : 0;
    met.registers.instruction = CONTEXT_INSTRUCTION(context);
    met.registers.stack = CONTEXT_STACK(context);
    met.registers.frame = CONTEXT_FRAME(context);
#if HAS_LINK_REGISTER
    met.registers.link = CONTEXT_LINK(context);
#endif
    return met;
}

/* Notes where the process was. */
static void note_last(int number, const struct met *met)
{
    struct registers now = met->registers;
    /* A call to where no code is: the top of the stack leads to it, or the register for that. */
#if HAS_LINK_REGISTER
    if ((met->how & SIDE_HAS_ADDRESS) && met->address == now.instruction)
        now.instruction = CODE_ADDRESS(now.link) - 1;
#else
    struct known_page page = {0};
    if ((met->how & SIDE_HAS_ADDRESS) && met->address == now.instruction
        && memory_is_there(&page, now.stack, sizeof now.stack)) {
        now.instruction = *(const uintptr_t *)now.stack - 1;
        now.stack += sizeof(uintptr_t);
    }
#endif
    call_site last = call_site_at(&now);
    fault_note_last(number == SIGABRT && aborting != 0 ? aborting : last, met->address, met->how);
}

/* Faults in the recorder's own code. The process is to die of them, and to say so. */

/* How much of the first thread's stack may be used up for what lies above it. */
enum { ABOVE_STACK = 1 << 18 };

/* Whether the thread's own stack has room where the fault is, so that it can't be read by a right that it lacks. */
static bool has_room(uint64_t address)
{
    return is_of_own_stack(address) && address - stack_low() > (own_stack.may_grow ? ABOVE_STACK : 0);
}

/* Not if the stack is used up, when it is the program that has called too deep, and not at its wild pointer. */
static bool is_inside(int number, const siginfo_t *info, struct met *met)
{
    if (!is_fault(number, info) || is_in_guard(met->address)
        || !own_code_has(met->registers.instruction, met->registers.frame))
        return false;
    if (has_room(met->address))
        met->how &= ~(uint32_t)SIDE_STACK_USED_UP;
    return !(met->how & SIDE_STACK_USED_UP);
}

/* No lock is waited for without an end, since this thread may have it. Noting the stack may cause the same fault again:
   all else is noted by then. */
static void note_inside(int number, const struct met *met)
{
    static _Atomic bool is_noted;
    if (atomic_exchange(&is_noted, true) || !recorder_is_own_process())
        return;
    side_note_last(&(struct side_last){.call_site = met->registers.instruction + 1,
                                       .address = met->address,
                                       .thread = SIDE_NO_THREAD,
                                       .how = met->how});
    side_note_inside(number);
    note_last(number, met);
}

static void act_by_default(int number)
{
    struct system_action none = {0};
    action_set(number, &none, NULL);
}

void before_handler(int, siginfo_t *, void *) OWN_NAME(before_handler);

/* The program does not see this signal: a handler that was to come once, which the system takes away first, stays. */
static void keep_handler(int number)
{
    struct system_action seen;
    if (action_set(number, NULL, &seen) != 0 || seen.handler != NULL || !(seen.flags & (unsigned)SA_RESETHAND))
        return;
    seen.handler = before_handler;
    action_set(number, &seen, NULL);
}

/* A signal as of a fault, that was sent while the recorder is not to be disturbed: it waits in its place, with all that
   its sender has said. */
static bool has_to_wait(int number, siginfo_t *info, ucontext_t *context)
{
    uint64_t mask, set = signal_bit(number);
    __builtin_memcpy(&mask, &context->uc_sigmask, sizeof mask);
    if (place_of(number) == FAULTS || info->si_code > 0 || !is_undisturbed(mask))
        return false;
    mask |= set;
    __builtin_memcpy(&context->uc_sigmask, &mask, sizeof mask);
    system_sigprocmask(SIG_BLOCK, &set, NULL);
    keep_handler(number);
    if (system_call4(SYS_rt_tgsigqueueinfo, system_getpid(), system_gettid(), number, (long)info) != 0)
        system_tgkill(system_getpid(), system_gettid(), number);
    return true;
}

/* The handler of signals whose action is the default: it ends the recording, and then lets the signal do its work. */
static void on_ending(int number, siginfo_t *info, void *context)
{
    if (number == SIGBUS && info->si_code > 0 && stream_has_lost(info->si_addr))
        return;
    if (has_to_wait(number, info, context) || (!is_fault(number, info) && root_holds(number)))
        return;
    struct met met = met_by(number, info, context);
    if (is_inside(number, info, &met)) {
        note_inside(number, &met);
    } else {
        if (recorder_is_own_process()) {
            note_last(number, &met);
            side_note_sender(info->si_code <= 0 && info->si_pid != system_getpid() ? info->si_pid : 0);
        }
        recorder_finish_in_handler(number);
    }
    int of_run = root_end_by_signal(number);
    if (of_run != STATUS_STAYS)
        system_exit(of_run);
    act_by_default(number);
    /* A fault comes again by itself, and with what the kernel says of it. */
    if (!is_fault(number, info))
        system_tgkill(system_getpid(), system_gettid(), number);
}

/* The program's handlers of faults. What stands before them asks first whether the recorder's own code has met it, and
   goes on to them with all as it was. */
static struct {
    _Atomic uintptr_t handler;
    _Atomic bool wants_info; /* which the system writes only if it is asked to */
} of_program[FAULTS];

/* Where the program's handler is; 0: there is nothing to handle. */
__attribute__((used)) static uintptr_t handler_to_come(int number, siginfo_t *info, void *context)
{
    struct met met = met_by(number, info, context);
    if (number == SIGBUS && info->si_code > 0 && stream_has_lost(info->si_addr)) {
        keep_handler(number);
        return 0;
    }
    if (has_to_wait(number, info, context))
        return 0;
    if (!is_inside(number, info, &met))
        return atomic_load_explicit(&of_program[place_of(number)].handler, memory_order_relaxed);
    note_inside(number, &met);
    act_by_default(number);
    return 0;
}

TOP_ASM(".pushsection .text\n"
        ".p2align 4\n"
        ".hidden asancol_before_handler\n"
        ".globl asancol_before_handler\n"
        ".type asancol_before_handler,@function\n"
        "asancol_before_handler:\n"
        "\t.cfi_startproc\n"
        LANDING GO_TO_RESULT("handler_to_come")
        "\t.cfi_endproc\n"
        ".size asancol_before_handler, .-asancol_before_handler\n"
        ".popsection\n");

/* One that was there before. */
static void stand_before(int number, struct system_action seen)
{
    unsigned place = place_of(number);
    atomic_store(&of_program[place].handler, (uintptr_t)seen.handler);
    atomic_store(&of_program[place].wants_info, (seen.flags & SA_SIGINFO) != 0);
    seen.handler = before_handler;
    seen.flags |= SA_SIGINFO;
    action_set(number, &seen, NULL);
}

static bool is_function(uintptr_t handler)
{
    return handler != (uintptr_t)SIG_DFL && handler != (uintptr_t)SIG_IGN;
}

/* What the UBSan of Clang calls before all else of a program that is linked with it. */
extern void (*__local_ubsan_preinit)(void) __attribute__((weak));

/* Whether the action that a program begins with is of that runtime, which prints crashes, but leaves this to
   AddressSanitizer in a program that has both. */
static bool is_of_ubsan(int number, const struct system_action *action)
{
    return place_of(number) < FAULTS && is_function((uintptr_t)action->handler) && !IS_PRELOADED
           && &__local_ubsan_preinit != NULL;
}

/* Handles a signal whose action is the default. At once: it is taken back where the program has another one. The signal
   may not come in between, so this is for a process with one thread, in which it is blocked; and the system drops what
   waits once it is to be ignored again. */
static void handle_default(int number, uint64_t mask, bool at_once)
{
    struct system_action seen;
    int failed = at_once ? action_handle(number, on_ending, mask, &seen) : action_set(number, NULL, &seen);
    if (failed != 0)
        return;
    if (is_of_ubsan(number, &seen))
        seen.handler = NULL;
    if (!at_once && seen.handler == NULL)
        action_handle(number, on_ending, mask, NULL);
    if (at_once && seen.handler != NULL)
        action_set(number, &seen, NULL);
    if (place_of(number) < FAULTS && is_function((uintptr_t)seen.handler))
        stand_before(number, seen);
}

void signals_handle(void)
{
    uint64_t set = 0, pending = 0;
    system_sigpending(&pending); /* a handler in the place of SIG_IGN would take them away */
    signal_stack_of_first();
    for (unsigned i = 0; i < FAULTS; i++)
        set |= signal_bit(faults[i]);
    for (int number = 1; number <= LAST_SIGNAL; number++)
        if (ends_process(number))
            handle_default(number, ~set, library_is_alone() && number != SIGBUS && !(pending & signal_bit(number)));
    undisturbed_by_faults(set);
    has_handlers = true;
}

/* The C library's, since the program calls it. */
#ifdef IS_STATIC
extern int real_sigaction(int, const struct sigaction *, struct sigaction *) NAMED("__sigaction");
#else
extern int real_sigaction(int, const struct sigaction *, struct sigaction *) NAMED("__real_sigaction");
#endif

/* What the program has set together with a default, and may ask for. */
static struct {
    _Atomic int flags;
    _Atomic uint64_t mask;
} with_default[LAST_SIGNAL + 1];

static void keep_with_default(int number, const struct sigaction *action)
{
    atomic_store(&with_default[number].flags, action->sa_flags);
    atomic_store(&with_default[number].mask, action->sa_mask.__val[0]);
}

/* The action set in place of the program's. */
static void take_place(int number, struct sigaction *action)
{
    bool is_handled = is_function((uintptr_t)action->sa_handler);
    if (is_handled && place_of(number) < FAULTS) {
        action->sa_sigaction = before_handler;
        action->sa_flags |= SA_SIGINFO;
    } else if (action->sa_handler == SIG_DFL && ends_process(number)) {
        keep_with_default(number, action);
        *action = (struct sigaction){.sa_sigaction = on_ending, .sa_flags = ACTION_FLAGS | SA_NODEFER};
        __builtin_memset(&action->sa_mask, 0xff, sizeof action->sa_mask);
        for (unsigned i = 0; i < FAULTS; i++)
            action->sa_mask.__val[0] &= ~signal_bit(faults[i]);
    }
}

/* What the program had set before. */
static void put_old(struct sigaction *old, uintptr_t handler, bool wants_info, const struct sigaction *by_default)
{
    if (!(old->sa_flags & SA_SIGINFO))
        return;
    if (old->sa_sigaction == on_ending)
        *old = *by_default;
    if (old->sa_sigaction != before_handler)
        return;
    old->sa_sigaction = (void (*)(int, siginfo_t *, void *))handler;
    if (!wants_info)
        old->sa_flags &= ~SA_SIGINFO;
}

OF_PROGRAM int signals_set_action(int number, const struct sigaction *action, struct sigaction *old)
{
    unsigned place = place_of(number);
    uintptr_t before = place < FAULTS ? atomic_load(&of_program[place].handler) : 0;
    bool wanted_info = place < FAULTS && atomic_load(&of_program[place].wants_info);
    struct sigaction ours, by_default = {.sa_handler = SIG_DFL};
    bool is_number = number > 0 && number <= LAST_SIGNAL;
    if (is_number) {
        by_default.sa_flags = atomic_load(&with_default[number].flags);
        by_default.sa_mask.__val[0] = atomic_load(&with_default[number].mask);
    }
    if (action != NULL && has_handlers && is_number) {
        ours = *action;
        take_place(number, &ours);
        if (place < FAULTS && ours.sa_sigaction == before_handler) { /* from now on: the old one may come so too */
            atomic_store(&of_program[place].wants_info, (action->sa_flags & SA_SIGINFO) != 0);
            atomic_store(&of_program[place].handler, (uintptr_t)action->sa_handler);
        }
        action = &ours;
    }
    int result = real_sigaction(number, action, old);
    if (result == 0 && old != NULL)
        put_old(old, before, wanted_info, &by_default);
    return result;
}

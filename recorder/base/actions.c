/* Stateless: sigaction without the C library, with the code to which a handler returns: no function calls that. */
#define _GNU_SOURCE
#include "base/actions.h"

#include "base/platform.h"
#include "base/processor_stubs.h"
#include "base/system.h"

enum { WITH_RESTORER = 0x04000000 };

/* What a handler returns to. */
void return_from_handler(void) OWN_NAME(return_from_handler);
TOP_ASM(".pushsection .text\n"
        ".p2align 4\n"
        BEFORE_END_OF_HANDLER
        ".hidden asancol_return_from_handler\n"
        ".globl asancol_return_from_handler\n"
        ".type asancol_return_from_handler,@function\n"
        "asancol_return_from_handler:\n"
        END_OF_HANDLER
        ".size asancol_return_from_handler, .-asancol_return_from_handler\n"
        ".popsection\n");

int action_set(int number, const struct system_action *action, struct system_action *old)
{
    return (int)system_call4(SYS_rt_sigaction, number, (long)action, (long)old, SIGNAL_SET_BYTES);
}

int action_handle(int number, void (*handler)(int, siginfo_t *, void *), uint64_t mask, struct system_action *old)
{
    unsigned long more = mask >> (number - 1) & 1 ? 0 : SA_NODEFER;
    struct system_action ours = {handler, ACTION_FLAGS | WITH_RESTORER | more, return_from_handler, mask};
    return action_set(number, &ours, old);
}

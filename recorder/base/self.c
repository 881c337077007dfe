/* Three facts, each in an atomic variable. */
#define _GNU_SOURCE
#include "base/self.h"

#include <stdatomic.h>
#include <stddef.h>

#include "base/system.h"

static _Atomic pid_t process;
static _Atomic bool found_checks, has_begun;

/* Defined by the member of the archive that comes in where something compiled by asancol-cc is linked. */
extern const char asancol_checks __attribute__((weak));

bool recorder_is_own_process(void)
{
    pid_t now = system_getpid(); /* below zero where a filter refuses the question: then it makes no child either */
    return now < 0 || now == atomic_load_explicit(&process, memory_order_relaxed);
}

void self_note_process(void)
{
    atomic_store(&process, system_getpid());
}

int self_process(void)
{
    return atomic_load_explicit(&process, memory_order_relaxed);
}

bool recorder_has_checks(void)
{
    return &asancol_checks != NULL || atomic_load(&found_checks);
}

void self_note_checks(void)
{
    atomic_store(&found_checks, true);
}

bool recorder_has_begun(void)
{
    return atomic_load(&has_begun);
}

void self_note_main(void)
{
    atomic_store(&has_begun, true);
}

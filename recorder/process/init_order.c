/* A hash table of the files that have been initialised. The loader's lock, or the start of the program, lets one thread
   at a time initialise, unless a thread of a constructor opens a library before main. A dlopen or an exit of another
   thread comes without a lock, and only shows globals. So nothing is guarded here. */
#include "process/init_order.h"

#include <stdatomic.h>
#include <stdbool.h>

#include "base/tables.h"
#include "shadow/globals.h"
#include "shadow/shadow.h"
#include "stream/state.h"

enum { STRICT = 2 };

/* The files that have been initialised, by the address of their text; there are no more once the table is full. A
   lookup begins at a hash of it. */
enum { MOST_FILES = 1 << 14 };
static _Atomic uintptr_t *const files = TABLE(_Atomic uintptr_t, files_begun);
TABLE_HAS_ROOM(files_begun, MOST_FILES * sizeof *files);
static _Atomic uint32_t count;

static _Atomic uintptr_t *place_of(uintptr_t file)
{
    uint64_t at = file * UINT64_C(0x9e3779b97f4a7c15) >> 40;
    while (files[at % MOST_FILES] != 0 && files[at % MOST_FILES] != file)
        at++;
    return &files[at % MOST_FILES];
}

static bool is_initialised(const struct global *global)
{
    return count >= MOST_FILES / 2 || *place_of((uintptr_t)global->module) != 0;
}

static void hide(const struct global *global, void *file)
{
    if (global->has_dynamic_init != 0 && global->module != file && !is_initialised(global))
        shadow_poison(global->start, global->size_with_redzone, SHADE_UNINITIALISED);
}

static void show(const struct global *global, void *unused)
{
    (void)unused;
    if (global->has_dynamic_init == 0 || *shadow_of(global->start) != SHADE_UNINITIALISED)
        return;
    shadow_clear(global->start, global->size_with_redzone);
    shadow_poison(global->start + global->size, global->size_with_redzone - global->size, SHADE_GLOBAL);
}

/* A library is opened, whose files use the program's, or a thread is created: either ends the strict order. */
static _Atomic bool is_over;

/* By the settings; written at the start. */
static int asked_for;

void init_order_begin(int level)
{
    asked_for = level;
}

static int wanted(void)
{
    int level = is_on() || atomic_load(&halt_is_on) ? asked_for : 0;
    return level == STRICT && is_over ? 0 : level;
}

void init_order_before(const char *module)
{
    if (wanted() == STRICT && module == NULL)
        init_order_ends();
    if (module == NULL || wanted() == 0)
        return;
    _Atomic uintptr_t *place = place_of((uintptr_t)module);
    if (wanted() != STRICT && *place == 0 && count < MOST_FILES / 2) {
        *place = (uintptr_t)module;
        count++;
    }
    globals_each(hide, (void *)(uintptr_t)module);
}

void init_order_after(void)
{
    if (wanted() != 0)
        globals_each(show, NULL);
}

void init_order_ends(void)
{
    if (wanted() == STRICT)
        globals_each(show, NULL);
    is_over = true;
}

/* One sentence is put together, and left with the hub that the environment names, or that orphan.c finds. */
#define _GNU_SOURCE
#include "process/foreign.h"

#include <dlfcn.h>
#include <stdlib.h>
#include <sys/auxv.h>

#include "environment/startup.h"
#include "environment/hub_names.h"
#include "environment/orphan.h"
#include "environment/hub_word.h"

#define NO_RECORDER ", which was built by asancol-cc, and was not built so itself"
#define OTHER_RELEASE ", which was built by asancol-cc of another release: build both with one"

enum { WHY_ROOM = 320, MAX_NAME_LENGTH = 200 };

extern const char asancol_checks;

void foreign_note(bool has_another)
{
    char why[WHY_ROOM];
    Dl_info object;
    struct joined joined = {.text = why, .room = sizeof why};
    const char *hub = secure_getenv("ASANCOL_HUB");
    bool is_named = dladdr(&asancol_checks, &object) != 0 && object.dli_fname != NULL;
    joined_add(&joined, "it loaded ", sizeof why);
    joined_add(&joined, is_named ? object.dli_fname : "a library", MAX_NAME_LENGTH);
    joined_add(&joined, has_another ? OTHER_RELEASE : NO_RECORDER, sizeof why);
    startup.is_set_user = getauxval(AT_SECURE);
    bool has_hub = hub != NULL && *hub != 0;
    if (!has_another)
        joined_add(&joined, has_hub ? "; --preload records it" : "; its environment was cleaned, of LD_PRELOAD too",
                   sizeof why);
    if (has_hub)
        hub_word_note(hub, why);
    else
        orphan_say(why);
}

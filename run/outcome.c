/* The text is put together here, and kept once for all outcomes that have it (texts.h). */
#include "outcome.h"

#include <stdarg.h>
#include <stdio.h>

#include "texts.h"

void outcome_set(struct outcome *outcome, enum answer answer, const char *form, ...)
{
    va_list rest;
    char why[WHY_ROOM];
    va_start(rest, form);
    vsnprintf(why, sizeof why, form, rest);
    va_end(rest);
    outcome->answer = answer;
    outcome->why = text_kept(why);
}

/* crates/asan_judgement proves what this promises: tests/judged.c holds it against that. */
#include "status.h"

bool status_is_all_seen(const struct seen *seen)
{
    size_t rest = seen->nothing ? seen->incomplete - seen->unchecked : seen->incomplete;
    bool is_missed = seen->said == SAID_NOTHING || (seen->said == SAID_INCOMPLETE && !seen->nothing);
    return rest == 0 && !seen->is_cut_short && !is_missed;
}

/* The first rule that applies. A command that has failed, or was cut short, is no test without anything to check. */
int status_of(const struct seen *seen, const struct statuses *statuses)
{
    bool counts = seen->said == SAID_COUNTS || (seen->said == SAID_NOTHING && seen->reports > 0);
    bool is_all_seen = status_is_all_seen(seen), is_nothing = seen->nothing && statuses->nothing != 0;
    if (counts && statuses->reports != 0)
        return (int)statuses->reports;
    if (is_nothing && !seen->has_failed && is_all_seen)
        return (int)statuses->nothing;
    if ((is_nothing || !is_all_seen) && statuses->incomplete != 0)
        return (int)statuses->incomplete;
    return STATUS_OF_COMMAND;
}

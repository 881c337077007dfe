#define _GNU_SOURCE
#include "process/run_connection.h"

#include <errno.h>
#include <fcntl.h>
#include <sys/stat.h>

#include "base/descriptors.h"
#include "base/system.h"
#include "common/hub_name.h"
#include "environment/asking.h"
#include "environment/dormant.h"
#include "process/waiter.h"

/* Written in the first thread before there is another, and in a forked child; read by who asks. */
static struct {
    int connection; /* or -1 */
    dev_t device;   /* its identity: the process may close it, and open another one with its number */
    ino_t node;
    bool was_made;
} kept = {.connection = -1};

void run_connection_begin(const char *hub)
{
    struct stat seen;
    int patience_ms = ASK_PATIENCE_MS, made = waiter_end();
    if (made < 0)
        made = ask_begin(hub, ASK_STATUS, true, &patience_ms);
    if (made < 0)
        return;
    made = descriptor_moved_up(made);
    system_fcntl(made, F_SETFL, 0); /* who waits for the answer needs no other call than read */
    kept.was_made = system_fstat(made, &seen) == 0;
    descriptor_keep(KEPT_RUN, made, &seen);
    kept.connection = made;
    kept.device = seen.st_dev;
    kept.node = seen.st_ino;
#ifdef IS_STATIC
    run_connection_leave(dormant_is_asleep()); /* the program's waits are not seen, so it has no child */
#endif
}

static bool is_there(void)
{
    struct stat seen;
    int result = kept.connection >= 0 ? system_fstat(kept.connection, &seen) : -EBADF;
    return result == 0 ? seen.st_dev == kept.device && seen.st_ino == kept.node : result != -EBADF;
}

void run_connection_forget(void)
{
    bool closes = is_there() && !dormant_has_passed();
    if (closes)
        system_close(kept.connection);
    if (closes || descriptor_kept(KEPT_RUN) < 0)
        descriptor_drop(KEPT_RUN);
    kept.connection = -1;
}

long run_connection_ask(const char *hub, const char *request, char *answer, size_t room)
{
    int patience_ms = ASK_PATIENCE_MS;
    int connection = is_there() ? kept.connection : ask_begin(hub, ASK_STATUS, true, &patience_ms);
    kept.connection = -1;
    return connection >= 0 ? ask_on(connection, request, answer, room) : connection;
}

void run_connection_retire(void)
{
    if (is_there())
        waiter_retire(kept.connection);
}

void run_connection_leave(bool is_asleep)
{
    waiter_leave(is_asleep && is_there() ? kept.connection : -1);
}

bool run_connection_was_made(void)
{
    return kept.was_made;
}

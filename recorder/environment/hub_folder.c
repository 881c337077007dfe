/* The socket is named through the descriptor in /proc, which may lie elsewhere or nowhere; or, if there is one thread,
   from the folder itself, which is the current one for as long as that takes. */
#define _GNU_SOURCE
#include "environment/hub_folder.h"

#include <errno.h>
#include <fcntl.h>
#include <stdbool.h>
#include <string.h>
#include <sys/stat.h>
#include <sys/un.h>

#include "base/descriptors.h"
#include "base/digits.h"
#include "base/disturbance.h"
#include "base/system.h"
#include "common/hub_name.h"
#include "environment/asking.h"
#include "environment/other_threads.h"

#define OPEN_FOLDER "/proc/self/fd/"

static bool is_kept;

void hub_folder_keep(const char *hub)
{
    char path[sizeof((struct sockaddr_un *)0)->sun_path];
    const char *slash = strrchr(hub, '/');
    struct stat seen;
    if (is_kept || slash == NULL || slash == hub || (size_t)(slash - hub) >= sizeof path)
        return;
    memcpy(path, hub, (size_t)(slash - hub));
    path[slash - hub] = 0;
    int made = descriptor_of_file(path, O_PATH | O_DIRECTORY | O_CLOEXEC);
    if (made < 0)
        return;
    made = descriptor_moved_up(made);
    if (system_fstat(made, &seen) != 0)
        return;
    descriptor_keep(KEPT_FOLDER, made, &seen);
    is_kept = true;
}

/* No handler runs while the current folder is another one. */
static int connect_inside(int folder, int socket, const struct sockaddr_un *address, socklen_t length)
{
    struct disturbance before;
    undisturbed_begin(&before);
    int back = system_open(".", O_PATH | O_DIRECTORY | O_CLOEXEC, 0);
    int result = back < 0 ? back : (int)system_call3(SYS_fchdir, folder, 0, 0);
    if (result == 0) {
        result = system_connect(socket, address, length);
        system_call3(SYS_fchdir, back, 0, 0);
    }
    if (back >= 0)
        system_close(back);
    undisturbed_end(&before);
    return result;
}

int hub_folder_connect(int socket, const char *hub, int *patience_ms)
{
    enum { NAP_MS = 10 };
    struct sockaddr_un address;
    char path[sizeof address.sun_path] = OPEN_FOLDER, digits[DIGITS_ROOM];
    const char *name = strrchr(hub, '/');
    int folder = descriptor_kept(KEPT_FOLDER);
    if (name == NULL || folder < 0 || strlen(name) >= sizeof path - sizeof OPEN_FOLDER - DIGITS_ROOM)
        return -ENOENT;
    strcat(path, put_digits(digits + sizeof digits, (unsigned)folder, 1));
    strcat(path, name);
    int result = connect_patiently(socket, &address, hub_socket(&address, path, false), patience_ms);
    if (result == 0 || has_other_threads())
        return result;
    socklen_t length = hub_socket(&address, name + 1, false);
    while ((result = connect_inside(folder, socket, &address, length)) == -EAGAIN && *patience_ms > 0) {
        *patience_ms -= NAP_MS;
        system_poll(NULL, 0, NAP_MS);
    }
    return result;
}

/* The descriptors 0, 1 and 2.

   Called: by the programs asancol-run and asancol-cc, as the first thing in main, in their one thread; no lock. */
#ifndef ASANCOL_STANDARD_H
#define ASANCOL_STANDARD_H

#include <errno.h>
#include <fcntl.h>
#include <unistd.h>

/* Opens those that are closed, so that nothing else gets these numbers. A program that is run does not get them. */
static inline void fill_standard(void)
{
    for (int descriptor = 0; descriptor <= STDERR_FILENO; descriptor++)
        if (fcntl(descriptor, F_GETFD) < 0 && errno == EBADF)
            if (open("/dev/null", O_RDWR | O_CLOEXEC) < 0)
                return; /* it would be the least free number, which is this one */
}

#endif

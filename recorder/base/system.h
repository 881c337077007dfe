/* Calls of the system that need no C library. A program may have a function or a variable of any name, as `connect` or
   `close`, and then that would be called in the place of the library's.

   Each answers what the system does: an error is its number below zero. errno is not touched, nothing is a point of
   cancellation, and a signal handler may call all of them.

   Called: by any file, in any thread, also in a handler and in a child of vfork; no lock. */
#ifndef ASANCOL_SYSTEM_H
#define ASANCOL_SYSTEM_H

#include <errno.h>
#include <poll.h>
#include <stddef.h>
#include <stdint.h>
#include <sys/resource.h>
#include <sys/socket.h>
#include <sys/stat.h>
#include <sys/syscall.h>
#include <sys/types.h>
#include <sys/uio.h>
#include <time.h>

#include "base/processor.h"

/* Files and descriptors. Newer processors have no calls without a folder, which is this one if it has no other. */
enum { HERE = -100 }; /* AT_FDCWD */

SYSTEM_CALL int system_open(const char *path, int flags, mode_t mode)
{
    return (int)system_call4(SYS_openat, HERE, (long)path, flags, (long)mode);
}

SYSTEM_CALL int system_close(int descriptor)
{
    return (int)system_call3(SYS_close, descriptor, 0, 0);
}

SYSTEM_CALL ssize_t system_read(int descriptor, void *to, size_t size)
{
    return system_call3(SYS_read, descriptor, (long)to, (long)size);
}

SYSTEM_CALL ssize_t system_pread(int descriptor, void *to, size_t size, off_t offset)
{
    return system_call4(SYS_pread64, descriptor, (long)to, (long)size, offset);
}

SYSTEM_CALL ssize_t system_write(int descriptor, const void *from, size_t size)
{
    return system_call3(SYS_write, descriptor, (long)from, (long)size);
}

SYSTEM_CALL int system_fstat(int descriptor, struct stat *seen)
{
    return (int)system_call3(SYS_fstat, descriptor, (long)seen, 0);
}

SYSTEM_CALL int system_stat(const char *path, struct stat *seen)
{
#ifdef SYS_stat
    return (int)system_call3(SYS_stat, (long)path, (long)seen, 0);
#else
    return (int)system_call4(SYS_newfstatat, HERE, (long)path, (long)seen, 0);
#endif
}

SYSTEM_CALL int system_unlink(const char *path)
{
#ifdef SYS_unlink
    return (int)system_call3(SYS_unlink, (long)path, 0, 0);
#else
    return (int)system_call3(SYS_unlinkat, HERE, (long)path, 0);
#endif
}

SYSTEM_CALL ssize_t system_readlink(const char *path, char *to, size_t size)
{
#ifdef SYS_readlink
    return system_call3(SYS_readlink, (long)path, (long)to, (long)size);
#else
    return system_call4(SYS_readlinkat, HERE, (long)path, (long)to, (long)size);
#endif
}

SYSTEM_CALL ssize_t system_readlinkat(int folder, const char *path, char *to, size_t size)
{
    return system_call4(SYS_readlinkat, folder, (long)path, (long)to, (long)size);
}

SYSTEM_CALL int system_rename(const char *from, const char *to)
{
#ifdef SYS_rename
    return (int)system_call3(SYS_rename, (long)from, (long)to, 0);
#else
    return (int)system_call4(SYS_renameat, HERE, (long)from, HERE, (long)to);
#endif
}

SYSTEM_CALL int system_access(const char *path, int mode)
{
#ifdef SYS_access
    return (int)system_call3(SYS_access, (long)path, mode, 0);
#else
    return (int)system_call3(SYS_faccessat, HERE, (long)path, mode);
#endif
}

SYSTEM_CALL int system_symlink(const char *text, const char *path)
{
#ifdef SYS_symlink
    return (int)system_call3(SYS_symlink, (long)text, (long)path, 0);
#else
    return (int)system_call3(SYS_symlinkat, (long)text, HERE, (long)path);
#endif
}

SYSTEM_CALL int system_fcntl(int descriptor, int command, long argument)
{
    return (int)system_call3(SYS_fcntl, descriptor, command, argument);
}

SYSTEM_CALL int system_flock(int descriptor, int operation)
{
    return (int)system_call3(SYS_flock, descriptor, operation, 0);
}

SYSTEM_CALL int system_fallocate(int descriptor, off_t offset, off_t length)
{
    return (int)system_call4(SYS_fallocate, descriptor, 0, offset, length);
}

SYSTEM_CALL int system_ftruncate(int descriptor, off_t length)
{
    return (int)system_call3(SYS_ftruncate, descriptor, length, 0);
}

SYSTEM_CALL int system_memfd_create(const char *name, unsigned flags)
{
    return (int)system_call3(SYS_memfd_create, (long)name, (long)flags, 0);
}

SYSTEM_CALL int system_dup2(int descriptor, int to)
{
#ifdef SYS_dup2
    return (int)system_call3(SYS_dup2, descriptor, to, 0);
#else
    return descriptor == to ? to : (int)system_call3(SYS_dup3, descriptor, to, 0);
#endif
}

SYSTEM_CALL int system_poll(struct pollfd *descriptors, nfds_t count, int patience_ms)
{
#ifdef SYS_poll
    return (int)system_call3(SYS_poll, (long)descriptors, (long)count, patience_ms);
#else
    struct timespec patience = {patience_ms / 1000, patience_ms % 1000 * 1000000L};
    return (int)system_call6(SYS_ppoll, (long)descriptors, (long)count, patience_ms < 0 ? 0 : (long)&patience, 0, 0, 0);
#endif
}

SYSTEM_CALL int system_chdir(const char *path)
{
    return (int)system_call3(SYS_chdir, (long)path, 0, 0);
}

/* The length of the folder's name, with its zero. */
SYSTEM_CALL int system_getcwd(char *to, size_t room)
{
    return (int)system_call3(SYS_getcwd, (long)to, (long)room, 0);
}

/* Sockets. */

SYSTEM_CALL int system_socket(int domain, int type, int protocol)
{
    return (int)system_call3(SYS_socket, domain, type, protocol);
}

SYSTEM_CALL int system_connect(int descriptor, const void *address, socklen_t length)
{
    return (int)system_call3(SYS_connect, descriptor, (long)address, (long)length);
}

SYSTEM_CALL ssize_t system_send(int descriptor, const void *from, size_t size, int flags)
{
    return system_call6(SYS_sendto, descriptor, (long)from, (long)size, flags, 0, 0);
}

/* Sends without a signal and without waiting for room; or writes, where a filter of the process allows only that. */
SYSTEM_CALL ssize_t system_send_anyhow(int descriptor, const void *from, size_t size)
{
    ssize_t sent = system_send(descriptor, from, size, MSG_NOSIGNAL | MSG_DONTWAIT);
    return sent == -EPERM || sent == -EACCES || sent == -ENOSYS ? system_write(descriptor, from, size) : sent;
}

SYSTEM_CALL ssize_t system_sendmsg(int descriptor, const struct msghdr *message, int flags)
{
    return system_call3(SYS_sendmsg, descriptor, (long)message, flags);
}

SYSTEM_CALL ssize_t system_recvmsg(int descriptor, struct msghdr *message, int flags)
{
    return system_call3(SYS_recvmsg, descriptor, (long)message, flags);
}

SYSTEM_CALL int system_getsockopt(int descriptor, int level, int name, void *value, socklen_t *size)
{
    return (int)system_call6(SYS_getsockopt, descriptor, level, name, (long)value, (long)size, 0);
}

/* Memory. */

/* The address, or an error below zero. */
SYSTEM_CALL long system_mmap(const volatile void *address, size_t size, int protection, int flags, int descriptor,
                             off_t offset)
{
    return system_call6(SYS_mmap, (long)address, (long)size, protection, flags, descriptor, offset);
}

SYSTEM_CALL int system_munmap(const volatile void *address, size_t size)
{
    return (int)system_call3(SYS_munmap, (long)address, (long)size, 0);
}

SYSTEM_CALL int system_mprotect(const volatile void *address, size_t size, int protection)
{
    return (int)system_call3(SYS_mprotect, (long)address, (long)size, protection);
}

/* A part of a page is never given back: the system would give back all of it. */
SYSTEM_CALL int system_madvise(const volatile void *address, size_t size, int advice)
{
#if MAY_HAVE_LARGER_PAGES
    enum { DONTNEED = 4 /* MADV_DONTNEED */ };
    if (advice == DONTNEED && ((uintptr_t)address | size) % SYSTEM_PAGE != 0)
        return -EINVAL;
#endif
    return (int)system_call3(SYS_madvise, (long)address, (long)size, advice);
}

SYSTEM_CALL int system_munlock(const volatile void *address, size_t size)
{
    return (int)system_call3(SYS_munlock, (long)address, (long)size, 0);
}

SYSTEM_CALL ssize_t system_process_vm_readv(pid_t process, const struct iovec *here, const struct iovec *there,
                                            size_t count)
{
    return system_call6(SYS_process_vm_readv, process, (long)here, (long)count, (long)there, (long)count, 0);
}

SYSTEM_CALL ssize_t system_process_vm_writev(pid_t process, const struct iovec *here, const struct iovec *there)
{
    return system_call6(SYS_process_vm_writev, process, (long)here, 1, (long)there, 1, 0);
}

/* Processes and threads. */

/* Asks for what needs no further argument. */
SYSTEM_CALL long system_prctl(int what)
{
    return system_call4(SYS_prctl, what, 0, 0, 0);
}

SYSTEM_CALL pid_t system_getpid(void)
{
    return (pid_t)system_call3(SYS_getpid, 0, 0, 0);
}

SYSTEM_CALL pid_t system_getppid(void)
{
    return (pid_t)system_call3(SYS_getppid, 0, 0, 0);
}

SYSTEM_CALL pid_t system_gettid(void)
{
    return (pid_t)system_call3(SYS_gettid, 0, 0, 0);
}

SYSTEM_CALL uid_t system_geteuid(void)
{
    return (uid_t)system_call3(SYS_geteuid, 0, 0, 0);
}

SYSTEM_CALL pid_t system_setsid(void)
{
    return (pid_t)system_call3(SYS_setsid, 0, 0, 0);
}

SYSTEM_CALL int system_msync(const volatile void *address, size_t size, int flags)
{
    return (int)system_call3(SYS_msync, (long)address, (long)size, flags);
}

SYSTEM_CALL int system_getrlimit(int resource, struct rlimit *limit)
{
    return (int)system_call4(SYS_prlimit64, 0, resource, 0, (long)limit);
}

SYSTEM_CALL int system_setrlimit(int resource, const struct rlimit *limit)
{
    return (int)system_call4(SYS_prlimit64, 0, resource, (long)limit, 0);
}

SYSTEM_CALL int system_sched_yield(void)
{
    return (int)system_call3(SYS_sched_yield, 0, 0, 0);
}

SYSTEM_CALL int system_nanosleep(const struct timespec *span)
{
    return (int)system_call3(SYS_nanosleep, (long)span, 0, 0);
}

SYSTEM_CALL int system_clock_gettime(clockid_t clock, struct timespec *now)
{
    return (int)system_call3(SYS_clock_gettime, clock, (long)now, 0);
}

/* Waits while the word has this value, or wakes up to this many waiting threads. */
SYSTEM_CALL int system_futex(_Atomic uint32_t *word, int operation, uint32_t value)
{
    return (int)system_call4(SYS_futex, (long)word, operation, (long)value, 0);
}

_Noreturn SYSTEM_CALL void system_exit(int status)
{
    for (;;)
        direct_call3(SYS_exit_group, status, 0, 0);
}

/* Signals. */

/* A set has a bit for each, and the first bit for the first. */
enum { SIGNAL_SET_BYTES = 8 };

SYSTEM_CALL uint64_t signal_bit(int number)
{
    return (uint64_t)1 << (number - 1);
}

SYSTEM_CALL int system_sigpending(uint64_t *set)
{
    return (int)system_call3(SYS_rt_sigpending, (long)set, SIGNAL_SET_BYTES, 0);
}

SYSTEM_CALL int system_sigprocmask(int how, const uint64_t *set, uint64_t *before)
{
    return (int)system_call4(SYS_rt_sigprocmask, how, (long)set, (long)before, SIGNAL_SET_BYTES);
}

/* Takes one of a set of signals that are blocked, and does not wait for it. */
SYSTEM_CALL int system_sigtake(const uint64_t *set)
{
    struct timespec none = {0, 0};
    return (int)system_call4(SYS_rt_sigtimedwait, (long)set, 0, (long)&none, SIGNAL_SET_BYTES);
}

SYSTEM_CALL int system_sigaltstack(const void *stack, void *before)
{
    return (int)system_call3(SYS_sigaltstack, (long)stack, (long)before, 0);
}

SYSTEM_CALL int system_tgkill(pid_t process, pid_t thread, int number)
{
    return (int)system_call3(SYS_tgkill, process, thread, number);
}

#endif

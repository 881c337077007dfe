/* Descriptors: which there are, which numbers new ones get, and limits. */
#define _GNU_SOURCE
#include <dirent.h>
#include <fcntl.h>
#include <poll.h>
#include <spawn.h>
#include <stdbool.h>
#include <sys/epoll.h>
#include <sys/eventfd.h>
#include <sys/file.h>
#include <sys/mman.h>
#include <sys/resource.h>
#include <sys/select.h>
#include <sys/socket.h>
#include <sys/stat.h>
#include <sys/syscall.h>
#include <sys/uio.h>
#include <sys/wait.h>

#include "alone.h"

extern char **environ;

/* Says all that are open: by their flags, by what they are, by a poll, and by /proc. */
static void say_open(const char *when)
{
    char line[1024] = "";
    for (int i = 0; i < 4096; i++) {
        struct stat about;
        int flags = fcntl(i, F_GETFD);
        bool has_stat = fstat(i, &about) == 0;
        struct pollfd asked = {.fd = i};
        bool is_polled = poll(&asked, 1, 0) == 0 || !(asked.revents & POLLNVAL);
        if (flags >= 0 || has_stat || is_polled)
            snprintf(line + strlen(line), sizeof line - strlen(line), " %d:%d%d%d", i, flags, has_stat, is_polled);
    }
    say("%s:%s", when, line);
    DIR *folder = opendir("/proc/self/fd");
    line[0] = 0;
    for (struct dirent *it; folder && (it = readdir(folder));)
        if (it->d_name[0] != '.' && atoi(it->d_name) != dirfd(folder))
            snprintf(line + strlen(line), sizeof line - strlen(line), " %s", it->d_name);
    closedir(folder);
    say("listed:%s", line);
}

SITUATION(open_at_start)
{
    say_open("start");
    free(hide(malloc(100)));
    say_open("after a malloc");
}

SITUATION(open_of_child)
{
    pid_t child = fork();
    if (child == 0) {
        say_open("child");
        exit(0);
    }
    say_end("child", child);
    say_open("parent");
    become("open_at_start");
}

SITUATION(open_after_exec)
{
    TELL(dup2(0, 100));
    TELL(dup2(0, 900));
    TELL(dup3(0, 901, O_CLOEXEC));
    become("open_at_start");
}

SITUATION(numbers_of_new_ones)
{
    int ends[2];
    TELL(open("/", O_RDONLY));
    TELL(dup(0));
    TELL(pipe(ends));
    TELL(socketpair(AF_UNIX, SOCK_STREAM, 0, ends));
    TELL(eventfd(0, 0));
    TELL(epoll_create1(0));
    TELL(memfd_create("x", 0));
    TELL(close(5));
    TELL(socket(AF_UNIX, SOCK_DGRAM, 0));
    TELL(fcntl(0, F_DUPFD, 100));
    TELL(fcntl(0, F_DUPFD_CLOEXEC, 1000));
    TELL(dup2(0, 1023));
    TELL(dup2(0, 1000));
    TELL(dup3(0, 0, 0));
    TELL(dup2(999, 3));
    TELL(openat(AT_FDCWD, ".", O_PATH));
    TELL(fileno(tmpfile()));
    TELL(fileno(fopen("/dev/null", "r")));
}

SITUATION(all_closed)
{
    for (int i = 3; i < 5000; i++)
        if (close(i) == 0)
            say("closed %d", i);
    TELL(open("/", O_RDONLY));
    say_open("now");
    void *volatile block = malloc(1000);
    free(block);
    pid_t child = fork();
    if (child == 0)
        exit(3);
    say_end("child", child);
    TELL(system("exit 2"));
}

SITUATION(range_closed)
{
    TELL(dup2(0, 50));
    TELL(close_range(3, ~0u, 0));
    say_open("now");
    TELL(dup(0));
    TELL(syscall(SYS_close_range, 3, ~0u, 0));
    closefrom(3);
    TELL(dup(0));
    pid_t child = fork();
    if (child == 0) {
        say_open("child");
        exit(3);
    }
    say_end("child", child);
    become("open_at_start");
}

SITUATION(range_closed_at_exec)
{
    TELL(dup2(0, 50));
    TELL(close_range(3, ~0u, CLOSE_RANGE_CLOEXEC));
    say_open("now");
    become("open_at_start");
}

SITUATION(range_unshared)
{
    TELL(dup2(0, 50));
    TELL(close_range(40, 60, CLOSE_RANGE_UNSHARE));
    TELL(dup(0));
    TELL(close_range(5, 4, 0));
    TELL(close_range(5, 6, 99));
}

SITUATION(others_than_standard_by_errno)
{
    for (int i = 3; i < 1030; i++) {
        char byte;
        struct stat about;
        errno = 0;
        if (read(i, &byte, 1) != -1 || errno != EBADF)
            say("read of %d", i);
        if (write(i, "x", 0) != -1 || errno != EBADF)
            say("write of %d", i);
        if (fstat(i, &about) != -1 || errno != EBADF)
            say("fstat of %d", i);
        if (lseek(i, 0, SEEK_CUR) != -1 || errno != EBADF)
            say("lseek of %d", i);
        if (dup(i) != -1 || errno != EBADF)
            say("dup of %d", i);
        if (fcntl(i, F_GETFL) != -1 || errno != EBADF)
            say("fcntl of %d", i);
        if (isatty(i) || errno != EBADF)
            say("isatty of %d", i);
        char path[64];
        snprintf(path, sizeof path, "/proc/self/fd/%d", i);
        if (readlink(path, &byte, 1) != -1)
            say("readlink of %d", i);
        snprintf(path, sizeof path, "/dev/fd/%d", i);
        if (open(path, O_RDONLY) != -1)
            say("open of %d", i);
    }
}

SITUATION(select_of_all)
{
    fd_set all;
    FD_ZERO(&all);
    struct timeval none = {0, 0};
    int wrong = 0;
    for (int i = 3; i < FD_SETSIZE; i++) {
        FD_ZERO(&all);
        FD_SET(i, &all);
        errno = 0;
        if (select(FD_SETSIZE, &all, NULL, NULL, &none) != -1 || errno != EBADF)
            wrong++;
    }
    say("%d", wrong);
    FD_ZERO(&all);
    TELL(select(FD_SETSIZE, &all, NULL, NULL, &none));
    TELL(select(-1, &all, NULL, NULL, &none));
}

SITUATION(poll_of_closed_ones)
{
    static struct pollfd all[1000];
    for (int i = 0; i < 1000; i++)
        all[i] = (struct pollfd){.fd = i + 3, .events = POLLIN};
    TELL(poll(all, 1000, 0));
    int right = 0;
    for (int i = 0; i < 1000; i++)
        right += all[i].revents == POLLNVAL;
    say("%d", right);
    struct epoll_event event = {.events = EPOLLIN};
    int epoll = epoll_create1(0), added = 0;
    for (int i = 4; i < 1030; i++)
        added += epoll_ctl(epoll, EPOLL_CTL_ADD, i, &event) == 0;
    say("%d", added);
}

SITUATION(limit_of_numbers)
{
    struct rlimit limit;
    TELL(getrlimit(RLIMIT_NOFILE, &limit));
    rlim_t hard = limit.rlim_max;
    limit.rlim_cur = 10;
    TELL(setrlimit(RLIMIT_NOFILE, &limit));
    TELL(sysconf(_SC_OPEN_MAX));
    TELL(getdtablesize());
    int opened = 0;
    while (dup(0) >= 0)
        opened++;
    say("%d %s", opened, strerrorname_np(errno));
    TELL(dup2(0, 10));
    TELL(fcntl(0, F_DUPFD, 10));
    free(hide(malloc(100)));
    pid_t child = fork();
    if (child == 0)
        exit(7);
    say_end("child", child);
    TELL(system("exit 4"));
    TELL_KIND(fopen("/dev/null", "r"));
    limit.rlim_cur = hard < 4096 ? hard : 4096;
    TELL(setrlimit(RLIMIT_NOFILE, &limit));
    TELL(dup(0));
}

SITUATION(limit_of_none)
{
    struct rlimit limit = {3, 3};
    TELL(setrlimit(RLIMIT_NOFILE, &limit));
    TELL(dup(0));
    pid_t child = fork();
    if (child == 0) {
        free(hide(malloc(5)));
        exit(7);
    }
    say_end("child", child);
    child = vfork();
    if (child == 0)
        _exit(8);
    say_end("child", child);
    pthread_t other;
    TELL(pthread_create(&other, NULL, hide, NULL));
    TELL(pthread_join(other, NULL));
    limit.rlim_cur = limit.rlim_max = 0;
    TELL(setrlimit(RLIMIT_NOFILE, &limit));
    free(hide(malloc(100000)));
}

SITUATION(limit_then_exec)
{
    struct rlimit limit = {8, 8};
    TELL(setrlimit(RLIMIT_NOFILE, &limit));
    become("limit_of_numbers_after_exec");
}

SITUATION(limit_of_numbers_after_exec)
{
    int opened = 0;
    while (dup(0) >= 0)
        opened++;
    say("%d", opened);
    pid_t child = fork();
    if (child == 0)
        exit(7);
    say_end("child", child);
}

SITUATION(limit_by_prlimit)
{
    struct rlimit few = {6, 6}, was;
    TELL(prlimit(0, RLIMIT_NOFILE, &few, &was));
    int opened = 0;
    while (dup(0) >= 0)
        opened++;
    say("%d", opened);
    TELL(prlimit(0, RLIMIT_NOFILE, NULL, &was));
    say("%ld", (long)was.rlim_cur);
}

static void say_standard(void)
{
    for (int i = 0; i < 4; i++) {
        struct stat about;
        fprintf(stderr, "%d: %d\n", i, fstat(i, &about));
    }
}

SITUATION(standard_ones_closed)
{
    int kept = fcntl(2, F_DUPFD, 20);
    close(0);
    close(1);
    close(2);
    int first = open("/dev/null", O_RDWR), second = open("/dev/null", O_RDWR), third = open("/dev/null", O_RDWR);
    void *volatile block = malloc(10);
    free(block);
    dup2(kept, 2);
    fprintf(stderr, "%d %d %d\n", first, second, third);
    say_standard();
}

SITUATION(standard_ones_closed_at_exec)
{
    dup2(2, 40);
    close(0);
    close(1);
    close(2);
    become("without_standard_ones");
}

SITUATION(without_standard_ones)
{
    int first = open("/dev/null", O_RDWR), second = open("/dev/null", O_RDWR), third = open("/dev/null", O_RDWR);
    int fourth = open("/dev/null", O_RDWR);
    dup2(40, 2);
    fprintf(stderr, "%d %d %d %d\n", first, second, third, fourth);
    pid_t child = fork();
    if (child == 0)
        exit(3);
    int status = 0;
    waitpid(child, &status, 0);
    fprintf(stderr, "%d\n", WEXITSTATUS(status));
}

SITUATION(standard_input_closed_at_exec)
{
    close(0);
    become("open_at_start");
}

SITUATION(passed_by_spawn)
{
    posix_spawn_file_actions_t actions;
    posix_spawn_file_actions_init(&actions);
    TELL(dup2(0, 77));
    TELL(posix_spawn_file_actions_adddup2(&actions, 0, 88));
    TELL(posix_spawn_file_actions_addclose(&actions, 77));
    TELL(posix_spawn_file_actions_addopen(&actions, 3, "/dev/null", O_RDONLY, 0));
    char *const argv[] = {(char *)"alone", (char *)"open_at_start", NULL};
    pid_t child;
    TELL(posix_spawn(&child, "/proc/self/exe", &actions, NULL, argv, environ));
    say_end("child", child);
    TELL(posix_spawn_file_actions_addclosefrom_np(&actions, 3));
    TELL(posix_spawn(&child, "/proc/self/exe", &actions, NULL, argv, environ));
    say_end("child", child);
    posix_spawn_file_actions_destroy(&actions);
}

SITUATION(passed_by_shell)
{
    TELL(system("exec 7</dev/null; exec /proc/$PPID/exe open_at_start"));
    TELL(system("ls /proc/self/fd | wc -l"));
}

SITUATION(sent_by_socket)
{
    int ends[2], fd = 0;
    TELL(socketpair(AF_UNIX, SOCK_STREAM, 0, ends));
    char space[CMSG_SPACE(sizeof fd)] = {0}, byte = 1;
    struct iovec piece = {&byte, 1};
    struct msghdr message = {.msg_iov = &piece, .msg_iovlen = 1, .msg_control = space, .msg_controllen = sizeof space};
    struct cmsghdr *head = CMSG_FIRSTHDR(&message);
    *head = (struct cmsghdr){.cmsg_len = CMSG_LEN(sizeof fd), .cmsg_level = SOL_SOCKET, .cmsg_type = SCM_RIGHTS};
    memcpy(CMSG_DATA(head), &fd, sizeof fd);
    TELL(sendmsg(ends[0], &message, 0));
    TELL(recvmsg(ends[1], &message, 0));
    memcpy(&fd, CMSG_DATA(CMSG_FIRSTHDR(&message)), sizeof fd);
    say("%d", fd);
}

SITUATION(locks_of_files)
{
    int file = open("file", O_RDWR | O_CREAT, 0600);
    struct flock lock = {.l_type = F_WRLCK, .l_whence = SEEK_SET};
    TELL(fcntl(file, F_SETLK, &lock));
    TELL(flock(file, LOCK_EX | LOCK_NB));
    pid_t child = fork();
    if (child == 0) {
        struct flock asked = {.l_type = F_WRLCK, .l_whence = SEEK_SET};
        TELL(fcntl(file, F_SETLK, &asked));
        TELL(fcntl(file, F_GETLK, &asked));
        say("%d %d", asked.l_type, asked.l_pid == getppid());
        TELL(flock(open("file", O_RDWR), LOCK_EX | LOCK_NB));
        exit(0);
    }
    say_end("child", child);
    TELL(lockf(file, F_ULOCK, 0));
    TELL(fcntl(file, F_OFD_SETLK, &lock));
}

static void *opens_many(void *it)
{
    int highest = 0;
    for (int i = 0; i < 100; i++) {
        int made = open("/dev/null", O_RDONLY);
        highest = made > highest ? made : highest;
    }
    return (void *)(size_t)highest;
    (void)it;
}

SITUATION(numbers_in_threads)
{
    void *one, *two;
    pthread_t first = begin(opens_many, NULL), second = begin(opens_many, NULL);
    pthread_join(first, &one);
    pthread_join(second, &two);
    say("%zu", (size_t)one > (size_t)two ? (size_t)one : (size_t)two);
}

SITUATION(number_of_descriptors)
{
    static const char *const words[] = {"FDSize", NULL};
    say_lines("/proc/self/status", words);
    DIR *folder = opendir("/proc/self/fdinfo");
    int count = 0;
    while (readdir(folder))
        count++;
    say("%d", count);
    closedir(folder);
    struct stat about;
    TELL(stat("/proc/self/fd", &about));
}

SITUATION(closed_beside_threads)
{
    pthread_t first = begin(opens_many, NULL);
    pthread_join(first, NULL);
    for (int i = 3; i < 1024; i++)
        close(i);
    first = begin(opens_many, NULL);
    void *highest;
    pthread_join(first, &highest);
    say("%zu", (size_t)highest);
}

SITUATION(opened_again_and_again)
{
    for (int i = 0; i < 2000; i++) {
        int made = open("/dev/null", O_RDONLY);
        free(hide(malloc((size_t)i)));
        if (made != 3)
            say("%d", made);
        close(made);
    }
    closefrom(0);
    TELL(open("/dev/null", O_RDWR) == 0 ? 0 : 1);
    exit(open("/dev/null", O_RDWR) == 1 ? 0 : 1);
}

/* What the programs of calls.py share: files, sockets and memory that calls get beside the block that is tried. */
#define _GNU_SOURCE
#include <aio.h>
#include <arpa/inet.h>
#include <dirent.h>
#include <err.h>
#include <errno.h>
#include <error.h>
#include <execinfo.h>
#include <fcntl.h>
#include <ftw.h>
#include <getopt.h>
#include <glob.h>
#include <grp.h>
#include <iconv.h>
#include <ifaddrs.h>
#include <libintl.h>
#include <limits.h>
#include <linux/capability.h>
#include <locale.h>
#include <mntent.h>
#include <mqueue.h>
#include <net/if.h>
#include <netdb.h>
#include <netinet/ether.h>
#include <poll.h>
#include <pthread.h>
#include <pwd.h>
#include <regex.h>
#include <sched.h>
#include <semaphore.h>
#include <setjmp.h>
#include <signal.h>
#include <spawn.h>
#include <stdarg.h>
#include <stdint.h>
#include <stdio.h>
#include <stdlib.h>
#include <string.h>
#include <sys/epoll.h>
#include <sys/eventfd.h>
#include <sys/ioctl.h>
#include <sys/msg.h>
#include <sys/prctl.h>
#include <sys/ptrace.h>
#include <sys/resource.h>
#include <sys/sem.h>
#include <sys/shm.h>
#include <sys/socket.h>
#include <sys/stat.h>
#include <sys/statfs.h>
#include <sys/statvfs.h>
#include <sys/sysinfo.h>
#include <sys/time.h>
#include <sys/timeb.h>
#include <sys/timerfd.h>
#include <sys/times.h>
#include <sys/timex.h>
#include <sys/uio.h>
#include <sys/un.h>
#include <sys/utsname.h>
#include <sys/wait.h>
#include <sys/xattr.h>
#include <syslog.h>
#include <termios.h>
#include <threads.h>
#include <time.h>
#include <unistd.h>
#include <utime.h>
#include <utmpx.h>
#include <wchar.h>
#include <wordexp.h>

#define ANY any
#define WIDE(p) ((wchar_t *)(void *)(p))

static char room[1 << 16];
static size_t any = (size_t)-1; /* a room that a function of _FORTIFY_SOURCE is told of */
static char text[] = "abcdefghijklmnopqrstuvwxyz";
static char *nothing[] = {NULL};
static int zero, null, hello, pair[2];
static FILE *nowhere, *wide_nowhere;

static void *clear(void *at)
{
    volatile char *first = at;
    *first = first[1] = first[2] = first[3] = 0;
    return at;
}

static void *zeros(void)
{
    static char bytes[256];
    return memset(bytes, 0, sizeof bytes);
}

static void *copy(const char *of)
{
    static char copied[64];
    for (int i = 0; i < 27; i++)
        copied[i] = of[i];
    return copied;
}

static void *address_of(const void *it)
{
    static const void *addresses[8];
    static size_t next;
    const void **address = &addresses[next++ % 8];
    *address = it;
    return address;
}

static void *size_of(size_t it)
{
    static size_t sizes[8], next;
    size_t *size = &sizes[next++ % 8];
    *size = it;
    return size;
}

static void *state(void)
{
    static mbstate_t states[999];
    static int next;
    return &states[next++];
}

static FILE *stream(const char *of)
{
    FILE *made = tmpfile();
    for (; *of != 0; of++)
        putc(*of, made);
    rewind(made);
    return fdopen(dup(fileno(made)), "r"); /* it may be one of wide characters too */
}

/* Two pieces with one byte in the first. */
static struct iovec *pieces(char *p, size_t size)
{
    static struct iovec made[2];
    made[0] = (struct iovec){p, 1};
    made[1] = (struct iovec){p + 1, size - 1};
    return made;
}

static void *messages(char *p, size_t size)
{
    static struct mmsghdr made;
    made.msg_hdr = (struct msghdr){.msg_iov = pieces(p, size), .msg_iovlen = 2};
    return &made;
}

static void *message(char *p, size_t size)
{
    return &((struct mmsghdr *)messages(p, size))->msg_hdr;
}

/* A socket at which something waits. */
static int filled(void)
{
    int made[2];
    if (socketpair(AF_UNIX, SOCK_DGRAM, 0, made) != 0 || send(made[0], text, 26, 0) != 26)
        exit(9);
    return made[1];
}

static int epoll_of(int file)
{
    int made = epoll_create1(0);
    struct epoll_event event = {.events = EPOLLOUT};
    epoll_ctl(made, EPOLL_CTL_ADD, file, &event);
    return made;
}

static iconv_t latin(void)
{
    return iconv_open("LATIN1", "UTF-8");
}

static locale_t latin_locale(void)
{
    return newlocale(LC_ALL_MASK, "C", NULL);
}

static void *in_root(void *p)
{
    return chdir("/") == 0 ? p : NULL;
}

/* A child that has ended. */
static pid_t ended(void)
{
    pid_t child = vfork();
    if (child == 0)
        _exit(3);
    return child;
}

/* Any child, of which one has not ended: it waits for the end of this process. */
static pid_t running(void)
{
    static FILE *input;
    if (input == NULL && (input = popen("cat", "w")) == NULL)
        exit(9);
    return -1;
}

/* A signal that waits, in its set. */
static sigset_t *waiting(void)
{
    static sigset_t set;
    sigemptyset(&set);
    sigaddset(&set, SIGUSR1);
    sigprocmask(SIG_BLOCK, &set, NULL);
    raise(SIGUSR1);
    return &set;
}

static sigset_t *waiting_in(char *p)
{
    *(volatile long *)p = *(const long *)waiting();
    return (sigset_t *)p;
}

static regex_t *pattern(void)
{
    static regex_t made;
    regcomp(&made, "a*", 0);
    return &made;
}

static int same(const void *one, const void *other)
{
    (void)one, (void)other;
    return 0;
}

/* Whether the use that runs needs what this system does not have or allow. */
static int is_left_out;

static int needed(int made)
{
    is_left_out |= made < 0;
    return made;
}

/* Where something is noted that was found. */
static void *found(void)
{
    static void *noted;
    return &noted;
}

static struct random_data *random_state(void)
{
    static struct random_data made;
    static char bytes[64];
    initstate_r(1, bytes, sizeof bytes, &made);
    return &made;
}

static int shared_memory(void)
{
    static int made = -1;
    if (made < 0 && (made = shmget(IPC_PRIVATE, 4096, 0600)) >= 0) {
        shmat(made, NULL, 0); /* until the program ends */
        shmctl(made, IPC_RMID, NULL);
    }
    return needed(made);
}

static struct __user_cap_header_struct *capability_head(void)
{
    static struct __user_cap_header_struct head;
    head = (struct __user_cap_header_struct){_LINUX_CAPABILITY_VERSION_3, 0};
    return &head;
}

/* Of a process that is none, so that nothing is set. */
static struct __user_cap_header_struct *capability_head_of_none(void)
{
    capability_head()->pid = -1;
    return capability_head();
}

static void *page_of(void *p)
{
    return (void *)((uintptr_t)p / 4096 * 4096 + 4096);
}

/* Nobody is noted as logged in. */
static struct utmpx *no_accounts(struct utmpx *p)
{
    utmpxname("/no/such");
    return p;
}

static void *ends_at_once(void *argument)
{
    return argument;
}

static pthread_t made_thread(void)
{
    pthread_t made;
    if (pthread_create(&made, NULL, ends_at_once, NULL) != 0)
        exit(9);
    return made;
}

static pthread_attr_t *own_settings(void)
{
    static pthread_attr_t made;
    pthread_getattr_np(pthread_self(), &made);
    return &made;
}

static struct iovec *from_pieces(void)
{
    static struct iovec made[2] = {{text, 3}, {text + 3, 23}};
    return made;
}

static struct iovec *to_pieces(void)
{
    static struct iovec made[2] = {{room, 3}, {room + 3, 23}};
    return made;
}

/* What the program reads as its input. */
static const char *after_input(const char *input, const char *format)
{
    stdin = stream(input);
    return format;
}

static const wchar_t *after_wide_input(const char *input, const wchar_t *format)
{
    stdin = stream(input);
    return format;
}

/* The two ends of a terminal. */
static int terminal_ends[2] = {-1, -1};

static int terminal_master(void)
{
    if (terminal_ends[0] < 0 && needed(terminal_ends[0] = posix_openpt(O_RDWR | O_NOCTTY)) >= 0) {
        needed(unlockpt(terminal_ends[0]));
        const char *name = ptsname(terminal_ends[0]);
        terminal_ends[1] = name ? open(name, O_RDWR | O_NOCTTY) : -1;
    }
    needed(terminal_ends[1]);
    return terminal_ends[0];
}

static int terminal(void)
{
    terminal_master();
    return terminal_ends[1];
}

/* Where in a block of 64 bytes something of this size begins that ends with it. */
static char *before_end(char *p, ssize_t size)
{
    needed(size > 0 && size <= 64 ? 0 : -1);
    return p + 64 - (is_left_out ? 64 : size);
}

static char *before_end_of_name(char *p)
{
    const char *name = ttyname(terminal());
    return before_end(p, name ? (ssize_t)strlen(name) + 1 : 0);
}

static char *before_end_of_host(char *p, int of(char *, size_t))
{
    return before_end(p, of(room, sizeof room) == 0 ? (ssize_t)strlen(room) + 1 : 0);
}

static gid_t *before_end_of_groups(char *p)
{
    return (gid_t *)(void *)before_end(p, getgroups(0, NULL) * (ssize_t)sizeof(gid_t));
}

static char *before_end_of_interface(char *p)
{
    return before_end(p, if_indextoname(1, room) ? (ssize_t)strlen(room) + 1 : 0);
}

/* A file with one attribute of the user's. */
static int with_attribute(void)
{
    static int file = -1;
    if (file < 0) {
        file = open("attributes", O_RDWR | O_CREAT, 0600);
        needed(fsetxattr(file, "user.a", "1234567", 8, 0));
    }
    needed(fgetxattr(file, "user.a", NULL, 0) == 8 ? 0 : -1);
    return file;
}

static char *before_end_of_attributes(char *p)
{
    return before_end(p, flistxattr(with_attribute(), NULL, 0));
}

/* A queue with one message of 8 bytes. It is gone when the program ends. */
static int queue_made = -1;

static void remove_queue(void)
{
    msgctl(queue_made, IPC_RMID, NULL);
}

static int queue(void)
{
    static struct {
        long type;
        char text[8];
    } message = {1, "1234567"};
    if (queue_made < 0 && (queue_made = msgget(IPC_PRIVATE, 0600)) >= 0)
        atexit(remove_queue);
    needed(queue_made >= 0 ? msgsnd(queue_made, &message, 8, 0) : -1);
    return queue_made;
}

/* The same for the other kind. */
static mqd_t message_queue(void)
{
    struct mq_attr settings = {.mq_maxmsg = 1, .mq_msgsize = 8};
    char name[32];
    snprintf(name, sizeof name, "/asancol.%d", (int)getpid());
    mqd_t made = mq_open(name, O_RDWR | O_CREAT | O_NONBLOCK, 0600, &settings);
    if (needed(made) >= 0 && mq_unlink(name) == 0)
        mq_send(made, "1234567", 8, 0);
    return made;
}

/* A folder with two entries. */
static int empty_folder(void)
{
    mkdir("empty", 0700);
    return needed(open("empty", O_RDONLY | O_DIRECTORY));
}

static struct aiocb *request_of(int file, void *with, size_t size)
{
    static struct aiocb made;
    made = (struct aiocb){.aio_fildes = file, .aio_buf = with, .aio_nbytes = size};
    made.aio_sigevent.sigev_notify = SIGEV_NONE;
    return &made;
}

static struct aiocb *read_request(int file, void *to, size_t size)
{
    struct aiocb *made = request_of(file, to, size);
    needed(aio_read(made));
    while (aio_error(made) == EINPROGRESS)
        sched_yield();
    return made;
}

static timer_t made_timer(void)
{
    static timer_t made;
    struct sigevent nobody = {.sigev_notify = SIGEV_NONE};
    needed(timer_create(CLOCK_MONOTONIC, &nobody, &made));
    return made;
}

static char **words_with(const char *word)
{
    static char *words[3] = {"program"};
    words[1] = (char *)word;
    return words;
}

static int from_first(int count)
{
    optind = 0;
    return count;
}

static struct option *options_with(const char *name)
{
    static struct option options[2];
    options[0] = (struct option){.name = name};
    return options;
}

/* Whose last row has no name. */
static struct option *options_in(char *p)
{
    ((struct option *)p)->name = "of";
    return (struct option *)p;
}

static void does_nothing(void)
{
}

/* Nobody waits for a condition with it who does not have it. */
static pthread_mutex_t *refusing(void)
{
    static pthread_mutex_t made;
    made = (pthread_mutex_t)PTHREAD_ERRORCHECK_MUTEX_INITIALIZER_NP;
    return &made;
}

static struct timespec *past_time(void)
{
    static struct timespec past;
    return &past;
}

static sem_t *one_permit(void)
{
    static sem_t made;
    sem_init(&made, 0, 1);
    return &made;
}

static regmatch_t *match_of(int from, int to)
{
    static regmatch_t made;
    made = (regmatch_t){from, to};
    return &made;
}

/* A socket to which somebody has connected. */
static int connected(void)
{
    struct sockaddr_un address = {.sun_family = AF_UNIX};
    socklen_t length = sizeof address;
    int made = socket(AF_UNIX, SOCK_STREAM, 0), other = socket(AF_UNIX, SOCK_STREAM, 0);
    bind(made, (struct sockaddr *)&address, sizeof address.sun_family);
    getsockname(made, (struct sockaddr *)&address, &length);
    listen(made, 1);
    needed(connect(other, (struct sockaddr *)&address, length));
    return made;
}

static void prepare(void)
{
    gid_t group = getgid();
    setsid(); /* without a terminal */
    if (getgroups(0, NULL) == 0)
        setgroups(1, &group);
    zero = open("/dev/zero", O_RDONLY);
    null = open("/dev/null", O_RDWR);
    hello = open("/dev/zero", O_RDONLY);
    nowhere = fopen("/dev/null", "w");
    wide_nowhere = fopen("/dev/null", "w");
    if (zero < 0 || null < 0 || nowhere == NULL || wide_nowhere == NULL)
        exit(9);
    if (socketpair(AF_UNIX, SOCK_STREAM, 0, pair) != 0)
        exit(9);
}

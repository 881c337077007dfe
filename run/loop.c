/* One poll of a fixed number of descriptors, however many processes there are: wait_once waits and takes what came,
   do_due does what its time has come for and says when the next is due. `run` has the times. Nothing here blocks but
   that poll. */
#define _GNU_SOURCE
#include "loop.h"

#include <dirent.h>
#include <errno.h>
#include <fcntl.h>
#include <inttypes.h>
#include <poll.h>
#include <signal.h>
#include <stdio.h>
#include <stdlib.h>
#include <string.h>
#include <sys/resource.h>
#include <sys/socket.h>
#include <sys/wait.h>
#include <unistd.h>

#include "common/text.h"
#include "arrivals.h"
#include "asking.h"
#include "checkers.h"
#include "children.h"
#include "deaths.h"
#include "descendants.h"
#include "folder.h"
#include "held.h"
#include "hub.h"
#include "kin.h"
#include "marks.h"
#include "modules.h"
#include "peers.h"
#include "processes.h"
#include "report.h"
#include "say.h"
#include "segments.h"
#include "serving.h"
#include "shared.h"
#include "showing.h"
#include "signals.h"
#include "status.h"

/* What a process holds here while it is checked, and how many more descriptors are kept free. */
enum { HELD_BY_PROCESS = 3, KEPT_FREE = 12 };
enum { MAX_DESCRIPTORS = 65536 };
/* What a process that waits for a report holds here, with a margin; with fewer descriptors in all nobody waits. */
enum { HELD_BY_SHOWN = 16, ENOUGH_TO_SHOW = 256 };
/* How many connections are accepted before anything else has its turn. */
enum { MAX_AT_ONCE = 64 };
/* How many traces in files are checked at once. */
enum { FILES_AT_ONCE = 8 };

/* In seconds. */
static const double GRACE = 5;       /* between SIGTERM and SIGKILL of --timeout */
static const double LOOK = 1;        /* between looks at the remaining processes */
static const double SHORTAGE = 0.05; /* until a shortage is tried again */
static const double SHOWING = 0.0005; /* until a report that a process waits for is looked for again */
static const double LAST = 30;       /* after the last cut, until the rest is left alone */
static const double PROGRESS = 2;    /* until there is a line of progress */
static const double LIFE = 10;       /* until the first line while the command runs */
static const double LINGER = 0.3;    /* until a served program is answered while others of it run on */
static const double TOGETHER = 0.5;  /* within which two signals are one: the sender's, and that to our process group */

static struct {
    const struct options *options;
    pid_t command;        /* 0: it has ended */
    pid_t command_number; /* also once it has ended */
    int signals;
    double started, ended, cut; /* when; 0: not yet */
    double wait_from;           /* --wait counts from here */
    double timeout_at, kill_at; /* 0: never */
    double short_until, look_at, progress_at, attend_at;
    double life_after; /* how long it has run at the next line on that */
    double signalled; /* when the last signal came */
    bool is_left;     /* something that the command has started */
    bool has_timed_out;
    int status;
    size_t descriptors, base; /* how many there may be, and are without processes */
    size_t done;              /* processes, at the last look */
} run;

static void count_descriptors(void)
{
    struct rlimit limit;
    DIR *entries = opendir("/proc/self/fd");
    run.base = KEPT_FREE;
    while (entries != NULL && readdir(entries) != NULL)
        run.base++;
    if (entries != NULL)
        closedir(entries);
    if (getrlimit(RLIMIT_NOFILE, &limit) != 0)
        return;
    rlim_t most = limit.rlim_max < MAX_DESCRIPTORS ? limit.rlim_max : MAX_DESCRIPTORS;
    struct rlimit more = {most, limit.rlim_max};
    run.descriptors = most > limit.rlim_cur && setrlimit(RLIMIT_NOFILE, &more) == 0 ? most : limit.rlim_cur;
}

/* With few descriptors each process gets its checker at once. */
static void hold_processes(void)
{
    count_descriptors();
    if (run.descriptors < run.base + HELD_BY_PROCESS)
        return;
    held_begin();
    arrivals_begin();
    count_descriptors();
}

static bool has_room(void)
{
    size_t held = run.base + HELD_BY_PROCESS * segment_live_count() + report_held() + modules_held() + asking_held()
                  + showing_held();
    return now() >= run.short_until && (segment_live_count() == 0 || held + HELD_BY_PROCESS <= run.descriptors);
}

/* What has come in is still checked. The process runs on. */
static void cut_segment(struct segment *segment)
{
    if (segment->stage == STAGE_DONE || segment_has_hung_up(segment))
        return;
    if (segment->cut == CUT_NONE)
        segment->cut = CUT_BY_WAIT;
    shutdown(segment->connection, SHUT_RD);
}

static void for_each_segment(void (*act)(struct segment *segment))
{
    const struct process *process;
    for (size_t at = 0; (process = process_next(&at)) != NULL;)
        for (struct segment *segment = process->first; segment != NULL; segment = segment->next)
            act(segment);
}

/* One of which nothing came. */
static void add_unseen(pid_t peer, const char *why)
{
    struct segment *segment = segment_add();
    segment->process->source = SOURCE_UNSEEN;
    if (peer != 0)
        process_set_peer(segment->process, peer);
    checker_give_up(segment, why);
}

/* One of another user is gone, and nobody knows if the command had started it. However many such there are, they are
   one process that was not seen. */
static void note_unknown_peer(const struct ucred *peer)
{
    static bool is_noted;
    char why[120];
    if (is_noted)
        return;
    is_noted = true;
    snprintf(why, sizeof why, "it belongs to user %u, and ended before its parent was known",
             (unsigned)peer->uid);
    add_unseen(peer->pid, why);
}

/* A new connection becomes a segment. */
static void add_connection(int connection, const struct ucred *peer)
{
    struct segment *segment = segment_add();
    segment->connection = connection;
    process_set_peer(segment->process, peer->pid);
    segment->cut = run.has_timed_out ? CUT_BY_TIMEOUT : CUT_NONE;
    arrivals_add(segment);
    if (run.cut != 0)
        cut_segment(segment);
}

/* Answers false if there is no connection to accept now. */
static bool accept_one(int listener)
{
    struct ucred peer;
    int connection = hub_accept(listener, &peer);
    if (connection < 0) {
        if (errno != EAGAIN)
            run.short_until = now() + SHORTAGE;
        return false;
    }
    enum peer whose = peer_judge(&peer, hub_is_secret(listener));
    if (whose == PEER_OURS) {
        add_connection(connection, &peer);
        return true;
    }
    close(connection);
    peer_say_refused(&peer);
    if (whose == PEER_UNKNOWN)
        note_unknown_peer(&peer);
    return true;
}

/* Those that were accepted before this run began, or that the served program has passed on. */
static void take_accepted(void)
{
    struct ucred peer;
    int connection;
    while ((connection = serving_next_connection()) >= 0) {
        /* An end of a pair does not wait, as its process needs the other; a checker's reads wait. */
        if (hub_know(connection, &peer) && fcntl(connection, F_SETFL, 0) == 0)
            add_connection(connection, &peer);
        else
            close(connection);
    }
}

static void accept_from(int listener)
{
    for (int count = 0; count < MAX_AT_ONCE && has_room() && accept_one(listener); count++)
        ;
}

static void note_end_of_command(int status)
{
    run.status = status;
    run.ended = run.wait_from = now();
    run.command = 0;
    run.look_at = 0;
}

/* Takes what has ended: the command, programs of ours, and processes that were left to us. */
static void reap(void)
{
    pid_t child;
    int status;
    while ((child = waitpid(-1, &status, WNOHANG)) > 0) {
        enum role role;
        void *owner;
        if (child == run.command) {
            death_note(child, status);
            note_end_of_command(status);
        } else if (!child_take(child, &role, &owner)) {
            death_note(child, status);
            run.look_at = 0;
        } else if (role == ROLE_REPORT) {
            report_has_ended(status);
        } else if (role == ROLE_SHARED) {
            shared_has_ended(owner, status);
        } else {
            checker_has_ended(owner, role == ROLE_TEE, status);
        }
    }
}

static void end_checker(struct segment *segment)
{
    if (segment->checker != 0)
        kill(segment->checker, SIGKILL);
}

/* The user wants an end: of waiting first, and then of the report. */
static void hurry(void)
{
    if (run.options->are_files) {
        for_each_segment(end_checker);
        signals_end_by(SIGTERM);
    }
    if (run.cut == 0)
        run.wait_from = now() - run.options->wait;
    else
        report_interrupt();
}

static void read_signals(void)
{
    bool is_repeated = now() < run.signalled + TOGETHER;
    if (serving_is_on()) {
        signals_read(run.signals, 0); /* it ends with those that it serves */
    } else if (signals_read(run.signals, run.command) > 0) {
        if (run.command == 0 && !is_repeated)
            hurry();
        run.signalled = now();
    }
    reap();
}

/* One that has sent its first bytes waits for others, or its checker is started; unless it has only asked for
   something. The command itself does not wait: none comes after it. False: there are no resources now. */
static bool start_arrived(struct segment *segment)
{
    if (segment->small == NULL && checker_answers(segment)) {
        arrivals_add(segment);
        return true;
    }
    return (segment->process->peer != run.command_number && held_take(segment)) || checker_start(segment);
}

static void start_arrivals(bool is_ready)
{
    struct segment *segment;
    if (is_ready)
        arrivals_find();
    while (now() >= run.short_until && (segment = arrivals_next()) != NULL) {
        if (start_arrived(segment))
            continue;
        arrivals_add_ready(segment);
        run.short_until = now() + SHORTAGE;
    }
}

/* Those whose streams are small: checks the due ones, and takes back those that need a checker of their own. */
static void take_held(bool is_ready, bool hurries)
{
    struct segment *segment;
    held_look(is_ready);
    shared_start(hurries || run.ended != 0);
    while ((segment = shared_next_alone()) != NULL) {
        if (segment->small != NULL)
            arrivals_add_ready(segment);
        else
            arrivals_add(segment);
    }
}

/* How many seconds nothing is due, at most as many. */
static double until_due(double seconds, bool is_short)
{
    double first = held_due() < shared_due() ? held_due() : shared_due(), left = first - now();
    if (!is_short && arrivals_are_ready())
        return 0;
    if (showing_held() > 0 && seconds > SHOWING)
        seconds = SHOWING;
    return left >= seconds ? seconds : left > 0 ? left : 0;
}

/* The polled descriptors of a turn: the same few, however many processes there are. */
enum {
    SIGNALS, FIRST, SECOND, REPORT, HELD, ARRIVALS, SERVED, SERVED_ASKS, ASKING,
    MOST_POLLS = ASKING + ASKING_POLLS
};

/* poll refuses more entries than a process may have descriptors, and counts those that it passes over. */
static int poll_used(struct pollfd *polls, size_t count, int timeout)
{
    struct pollfd used[MOST_POLLS];
    size_t next = 0;
    for (size_t i = 0; i < count; i++) {
        polls[i].revents = 0;
        if (polls[i].fd >= 0)
            used[next++] = polls[i];
    }
    int found = poll(used, next, timeout);
    for (size_t i = 0, at = 0; found >= 0 && i < count; i++)
        if (polls[i].fd >= 0)
            polls[i].revents = used[at++].revents;
    return found;
}

static void take_end_of_served(void)
{
    int status;
    if (serving_has_ended(&status))
        note_end_of_command(status);
}

/* Waits once, at most so long, and does what there is to do. */
static void wait_once(double seconds)
{
    struct pollfd polls[MOST_POLLS];
    bool is_short = now() < run.short_until, accepts = has_room();
    polls[SIGNALS] = (struct pollfd){run.signals, POLLIN, 0};
    for (int i = 0; i < HUB_LISTENERS; i++) /* -1 is passed over */
        polls[FIRST + i] = (struct pollfd){accepts ? hub_listeners()[i] : -1, POLLIN, 0};
    polls[REPORT] = report_poll();
    polls[HELD] = held_poll();
    polls[SERVED] = serving_poll();
    polls[SERVED_ASKS] = serving_asking_poll();
    polls[ARRIVALS] = is_short ? (struct pollfd){-1, 0, 0} : arrivals_poll();
    seconds = until_due(seconds, is_short);
    seconds = asking_polls(polls + ASKING, seconds);
    if ((is_short || report_held() > 0) && seconds > SHORTAGE)
        seconds = SHORTAGE; /* a report that does not take descriptors now shows no sign when it does */
    if (poll_used(polls, MOST_POLLS, (int)(seconds * 1000) + (seconds > 0)) < 0)
        return;
    if (polls[SIGNALS].revents != 0)
        read_signals();
    report_send();
    asking_take(polls + ASKING);
    take_end_of_served();
    take_accepted();
    start_arrivals(polls[ARRIVALS].revents != 0);
    take_held(polls[HELD].revents != 0, !accepts);
    showing_look();
    for (int i = 0; i < HUB_LISTENERS; i++)
        if (polls[FIRST + i].revents != 0)
            accept_from(hub_listeners()[i]);
}

/* Whether a connection waits to be accepted. */
static bool has_queue(void)
{
    struct pollfd polls[HUB_LISTENERS];
    for (int i = 0; i < HUB_LISTENERS; i++)
        polls[i] = (struct pollfd){hub_listeners()[i], POLLIN, 0};
    return poll(polls, HUB_LISTENERS, 0) > 0;
}

static void note_timeout(struct segment *segment)
{
    if (segment->stage != STAGE_DONE)
        segment->cut = CUT_BY_TIMEOUT;
}

/* --timeout: what belongs to the command is ended. */
static void stop_command(double time)
{
    if (run.kill_at == 0) {
        say("asancol: the command is ended by --timeout, after %g second%s", run.options->timeout,
            run.options->timeout == 1 ? "" : "s");
        run.has_timed_out = true;
        for_each_segment(note_timeout);
        descendants_signal(SIGTERM, true);
        run.timeout_at = run.kill_at = time + GRACE;
        return;
    }
    descendants_signal(SIGKILL, false);
    run.timeout_at = time + SHORTAGE;
}

/* --wait is over: what still runs is not seen any more. */
static void cut_all(double time)
{
    run.cut = time;
    for_each_segment(cut_segment);
}

static void refresh_left(double time)
{
    if (run.ended != 0 && time >= run.look_at) {
        run.is_left = descendants_left();
        run.look_at = time + LOOK;
    }
}

static bool is_done(const struct process *process)
{
    for (const struct segment *segment = process->first; segment != NULL; segment = segment->next)
        if (segment->stage != STAGE_DONE)
            return false;
    return true;
}

/* What the served program ends with while others of it run on: each report until then counts. */
static int early_status(void)
{
    const struct process *process;
    uint64_t reports = 0;
    for (size_t at = 0; (process = process_next(&at)) != NULL;) {
        struct outcome joined = segments_joined(process);
        reports += outcome_reports(&joined);
    }
    return reports > 0 && run.options->exitcode != 0 ? (int)run.options->exitcode : STATUS_OF_COMMAND;
}

/* Once the served program is over, the run ends with the last of the others: the program itself does not wait so
   long, and standard error is theirs from then on. */
static void attend_served(double time)
{
    const struct process *process;
    bool is_own_done = true;
    if (!serving_is_on() || time < run.ended + LINGER || time < run.attend_at)
        return;
    for (process = process_of_peer(run.command_number); process != NULL; process = process_next_of_peer(process))
        is_own_done &= is_done(process);
    if (serving_is_asked() && is_own_done)
        serving_answer(early_status());
    for (size_t at = 0; !serving_is_asked() && (process = process_next(&at)) != NULL;) {
        if (is_done(process))
            continue;
        serving_follow(process->peer);
        break;
    }
    run.attend_at = time + (serving_is_asked() ? SHORTAGE : LOOK);
}

/* A whole line, since the command may write to the terminal too. The next one comes after twice the time. */
static void show_life(double time)
{
    const struct process *process;
    double lived = time - run.started;
    if (run.ended != 0 || lived < run.life_after)
        return;
    run.life_after = 2 * lived;
    uint64_t reports = 0;
    for (size_t at = 0; (process = process_next(&at)) != NULL;)
        reports += segments_joined(process).reports;
    size_t live = segment_live_count(), all = segments_process_count(), checked = all > live ? all - live : 0;
    progress_line("asancol: still running after %.0f seconds: %zu process%s checked, %zu running, %" PRIu64
                  " report%s so far",
                  lived, checked, plural(checked, "es"), live, reports, plural(reports, "s"));
}

static void show_progress(double time)
{
    if (run.ended == 0 || time < run.ended + PROGRESS || time < run.progress_at)
        return;
    run.progress_at = time + 0.2;
    size_t live = segment_live_count(), all = segments_process_count();
    progress("asancol: waiting for processes: %zu checked, %zu to go", all > live ? all - live : 0, live);
}

/* Does what its time has come for, and answers how long nothing else will. */
static double do_due(void)
{
    double time = now(), next = time + LOOK;
    refresh_left(time);
    bool is_killing = run.timeout_at != 0 && (run.ended == 0 || (run.kill_at != 0 && run.is_left));
    if (is_killing && time >= run.timeout_at)
        stop_command(time);
    if (is_killing && run.timeout_at < next)
        next = run.timeout_at;
    show_life(time);
    if (run.ended == 0)
        return next > time ? next - time : 0;
    size_t done = process_count() - segment_live_count();
    if (done != run.done && !has_room() && has_queue())
        run.wait_from = time; /* they wait for us, and not we for them */
    run.done = done;
    double deadline = run.wait_from + run.options->wait;
    attend_served(time);
    if (run.cut == 0 && time >= deadline && !serving_is_on())
        cut_all(time);
    if (run.cut == 0 && deadline < next)
        next = deadline > time ? deadline : next;
    show_progress(time);
    if ((segment_live_count() > 0 || serving_is_on()) && next > time + 0.2)
        next = time + 0.2;
    return next > time ? next - time : 0;
}

/* Whether there is nothing more to wait for. Long after the end of the run no new connection is taken. */
static bool is_over(void)
{
    if (run.ended == 0)
        return false;
    refresh_left(now());
    bool is_killing = run.kill_at != 0 && now() < run.kill_at + GRACE;
    if (run.is_left && (run.cut == 0 || is_killing))
        return false;
    if (run.cut != 0 && now() > run.cut + LAST)
        hub_stop(); /* new ones might come for ever */
    if (segment_live_count() > 0 || has_queue() || asking_is_any())
        return false;
    return !serving_is_on() || now() > run.wait_from + run.options->wait || !kin_awaits_child();
}

static void wait_for_room(void)
{
    while (segment_live_count() >= FILES_AT_ONCE)
        wait_once(LOOK);
}

static void start_file(struct segment *segment)
{
    while (!checker_start_file(segment))
        wait_once(SHORTAGE);
}

/* Checks a trace of a process that did not reach the hub. */
static void check_file(const char *name)
{
    char *path;
    wait_for_room();
    if (asprintf(&path, "%s/%s", hub_folder(), name) < 0)
        must(NULL);
    struct segment *segment = segment_add();
    segment->trace = path;
    process_set_peer(segment->process, atoi(name));
    segment->cut = run.has_timed_out ? CUT_BY_TIMEOUT : CUT_NONE;
    start_file(segment);
}

void loop_check_files(const struct options *options, int signals)
{
    struct process *process = NULL;
    run.options = options;
    run.signals = signals;
    for (char **word = options->command; *word != NULL; word++) {
        char *path;
        uint64_t number = strtoull(*word, &path, 10);
        if (number == 0 || *path++ != ':')
            fail(OWN_FAILURE, *word, "it is not NUMBER:TRACE");
        wait_for_room();
        struct segment *segment = segment_add();
        segment->trace = path;
        segment->number = number - 1;
        process = process == NULL ? segment->process : process;
        segments_join_file(process, segment);
        start_file(segment);
    }
    while (segment_live_count() > 0)
        wait_once(LOOK);
    checker_sum_up(process);
}

/* Traces, marks and results may have been in the folder. */
static void note_loss_of_folder(const char *how)
{
    char why[120];
    snprintf(why, sizeof why, "the folder of the run was %s, with all that processes had left in it", how);
    add_unseen(0, why);
}

/* Traces are found by the name of the folder: that of another one is not looked into. */
static void check_files(void)
{
    const char *how = folder_lost();
    DIR *entries = how == NULL ? folder_entries() : NULL;
    struct dirent *entry;
    if (how != NULL)
        note_loss_of_folder(how);
    while (entries != NULL && (entry = readdir(entries)) != NULL) {
        if (ends_with(entry->d_name, ".trace"))
            check_file(entry->d_name);
    }
    if (entries != NULL)
        closedir(entries);
    while (segment_live_count() > 0)
        wait_once(LOOK);
    marks_take();
}

struct collected loop_run(const struct options *options, pid_t command, int signals)
{
    run.options = options;
    run.command = run.command_number = command;
    run.signals = signals;
    run.started = now();
    run.life_after = LIFE;
    run.timeout_at = options->timeout > 0 ? run.started + options->timeout : 0;
    hold_processes();
    modules_allow(run.descriptors / 4);
    showing_begin(run.descriptors < ENOUGH_TO_SHOW ? 0 : run.descriptors / HELD_BY_SHOWN);
    take_accepted();
    while (!is_over())
        wait_once(do_due());
    hub_stop();
    peers_say_rest();
    check_files();
    run.cut = now();
    return (struct collected){run.status, descendants_left(), run.has_timed_out};
}

void loop_wait_for_report(void)
{
    while (report_is_running() || report_poll().fd >= 0)
        wait_once(LOOK);
}

/* A program of its own that is handed every change over a socket of whole records. It is no part of this process: where
 * it hangs, what it is told is dropped; where it dies, the show plays on and starts it anew. It ends when its end of
 * the socket does. */
#define _GNU_SOURCE
#include "show.h"
#include <errno.h>
#include <fcntl.h>
#include <poll.h>
#include <sched.h>
#include <signal.h>
#include <spawn.h>
#include <stdlib.h>
#include <string.h>
#include <sys/socket.h>
#include <sys/wait.h>
#include <unistd.h>

/* How many records are taken from an outlet. What comes faster waits in its socket, and then finds no place there: none
 * of it reaches the callback. */
enum { A_SECOND = 100, AT_ONCE = 20 };

static const uint64_t MS = 1000000, FIRST_WAIT = 250 * MS, LONGEST_WAIT = 8000 * MS, STEADY = 10000 * MS;
enum { READY_MS = 30000, END_MS = 500 };

extern char **environ;

/* The program beside this one. */
static bool beside(const outlet *o, char *path, size_t len)
{
    ssize_t n = readlink("/proc/self/exe", path, len - 1);
    char *slash;
    size_t room;

    if (n < 0)
        return false;
    path[n] = 0;
    slash = strrchr(path, '/');
    room = slash ? len - (size_t)(slash + 1 - path) : 0;
    if (!slash || (size_t)snprintf(slash + 1, room, "%s", o->name) >= room)
        return false;
    if (access(path, X_OK) == 0)
        return true;
    fprintf(stderr, "show: there is no %s beside it: `make show` builds it where %s is installed\n", o->name, o->needs);
    return false;
}

void outlet_become(const outlet *o, char *const *words)
{
    char path[4096];

    if (beside(o, path, sizeof path)) {
        execv(path, words);
        fprintf(stderr, "show: cannot run %s: %s\n", o->name, strerror(errno));
    }
}

/* This thread may run in real time and has the server's files open; what it starts has neither, nor the terminal's
 * keys. */
static int spawn(outlet *o, const char *path, const char **argv, int end, int priority)
{
    posix_spawn_file_actions_t actions;
    posix_spawnattr_t how;
    struct sched_param scheduled = {.sched_priority = priority};
    sigset_t none, all;
    int failed;

    sigemptyset(&none);
    sigfillset(&all);
    posix_spawn_file_actions_init(&actions);
    posix_spawn_file_actions_addopen(&actions, STDIN_FILENO, "/dev/null", O_RDONLY, 0);
    posix_spawn_file_actions_addopen(&actions, STDOUT_FILENO, "/dev/null", O_WRONLY, 0);
    posix_spawn_file_actions_adddup2(&actions, end, SHOW_OUTLET_FD);
    if (o->starts > 0 && isatty(STDERR_FILENO)) /* what it says would lie on the panel */
        posix_spawn_file_actions_addopen(&actions, STDERR_FILENO, "/dev/null", O_WRONLY, 0);
    posix_spawn_file_actions_addclosefrom_np(&actions, SHOW_OUTLET_FD + 1);
    posix_spawnattr_init(&how);
    posix_spawnattr_setschedpolicy(&how, priority ? SCHED_FIFO : SCHED_OTHER);
    posix_spawnattr_setschedparam(&how, &scheduled);
    posix_spawnattr_setsigmask(&how, &none);
    posix_spawnattr_setsigdefault(&how, &all);
    posix_spawnattr_setflags(&how, POSIX_SPAWN_SETSCHEDULER | POSIX_SPAWN_SETSIGMASK | POSIX_SPAWN_SETSIGDEF);
    failed = posix_spawn(&o->pid, path, &actions, &how, (char *const *)argv, environ);
    posix_spawn_file_actions_destroy(&actions);
    posix_spawnattr_destroy(&how);
    return failed;
}

static bool start(outlet *o)
{
    char path[4096];
    const char *argv[sizeof o->words / sizeof *o->words + 2] = {o->name}; /* and a null behind them */
    int ends[2], failed;

    if (!beside(o, path, sizeof path))
        return false;
    if (socketpair(AF_UNIX, SOCK_SEQPACKET | SOCK_CLOEXEC | SOCK_NONBLOCK, 0, ends) != 0)
        return false;
    memcpy(argv + 1, o->words, o->count * sizeof *argv);
    failed = spawn(o, path, argv, ends[1], o->priority);
    if (failed == EPERM && o->priority)
        failed = spawn(o, path, argv, ends[1], 0);
    close(ends[1]);
    if (failed) {
        close(ends[0]);
        o->pid = 0;
        return false;
    }
    o->fd = ends[0];
    o->started_at = clock_ns();
    o->starts++;
    return true;
}

bool outlet_open(outlet *o)
{
    struct pollfd in;
    show_typed first;

    if (!o->count)
        return true;
    o->wait_ns = FIRST_WAIT;
    if (!start(o))
        return false;
    in = (struct pollfd){o->fd, POLLIN, 0};
    if (poll(&in, 1, READY_MS) == 1 && recv(o->fd, &first, sizeof first, 0) == (ssize_t)sizeof first &&
        first.kind == TYPED_READY) {
        snprintf(o->said, sizeof o->said, "%.*s", (int)first.len, (const char *)first.bytes);
        return true;
    }
    if (o->fd >= 0 && recv(o->fd, &first, sizeof first, MSG_DONTWAIT) < 0) /* it has not ended, and so has not said why */
        fprintf(stderr, "show: %s is not ready after %d s\n", o->name, READY_MS / 1000);
    outlet_close(o);
    return false;
}

void outlet_tell(outlet *o, const show_change *change)
{
    if (o->fd >= 0 && send(o->fd, change, sizeof *change, MSG_DONTWAIT | MSG_NOSIGNAL) < 0 &&
        (errno == EAGAIN || errno == EWOULDBLOCK))
        o->missed++;
}

bool outlet_may(const outlet *o)
{
    return o->fd >= 0 && o->may >= 1;
}

/* It has ended or hangs up: another is started after a while, twice as long each time unless it ran well. */
static void lost(outlet *o, uint64_t now)
{
    close(o->fd);
    o->fd = -1;
    kill(o->pid, SIGKILL);
    if (now - o->started_at > STEADY)
        o->wait_ns = FIRST_WAIT;
    else if (o->wait_ns < LONGEST_WAIT)
        o->wait_ns *= 2;
    o->again_at = now + o->wait_ns;
}

static void again(outlet *o, uint64_t now)
{
    if (o->pid && waitpid(o->pid, NULL, WNOHANG) != 0)
        o->pid = 0;
    if (!o->pid && now >= o->again_at && !start(o))
        o->again_at = now + LONGEST_WAIT;
}

bool outlet_typed(outlet *o, show_typed *typed, uint64_t now)
{
    ssize_t n;

    if (!o->count)
        return false;
    if (o->fd < 0) {
        again(o, now);
        return false;
    }
    o->may += (double)(now - o->may_at) * A_SECOND / 1e9;
    o->may = o->may > AT_ONCE ? AT_ONCE : o->may;
    o->may_at = now;
    n = recv(o->fd, typed, sizeof *typed, MSG_DONTWAIT | (outlet_may(o) ? 0 : MSG_PEEK));
    if (n == 0 || (n < 0 && errno != EAGAIN && errno != EINTR)) {
        lost(o, now);
        return false;
    }
    if (n != (ssize_t)sizeof *typed || !outlet_may(o))
        return false;
    o->may -= 1;
    return true;
}

void outlet_close(outlet *o)
{
    int i;

    if (o->fd >= 0)
        close(o->fd);
    o->fd = -1;
    for (i = 0; o->pid && i < END_MS / 5; i++) {
        if (waitpid(o->pid, NULL, WNOHANG) != 0)
            o->pid = 0;
        else
            usleep(5000);
    }
    if (o->pid) {
        kill(o->pid, SIGKILL);
        waitpid(o->pid, NULL, 0);
        o->pid = 0;
    }
}

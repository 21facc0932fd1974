#define _DEFAULT_SOURCE
#include "child.h"

#include <errno.h>
#include <fcntl.h>
#include <sched.h>
#include <signal.h>
#include <stdio.h>
#include <stdlib.h>
#include <string.h>
#include <sys/ioctl.h>
#include <sys/resource.h>
#include <sys/wait.h>
#include <unistd.h>

enum { PATIENCE = 60 }; /* seconds */

static pid_t running; /* the child that is to go with this program */
static unsigned case_number;

static void give_up(const char *what)
{
    if (running) kill(running, SIGKILL);
    perror(what);
    exit(2);
}

/* The process is lost when this runs, so it may print as it likes. */
static void on_alarm(int number)
{
    (void)number;
    if (running) kill(running, SIGKILL);
    fprintf(stderr, "case %u: the program did not end\n", case_number);
    _exit(1);
}

void child_start(child *c, const char *program, unsigned number)
{
    int in[2], out[2];
    case_number = number;
    signal(SIGPIPE, SIG_IGN);
    signal(SIGALRM, on_alarm);
    alarm(PATIENCE);
    if (pipe(in) || pipe(out)) give_up("pipe");
    fcntl(in[1], F_SETFD, FD_CLOEXEC);
    fcntl(out[0], F_SETFD, FD_CLOEXEC);
    *c = (child){ .in = in[1], .out = out[0] };
    c->id = fork();
    if (c->id < 0) give_up("fork");
    if (c->id == 0) {
        dup2(in[0], STDIN_FILENO);
        dup2(out[1], STDOUT_FILENO);
        close(in[0]);
        close(out[1]);
        signal(SIGPIPE, SIG_DFL);
        execl(program, program, (char *)NULL);
        _exit(127);
    }
    running = c->id;
    close(in[0]);
    close(out[1]);
}

bool child_feed(child *c, const uint8_t *bytes, size_t count)
{
    while (count && !c->ended) {
        const ssize_t taken = write(c->in, bytes, count);
        if (taken < 0 && errno == EINTR) continue;
        if (taken < 0 && errno != EPIPE) give_up("write");
        if (taken < 0) c->ended = true;
        else bytes += taken, count -= (size_t)taken;
    }
    return !c->ended;
}

/* The state letter of a process: S where it sleeps, Z where it has ended. */
static char state_of(pid_t id)
{
    char name[64], text[256];
    snprintf(name, sizeof name, "/proc/%ld/stat", (long)id);
    const int at = open(name, O_RDONLY);
    const ssize_t got = at < 0 ? -1 : read(at, text, sizeof text - 1);
    if (got <= 0) give_up(name);
    close(at);
    text[got] = 0;
    const char *after = strrchr(text, ')'); /* of its name */
    if (!after || !after[1]) give_up(name);
    return after[2];
}

static size_t waiting(int pipe_end)
{
    int bytes = 0;
    if (ioctl(pipe_end, FIONREAD, &bytes)) give_up("FIONREAD");
    return (size_t)bytes;
}

bool child_drains(child *c)
{
    for (unsigned turn = 1; !c->ended && waiting(c->in); turn++) {
        if (turn % 64 == 0 && state_of(c->id) == 'Z') c->ended = true;
        sched_yield();
    }
    return !c->ended;
}

bool child_waits(child *c)
{
    while (!c->ended) {
        const size_t left = waiting(c->in); /* before its state */
        const char state = state_of(c->id);
        if (state == 'Z') c->ended = true;
        else if (left == 0 && state == 'S') return true;
        sched_yield();
    }
    return false;
}

size_t child_printed(const child *c) { return waiting(c->out); }

size_t child_finish(child *c, char *text, size_t most, int *status, long *peak)
{
    size_t count = 0;
    struct rusage used;
    close(c->in);
    for (;;) {
        char beyond[512];
        const ssize_t got = count < most ? read(c->out, text + count, most - count) : read(c->out, beyond, sizeof beyond);
        if (got < 0 && errno == EINTR) continue;
        if (got < 0) give_up("read");
        if (got == 0) break;
        if (count < most) count += (size_t)got;
    }
    close(c->out);
    if (wait4(c->id, status, 0, &used) != c->id) give_up("wait4");
    running = 0;
    alarm(0);
    *peak = used.ru_maxrss;
    return count;
}

/* The pipes of a server, and how it is waited for. */
#define _GNU_SOURCE

#include "dlog_private.h"

#include <errno.h>
#include <fcntl.h>
#include <poll.h>
#include <stdarg.h>
#include <stdio.h>
#include <stdlib.h>
#include <string.h>
#include <sys/wait.h>
#include <time.h>
#include <unistd.h>

enum { READ_BYTES = 65536, UNKNOWN = 255, LAST_WORDS = 1000, LOOK = 50 /* milliseconds */ };

int dlog_fail(struct dlog *dlog, int fault, const char *form, ...)
{
    va_list values;

    va_start(values, form);
    vsnprintf(dlog->fault, sizeof dlog->fault, form, values);
    va_end(values);
    return fault;
}

const char *dlog_error(const struct dlog *dlog)
{
    return dlog->fault;
}

/* ---- time */

int64_t dlog_now(void)
{
    struct timespec time;

    clock_gettime(CLOCK_MONOTONIC, &time);
    return (int64_t)time.tv_sec * 1000 + time.tv_nsec / 1000000;
}

void dlog_set_timeout(struct dlog *dlog, int milliseconds)
{
    dlog->timeout = milliseconds;
}

void dlog_begin_time(struct dlog *dlog)
{
    dlog->deadline = dlog->timeout > 0 ? dlog_now() + dlog->timeout : 0;
}

/* The milliseconds that are left, or -1 for no limit. */
static int time_left(const struct dlog *dlog)
{
    int64_t left = dlog->deadline - dlog_now();

    if (dlog->deadline == 0)
        return -1;
    return left > 0 ? (int)left : 0;
}

/* ---- pipes */

void dlog_close_pipe(int *end)
{
    if (*end >= 0)
        close(*end);
    *end = -1;
}

/* Closes both ends of a pipe that was not made, whose reason stays. */
static int no_pipe(int ends[2])
{
    /* A number from 3 on is invalid where there may be no more than three. */
    int why = errno == EINVAL ? EMFILE : errno;

    dlog_close_pipe(&ends[0]);
    dlog_close_pipe(&ends[1]);
    errno = why;
    return -1;
}

int dlog_open_pipe(int ends[2])
{
#ifndef __APPLE__
    if (pipe2(ends, O_CLOEXEC) != 0)
        return -1;
#else
    if (pipe(ends) != 0)
        return -1;
#endif
    for (int i = 0; i < 2; i++) {
        int end = fcntl(ends[i], F_DUPFD_CLOEXEC, 3);

        if (end < 0)
            return no_pipe(ends);
        close(ends[i]);
        ends[i] = end;
    }
    return 0;
}

void dlog_say(const char *text, size_t length)
{
    if (write(2, text, length) < 0)
        return;
}

/* Takes in what the server says on standard error, and passes it on once it serves. */
static void hear(struct dlog_server *server)
{
    char said[sizeof server->words - 1];
    ssize_t count = read(server->errors, said, sizeof said);
    size_t have = strlen(server->words), all = have + (size_t)(count > 0 ? count : 0);
    size_t over = all > sizeof said ? all - sizeof said : 0;

    if (count < 0 && errno == EINTR)
        return;
    if (count <= 0) {
        dlog_close_pipe(&server->errors);
        return;
    }
    if (server->has_started)
        dlog_say(said, (size_t)count);
    memmove(server->words, server->words + over, have - over);
    memcpy(server->words + have - over, said, (size_t)count);
    server->words[all - over] = 0;
}

int dlog_gone(struct dlog *dlog)
{
    const struct dlog_server *server = dlog->server;
    size_t length;

    if (server == NULL)
        return DLOG_GONE;
    dlog->status = server->status;
    length = strlen(server->words);
    while (length > 0 && server->words[length - 1] == '\n')
        length--;
    return dlog_fail(dlog, DLOG_GONE, "the server has ended with status %d%s%.*s", server->status,
                     length > 0 ? ": " : "", (int)length, server->words);
}

/* The server has ended its output, and so itself. */
static int ended(struct dlog *dlog)
{
    struct dlog_server *server = dlog->server;
    struct pollfd errors = { server->errors, POLLIN, 0 };
    int status = 0;
    pid_t its;

    do
        its = waitpid(server->process, &status, 0);
    while (its < 0 && errno == EINTR);
    while (server->errors >= 0 && poll(&errors, 1, LAST_WORDS) > 0)
        hear(server);
    dlog_close_pipe(&server->errors);
    dlog_close_pipe(&server->output);
    dlog_close_pipe(&server->input);
    server->has_ended = 1;
    server->status = its < 0 ? UNKNOWN : WIFEXITED(status) ? WEXITSTATUS(status) : 128 + WTERMSIG(status);
    dlog_wake(server);
    return dlog_gone(dlog);
}

/* Makes room for what is read, behind the frames that are there. */
static int make_room(struct dlog *dlog)
{
    struct dlog_server *server = dlog->server;
    size_t have = server->in_length - server->in_at, room = 2 * have + 2 * READ_BYTES;
    uint8_t *in;

    if (server->in_room - server->in_length >= READ_BYTES)
        return 0;
    in = malloc(room);
    if (in == NULL)
        return dlog_fail(dlog, DLOG_EXHAUSTED, "out of memory");
    if (server->in != NULL)
        memcpy(in, server->in + server->in_at, have);
    free(server->in);
    server->in = in;
    server->in_room = room;
    server->in_seen -= server->in_at;
    server->in_length = have;
    server->in_at = 0;
    return 0;
}

/* Reads what there is: how many bytes, or -1 if the server has ended its output. */
static ssize_t read_output(const struct dlog_server *server)
{
    ssize_t count = read(server->output, server->in + server->in_length, READ_BYTES);

    if (count < 0 && errno == EINTR)
        return 0;
    return count > 0 ? count : -1;
}

/* Waits for the pipes, and reads if there are answers. */
static int poll_and_read(struct dlog *dlog, struct pollfd pipes[3], ssize_t *count)
{
    int ready = poll(pipes, 3, time_left(dlog));

    if (ready == 0)
        return dlog_fail(dlog, DLOG_TIMED_OUT, "the server has not answered in time; the call may yet be done");
    if (ready < 0)
        return errno == EINTR ? 0 : dlog_fail(dlog, DLOG_EXHAUSTED, "%s", strerror(errno));
    if (pipes[0].revents != 0)
        *count = read_output(dlog->server);
    return 0;
}

/* Reads, and waits for it without the lock. What others do with the frames meanwhile leaves the room
 * behind them as it is. */
static int read_some(struct dlog *dlog, int writes)
{
    struct dlog_server *server = dlog->server;
    struct pollfd pipes[3] = { { server->output, POLLIN, 0 }, { server->errors, POLLIN, 0 },
                               { writes ? server->input : -1, POLLOUT, 0 } };
    ssize_t count = 0;
    int fault = make_room(dlog);

    if (fault != 0)
        return fault;
    server->is_read = 1;
    pthread_mutex_unlock(&server->lock);
    if (writes || dlog->deadline != 0)
        fault = poll_and_read(dlog, pipes, &count);
    else
        count = read_output(server);
    pthread_mutex_lock(&server->lock);
    server->is_read = 0;
    if (pipes[1].revents != 0)
        hear(server);
    if (count < 0)
        return ended(dlog);
    server->in_length += (size_t)count;
    dlog_wake(server);
    return fault;
}

/* Waits a moment until the server reads on, while another thread reads what it says. */
static int wait_to_write(struct dlog *dlog)
{
    struct pollfd input = { dlog->server->input, POLLOUT, 0 };
    int left = time_left(dlog);

    if (left == 0)
        return dlog_fail(dlog, DLOG_TIMED_OUT, "the server has not read in time");
    pthread_mutex_unlock(&dlog->server->lock);
    poll(&input, 1, left < 0 || left > LOOK ? LOOK : left);
    pthread_mutex_lock(&dlog->server->lock);
    return 0;
}

int dlog_wait(struct dlog *dlog, int writes)
{
    if (dlog->server->has_ended)
        return dlog_gone(dlog);
    if (!dlog->server->is_read)
        return read_some(dlog, writes);
    return writes ? wait_to_write(dlog) : dlog_wait_turn(dlog);
}

/* The parts that threads have in a server: its lock, and who waits for whom. */
#include "dlog_private.h"

#include <errno.h>
#include <stdlib.h>
#include <string.h>

int dlog_hold(struct dlog *dlog)
{
    if (dlog->server == NULL)
        return dlog_gone(dlog);
    pthread_mutex_lock(&dlog->server->lock);
    return 0;
}

static void wake(struct dlog *waits)
{
    waits->is_woken = 1;
    pthread_cond_signal(&waits->woken);
}

/* If nobody reads, one of those that wait has its turn. */
void dlog_release(struct dlog *dlog)
{
    struct dlog_server *server = dlog->server;

    if (!server->is_read && server->waiting != NULL)
        wake(server->waiting);
    pthread_mutex_unlock(&server->lock);
}

void dlog_wake(struct dlog_server *server)
{
    uint64_t length;

    for (struct dlog *each = server->waiting; each != NULL && server->has_ended; each = each->next)
        wake(each);
    while (server->in_length - server->in_seen >= FRAME_BYTES) {
        const uint8_t *frame = server->in + server->in_seen;

        length = 4 + dlog_number_at(frame, 4);
        server->has_form_fault = length < FRAME_BYTES;
        if (server->in_length - server->in_seen < length || server->has_form_fault)
            return;
        for (struct dlog *each = server->waiting; each != NULL; each = each->next)
            if (each->awaited == dlog_number_at(frame + 4, 4))
                wake(each);
        server->in_seen += (size_t)length;
    }
}

static int wait_woken(struct dlog *dlog)
{
    struct timespec until = { (time_t)(dlog->deadline / 1000), (long)(dlog->deadline % 1000) * 1000000 };

    if (dlog->deadline == 0)
        pthread_cond_wait(&dlog->woken, &dlog->server->lock);
    else if (pthread_cond_timedwait(&dlog->woken, &dlog->server->lock, &until) == ETIMEDOUT)
        return dlog_fail(dlog, DLOG_TIMED_OUT, "the server has not answered in time; the call may yet be done");
    return 0;
}

int dlog_wait_turn(struct dlog *dlog)
{
    struct dlog **at = &dlog->server->waiting;
    int fault = 0;

    dlog->is_woken = 0;
    dlog->next = *at;
    *at = dlog;
    while (!dlog->is_woken && fault == 0)
        fault = wait_woken(dlog);
    while (*at != dlog)
        at = &(*at)->next;
    *at = dlog->next;
    return fault;
}

/* ---- parts */

static void begin_part(struct dlog *dlog, struct dlog_server *server, int timeout)
{
    pthread_condattr_t clock;

    memset(dlog, 0, sizeof *dlog);
    dlog->server = server;
    dlog->timeout = timeout;
    server->parts++;
    pthread_condattr_init(&clock);
    pthread_condattr_setclock(&clock, CLOCK_MONOTONIC);
    pthread_cond_init(&dlog->woken, &clock);
    pthread_condattr_destroy(&clock);
}

int dlog_make(struct dlog *dlog)
{
    struct dlog_server *server = calloc(1, sizeof *server);

    memset(dlog, 0, sizeof *dlog);
    if (server == NULL)
        return dlog_fail(dlog, DLOG_EXHAUSTED, "out of memory");
    server->process = -1;
    server->input = server->output = server->errors = -1;
    server->frame_limit = UINT32_MAX;
    pthread_mutex_init(&server->lock, NULL);
    begin_part(dlog, server, 0);
    return 0;
}

int dlog_attach(struct dlog *own, struct dlog *dlog)
{
    memset(own, 0, sizeof *own);
    if (dlog_hold(dlog) != 0)
        return dlog_fail(own, DLOG_GONE, "%s", dlog->fault);
    begin_part(own, dlog->server, dlog->timeout);
    dlog_release(dlog);
    return 0;
}

static void drop(struct dlog_server *server)
{
    dlog_close_pipe(&server->input);
    dlog_close_pipe(&server->output);
    dlog_close_pipe(&server->errors);
    pthread_mutex_destroy(&server->lock);
    free(server->in);
    free(server->out);
    free(server);
}

void dlog_give_up(struct dlog *dlog)
{
    struct dlog_server *server = dlog->server;
    int left = --server->parts;

    dlog_release(dlog);
    if (left == 0)
        drop(server);
    pthread_cond_destroy(&dlog->woken);
    free(dlog->kept);
    dlog->kept = NULL;
    dlog->kept_room = 0;
    dlog->server = NULL;
}

void dlog_detach(struct dlog *own)
{
    if (dlog_hold(own) == 0)
        dlog_give_up(own);
}

/* The lock may be another thread's, which the child has not. */
void dlog_forget(struct dlog *dlog)
{
    struct dlog_server *server = dlog->server;

    if (server == NULL)
        return;
    dlog_close_pipe(&server->input);
    dlog_close_pipe(&server->output);
    dlog_close_pipe(&server->errors);
    dlog_fail(dlog, DLOG_GONE, "the server is that of the process that forked this one");
    dlog->server = NULL;
}

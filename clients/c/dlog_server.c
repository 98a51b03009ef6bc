/* How a server is started and stopped. */
#define _GNU_SOURCE

#include "dlog_private.h"

#include <errno.h>
#include <fcntl.h>
#include <signal.h>
#include <stdio.h>
#include <stdlib.h>
#include <string.h>
#include <time.h>
#include <unistd.h>

enum { OP_HELLO = 0, VERSION = 4, NOT_STARTED = 127, TRY_AGAIN = 50 /* milliseconds */ };

/* ---- the start */

/* In the child: becomes the program. */
static void become(const char *program, char *const words[], const int ends[3])
{
    const char *why = ": it cannot be started\n";

    setsid();
    signal(SIGTERM, SIG_IGN);
    signal(SIGINT, SIG_IGN);
    signal(SIGHUP, SIG_IGN);
    signal(SIGXFSZ, SIG_IGN); /* a limit on the size of files is an error then */
    for (int i = 0; i < 3; i++)
        dup2(ends[i], i);
    execvp(program, words);
    if (errno == ENOENT)
        why = ": there is no such program\n";
    dlog_say(program, strlen(program));
    dlog_say(why, strlen(why));
    _exit(NOT_STARTED);
}

static int start_program(struct dlog *dlog, const char *program, char *const words[])
{
    struct dlog_server *server = dlog->server;
    int given[2] = { -1, -1 }, output[2] = { -1, -1 }, errors[2] = { -1, -1 };
    int why = 0;

    if (dlog_open_pipe(given) == 0 && dlog_open_pipe(output) == 0 && dlog_open_pipe(errors) == 0)
        server->process = fork();
    if (server->process == 0)
        become(program, words, (int[]){ given[0], output[1], errors[1] });
    if (server->process < 0)
        why = errno;
    dlog_close_pipe(&given[0]);
    dlog_close_pipe(&output[1]);
    dlog_close_pipe(&errors[1]);
    server->input = given[1];
    server->output = output[0];
    server->errors = errors[0];
    if (why == 0 && fcntl(server->input, F_SETFL, O_NONBLOCK) != 0)
        why = errno;
    return why == 0 ? 0 : dlog_fail(dlog, DLOG_EXHAUSTED, "the server cannot be started: %s", strerror(why));
}

/* Asks the server for its limits. */
static int say_hello(struct dlog *dlog)
{
    struct dlog_answer answer;
    uint8_t version[2];
    uint32_t tag;
    int fault;

    dlog_put(version, VERSION, sizeof version);
    fault = dlog_send(dlog, OP_HELLO, 0, NULL, version, sizeof version, &tag);

    if (fault == 0)
        fault = dlog_answer(dlog, tag, &answer);
    if (fault != 0)
        return fault;
    if (answer.kind != DLOG_WELCOME || answer.length < 6)
        return dlog_fail(dlog, DLOG_FORM, "the program is no server of dlog");
    if (dlog_number_at(answer.parts, 2) != VERSION)
        return dlog_fail(dlog, DLOG_FORM, "the server speaks version %d of the frames, and this client version %d",
                         (int)dlog_number_at(answer.parts, 2), VERSION);
    dlog->server->frame_limit = (uint32_t)dlog_number_at(answer.parts + 2, 4);
    return 0;
}

/* Starts the server once, and waits for its hello. One that does not start as it should is ended. */
static int start(struct dlog *dlog, const char *program, char *const words[], int timeout)
{
    char why[sizeof dlog->fault];
    int fault = dlog_make(dlog);

    if (fault != 0)
        return fault;
    dlog->timeout = timeout;
    fault = start_program(dlog, program, words);
    if (fault == 0)
        fault = say_hello(dlog);
    if (fault == 0) {
        dlog->server->has_started = 1;
        dlog_say(dlog->server->words, strlen(dlog->server->words));
        return 0;
    }
    memcpy(why, dlog->fault, sizeof why);
    if (dlog->server->process > 0)
        dlog_kill(dlog);
    else
        dlog_detach(dlog);
    return dlog_fail(dlog, fault, "%s", why);
}

int dlog_start_with(struct dlog *dlog, const char *program, const char *folder,
                    const struct dlog_settings *settings)
{
    static const struct dlog_settings plain;
    const struct dlog_settings *set = settings != NULL ? settings : &plain;
    struct timespec pause = { 0, TRY_AGAIN * 1000000L };
    int64_t until = dlog_now() + set->wait;
    char blocks[16];
    char *words[] = { (char *)program, "serve", "--folder", (char *)folder, "--blocks", blocks,
                      set->unsynced_rolls ? "--unsynced-rolls" : NULL, NULL };
    int fault;

    snprintf(blocks, sizeof blocks, "%lu", (unsigned long)(set->blocks > 0 ? set->blocks : 16));
    signal(SIGPIPE, SIG_IGN);
    for (;;) {
        fault = start(dlog, program, words, set->timeout);
        /* The status of a folder that is in use, or not there. */
        if (fault != DLOG_GONE || dlog->status != 1 || dlog_now() >= until)
            return fault;
        nanosleep(&pause, NULL);
    }
}

int dlog_start(struct dlog *dlog, const char *program, const char *folder)
{
    return dlog_start_with(dlog, program, folder, NULL);
}

/* ---- the end */

pid_t dlog_process(const struct dlog *dlog)
{
    return dlog->server != NULL ? dlog->server->process : -1;
}

int dlog_stop(struct dlog *dlog)
{
    int fault = dlog_hold(dlog);

    if (fault != 0)
        return dlog->status;
    dlog_begin_time(dlog);
    dlog->awaited = 0;
    if (dlog->server->input >= 0)
        fault = dlog_write_all(dlog);
    dlog_close_pipe(&dlog->server->input);
    dlog_begin_time(dlog);
    while (fault == 0)
        fault = dlog_wait(dlog, 0);
    if (fault != DLOG_GONE) {
        dlog_release(dlog);
        return fault;
    }
    dlog_give_up(dlog);
    return dlog->status;
}

void dlog_kill(struct dlog *dlog)
{
    if (dlog_hold(dlog) != 0)
        return;
    dlog->timeout = 0;
    dlog->server->out_at = dlog->server->out_length = 0;
    if (!dlog->server->has_ended)
        kill(dlog->server->process, SIGKILL);
    dlog_release(dlog);
    dlog_stop(dlog);
}

/* What the files of the C client share. */
#ifndef DLOG_PRIVATE_H
#define DLOG_PRIVATE_H

#include "dlog.h"

/* The length of a frame, its tag and its kind. */
enum { FRAME_BYTES = 9 };

/* A server that was started. All of it is used under its lock, but that the thread that reads has it
 * not while it waits. */
struct dlog_server {
    pthread_mutex_t lock;
    int parts;             /* how many threads have a part in it */
    int is_read;           /* a thread waits for what the server says */
    struct dlog *waiting;  /* those that wait while it does */
    pid_t process;
    int input;             /* where requests are written */
    int output;            /* where answers are read */
    int errors;            /* where its standard error is read */
    int has_started, has_ended;
    int has_form_fault;    /* what was read is no answer from in_seen on */
    int status;
    uint32_t frame_limit;
    uint32_t tag;
    uint8_t *out;
    size_t out_at, out_length, out_room;
    uint8_t *in;           /* frames that were read. One that was taken has the tag and the kind 0 */
    size_t in_at, in_seen, in_length, in_room;
    char words[1024];
};

/* Notes what the last fault was, and returns it. */
int dlog_fail(struct dlog *dlog, int fault, const char *form, ...);

/* The fault of a server that has ended. */
int dlog_gone(struct dlog *dlog);

/* Milliseconds of a clock that only rises. */
int64_t dlog_now(void);

/* Begins the time that a call may take. */
void dlog_begin_time(struct dlog *dlog);

/* A pipe that no program which is started keeps, above the standard descriptors. */
int dlog_open_pipe(int ends[2]);
void dlog_close_pipe(int *end);

/* Writes a text to standard error. */
void dlog_say(const char *text, size_t length);

/* ---- under the lock of the server */

/* Takes the lock, or is DLOG_GONE if there is no server, and lets it go. */
int dlog_hold(struct dlog *dlog);
void dlog_release(struct dlog *dlog);

/* Makes a server, in which `dlog` has the only part, and gives a part up. */
int dlog_make(struct dlog *dlog);
void dlog_give_up(struct dlog *dlog);

/* Waits until the server has said something, which is taken in, or, if `writes`, reads on. While it
 * waits other threads may have the lock. */
int dlog_wait(struct dlog *dlog, int writes);

/* Waits until a thread that reads has taken in what `dlog` waits for, or reads no longer. */
int dlog_wait_turn(struct dlog *dlog);

/* Wakes those that wait for an answer that has come, or, if the server has ended, all. */
void dlog_wake(struct dlog_server *server);

/* Writes what is to be sent, and takes answers in meanwhile, so that the server goes on. */
int dlog_write_all(struct dlog *dlog);

/* ---- requests. What begins one takes the lock, and what ends it lets it go */

/* Parts of a request: bytes, a number of so many bytes, a name or a base, an item. */
int dlog_add(struct dlog *dlog, const void *bytes, size_t length);
int dlog_add_number(struct dlog *dlog, uint64_t number, int count);
int dlog_add_name(struct dlog *dlog, const char *text);
int dlog_add_item(struct dlog *dlog, const struct dlog_bytes *item);
void dlog_put(uint8_t *bytes, uint64_t number, int count);
uint64_t dlog_number_at(const uint8_t *bytes, int count);

/* Begins a request, whose length and tag are set as it ends. */
int dlog_begin(struct dlog *dlog, uint8_t op, uint32_t client, const char *name);

/* Ends the request, or takes it back after a fault, which is returned. */
int dlog_end(struct dlog *dlog, int fault, uint32_t *tag);

#endif

/* Logs of a dlog server, which is started as a program and answers frames (docs/PROTOCOL.md).
 *
 * A call writes a request and waits for its answer. `dlog_send_log` and the like write one and
 * return, so that many calls can be under way; `dlog_answer` and `dlog_receive` take their answers.
 * A function that returns an int returns 0 if all went well, and else a fault below zero, for which
 * `dlog_error` has the words. What the server says stands in the answer: a kind from 64 on is a
 * refusal.
 *
 * Threads: one thread at a time may use a `struct dlog`, and any number of threads a server: each
 * attaches one of its own (`dlog_attach`). Their calls are sent without waiting for each other's
 * answers, so that their syncs can share one of the device.
 */
#ifndef DLOG_H
#define DLOG_H

#include <pthread.h>
#include <stddef.h>
#include <stdint.h>
#include <sys/types.h>

enum dlog_fault {
    DLOG_GONE = -1,      /* the server has ended, or did not start. A call that was sent may be done */
    DLOG_TIMED_OUT = -2, /* the server did not answer in time. The call may yet be done */
    DLOG_INVALID = -3,   /* no server could read the call, so it was not sent */
    DLOG_EXHAUSTED = -4, /* memory or descriptors ran out, as for a start. Stop the server if there is one */
    DLOG_FORM = -5       /* an answer has no form of the protocol, or the server speaks another version */
};

enum dlog_kind {
    DLOG_WELCOME = 0,
    DLOG_OPENED = 1,
    DLOG_REPAIRED = 2,
    DLOG_DONE = 3,
    DLOG_SUSPENDED = 4,
    DLOG_HELD = 5,
    DLOG_ITEMS = 6,
    DLOG_EOF = 7,
    DLOG_AT = 8,
    DLOG_INFO = 9,
    DLOG_TURN = 10,
    DLOG_NO_MEMORY = 11,
    DLOG_UNSYNCED = 12,
    DLOG_REASON = 13,
    DLOG_LOGS = 14,
    DLOG_BAD_FRAME = 63,
    DLOG_REFUSED = 64,
    DLOG_NOTICE = 128
};

/* Why a call of the device failed. */
enum dlog_cause {
    DLOG_BY_SYSTEM = 0,       /* the system refused it, with an error number */
    DLOG_BY_MEMORY = 1,       /* out of memory */
    DLOG_NOT_PLAIN = 2,       /* the file is a link, a folder or a pipe */
    DLOG_SHORTER = 3,         /* the file is shorter than it was left */
    DLOG_EARLIER_SYNC = 4,    /* an earlier sync of the file failed */
    DLOG_WITHOUT_REASON = 5   /* the system gave no reason */
};

enum { DLOG_ITEM_LIMIT = 1048576, DLOG_NAME_LIMIT = 64, DLOG_PLACE_BYTES = 17,
       DLOG_FILE_LIMIT = DLOG_NAME_LIMIT + 11 };

/* Some bytes. */
struct dlog_bytes {
    const uint8_t *at;
    size_t length;
};

/* A place in a log, as an answer gave it. The bytes may be kept and given to a later server. */
struct dlog_place {
    int given; /* 0: the first item */
    uint8_t bytes[DLOG_PLACE_BYTES];
};

/* An answer or a notice: its tag, its kind, and its parts, which stand until the next call by the same
 * `struct dlog`. */
struct dlog_answer {
    uint32_t tag;
    uint8_t kind;
    const uint8_t *parts;
    size_t length;
};

/* How a server is started. All zeros: 16 blocks, and no limits of time. */
struct dlog_settings {
    uint32_t blocks;    /* 0: 16 */
    int unsynced_rolls;
    int wait;           /* the milliseconds that a folder is waited for that another program has */
    int timeout;        /* the milliseconds that a call may take; 0: no limit */
};

/* How a log is opened. All zeros: a halt log without limit, read and written, repaired if needed, also
 * where the folder has a wrap log of its name: a new log is begun beside that. A wrap log that is there is
 * opened with `wrap`, or with its `files`. */
struct dlog_options {
    const char *base;       /* NULL: the name */
    int has_size;           /* 0: the size that the log has */
    uint64_t bytes;         /* the bytes of a file; 0: no limit */
    uint32_t files;         /* 0: a halt log; else the files of a wrap log */
    int wrap;               /* a wrap log whose size is not given */
    int read_only;
    int repair;             /* 0: yes, 1: no, 2: truncate */
    const struct dlog_bytes *head;
    int notify;
    int anonymous;
    uint32_t hold;          /* the most blocks that it may have; 0: as it is open, or else any */
};

/* A thread's part in a server. Its members are the client's own, but for `status`: how a server ended
 * of which a call or `dlog_stop` has reported it. */
struct dlog {
    struct dlog_server *server; /* NULL: it has none, or has given it up */
    int status;
    int timeout;
    int64_t deadline;
    size_t start;     /* where the request begins that is made */
    uint32_t awaited; /* the tag for which it waits while another thread reads */
    int is_woken;
    pthread_cond_t woken;
    struct dlog *next; /* among those that wait */
    uint8_t *kept;     /* the parts of its last answer */
    size_t kept_room;
    char fault[1280];
};

/* Starts `program serve --folder folder` and waits until it serves. It is in a session of its own and
 * ignores SIGTERM, SIGINT and SIGHUP, so that no signal that is meant for this program ends it, and
 * SIGXFSZ, so that a limit on the size of files is an error (E24). SIGPIPE is ignored here from then on. After a fault nothing is left to stop. */
int dlog_start(struct dlog *dlog, const char *program, const char *folder);
int dlog_start_with(struct dlog *dlog, const char *program, const char *folder,
                    const struct dlog_settings *settings);

/* Gives another thread a part in the server of `dlog`: `own`, which has the same limit of time. It
 * detaches it at its end. Calls of `dlog` may be under way, but for a stop or its own end. Where the server is stopped, calls of all are DLOG_GONE from then on. */
int dlog_attach(struct dlog *own, struct dlog *dlog);
void dlog_detach(struct dlog *own);

/* Ends the input of the server, which closes its logs, waits for it, and returns its status: 0 if all
 * was written, 128 and the signal if it was killed, or DLOG_TIMED_OUT; then it may be called again. */
int dlog_stop(struct dlog *dlog);

/* Kills a server that does not answer, and waits for it. What waited in it is lost. */
void dlog_kill(struct dlog *dlog);

/* In a child by fork: gives the server up, which is its parent's. A program that is started by exec
 * has no part in it as it is. */
void dlog_forget(struct dlog *dlog);

/* The number of the server's process. */
pid_t dlog_process(const struct dlog *dlog);

/* How many milliseconds each call may take from now on; 0: no limit. */
void dlog_set_timeout(struct dlog *dlog, int milliseconds);

/* What the last fault was, and of a server that has ended its last words on standard error. They are
 * passed on to standard error too, at its end at the latest. */
const char *dlog_error(const struct dlog *dlog);

/* Calls that wait for their answer. Notices that come meanwhile are dropped. */
int dlog_open(struct dlog *dlog, uint32_t client, const char *name,
              const struct dlog_options *options, struct dlog_answer *answer);
int dlog_log(struct dlog *dlog, uint32_t client, const char *name,
             const struct dlog_bytes *items, uint32_t count, struct dlog_answer *answer);
int dlog_chunk(struct dlog *dlog, uint32_t client, const char *name,
               const struct dlog_place *place, uint64_t most, struct dlog_answer *answer);
int dlog_sync(struct dlog *dlog, uint32_t client, const char *name, struct dlog_answer *answer);
/* Syncs these logs. The answer is DLOG_UNSYNCED and has those that are not on the device
 * (`dlog_unsynced`); the others are. It waits for no block: a log that one keeps off is among them, as
 * DLOG_SUSPENDED. With a count of 0 it is all that are open, whoever opened them: one that is open
 * read-only is not synced (E13), and nothing is said of a log whose open failed, or that is closed and
 * still waits to be written. So name the logs that matter. */
int dlog_sync_all(struct dlog *dlog, uint32_t client, const char *const *names, uint32_t count,
                  struct dlog_answer *answer);
/* Which logs are open, whoever opened them. The answer is DLOG_LOGS and has their names (`dlog_names`). */
int dlog_logs(struct dlog *dlog, struct dlog_answer *answer);
int dlog_close(struct dlog *dlog, uint32_t client, const char *name, struct dlog_answer *answer);
int dlog_block(struct dlog *dlog, uint32_t client, const char *name, int queue,
               struct dlog_answer *answer);
int dlog_unblock(struct dlog *dlog, uint32_t client, const char *name, struct dlog_answer *answer);

/* Any call: the number of the call, and its parts after the log's name. With a name of NULL the parts
 * are all that follows the number. */
int dlog_call(struct dlog *dlog, uint8_t op, uint32_t client, const char *name,
              const void *parts, size_t length, struct dlog_answer *answer);

/* Add a call to what is to be sent, and store its tag. With a tag of NULL no answer comes. */
int dlog_send(struct dlog *dlog, uint8_t op, uint32_t client, const char *name,
              const void *parts, size_t length, uint32_t *tag);
int dlog_send_log(struct dlog *dlog, uint32_t client, const char *name,
                  const struct dlog_bytes *items, uint32_t count, uint32_t *tag);
int dlog_send_chunk(struct dlog *dlog, uint32_t client, const char *name,
                    const struct dlog_place *place, uint64_t most, uint32_t *tag);
int dlog_send_sync(struct dlog *dlog, uint32_t client, const char *name, uint32_t *tag);

/* Writes what is to be sent. */
int dlog_flush(struct dlog *dlog);

/* Waits for the answer of a call that was sent. Notices that come meanwhile are dropped. */
int dlog_answer(struct dlog *dlog, uint32_t tag, struct dlog_answer *answer);

/* Waits for the next answer or notice, whichever thread it is for: of several that share a server none
 * takes answers so. */
int dlog_receive(struct dlog *dlog, struct dlog_answer *answer);

/* Takes the items of an answer of the kind DLOG_ITEMS: the place after them first, and then the
 * items, one at a time, until it returns 1. */
struct dlog_items {
    const uint8_t *at;
    size_t length;
    uint32_t left;
    uint64_t bad;
    struct dlog_place next;
};
int dlog_items(const struct dlog_answer *answer, struct dlog_items *items);
int dlog_next_item(struct dlog_items *items, struct dlog_bytes *item);

/* Takes the logs of an answer of the kind DLOG_UNSYNCED: how many are left first, none if all are on the
 * device, and then one at a time, with what its sync was answered, until it returns 1. */
struct dlog_unsynced {
    const uint8_t *at;
    size_t length;
    uint32_t left;
};
int dlog_unsynced(const struct dlog_answer *answer, struct dlog_unsynced *unsynced);
int dlog_next_unsynced(struct dlog_unsynced *unsynced, char name[DLOG_NAME_LIMIT + 1],
                       struct dlog_answer *its);

/* Takes the names of an answer of the kind DLOG_LOGS: how many are left first, and then one at a time, in the
 * order of opening, until it returns 1. */
struct dlog_names {
    const uint8_t *at;
    size_t length;
    uint32_t left;
};
int dlog_names(const struct dlog_answer *answer, struct dlog_names *names);
int dlog_next_name(struct dlog_names *names, char name[DLOG_NAME_LIMIT + 1]);

/* Why the device failed: the file, one of `enum dlog_cause`, and the system's error number, as of `strerror`,
 * which is 0 if the system refused nothing. */
struct dlog_reason {
    char file[DLOG_FILE_LIMIT + 1];
    int cause;
    int32_t number;
};

/* The words of a reason. They stand until the next call of `strerror`. */
const char *dlog_reason_words(const struct dlog_reason *reason);

/* Asks why the device failed, right after an answer of the kind DLOG_REFUSED + 24, which is `refused`, or one
 * that `dlog_next_unsynced` has taken. Its parts stand no longer then. Returns 1 if the server does not know, or
 * a call on another file has failed since. */
int dlog_reason(struct dlog *dlog, const struct dlog_answer *refused, struct dlog_reason *reason);

#endif

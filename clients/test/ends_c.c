/* Scenarios of how a server starts and ends, by the C client, and of threads that share one. */
#include "test_c.h"

#include <pthread.h>
#include <signal.h>
#include <sys/resource.h>
#include <sys/stat.h>
#include <sys/wait.h>
#include <unistd.h>

enum { MANY = 1000, PATIENCE = 60000, SHORT = 200, THREADS = 8, EACH = 100 };

static const struct dlog_settings patient = { .wait = PATIENCE, .timeout = PATIENCE };

const char *make(char *folder, const char *parent, const char *name)
{
    snprintf(folder, 4096, "%s/%s", parent, name);
    CHECK(mkdir(folder, 0700) == 0);
    return folder;
}

void open_log(struct dlog *dlog, const char *name, uint8_t kind)
{
    struct dlog_answer answer;

    CHECK(dlog_open(dlog, 1, name, NULL, &answer) == 0 && answer.kind == kind);
}

int log_item(struct dlog *dlog, const char *name, const char *text)
{
    struct dlog_answer answer = { 0 };
    struct dlog_bytes item = bytes_of(text);
    int fault = dlog_log(dlog, 1, name, &item, 1, &answer);

    CHECK(fault != 0 || answer.kind == DLOG_DONE);
    return fault;
}

/* How many items a log has, by chunks of so many. */
int count_items(struct dlog *dlog, const char *name)
{
    struct dlog_answer answer;
    struct dlog_items items = { 0 };
    int count = 0;

    for (;;) {
        CHECK(dlog_chunk(dlog, 1, name, &items.next, 4096, &answer) == 0);
        if (answer.kind == DLOG_EOF)
            return count;
        CHECK(dlog_items(&answer, &items) == 0);
        count += (int)items.left;
    }
}

/* A program that logs, reports so by a byte, and waits for its end. */
static void be_ended(const char *folder, int reports)
{
    struct dlog dlog;

    CHECK(setpgid(0, 0) == 0);
    signal(SIGINT, SIG_DFL);
    signal(SIGHUP, SIG_DFL);
    CHECK(dlog_start(&dlog, program, folder) == 0);
    open_log(&dlog, "kept", DLOG_OPENED);
    for (int i = 0; i < MANY; i++)
        CHECK(log_item(&dlog, "kept", "item") == 0);
    CHECK(write(reports, "1", 1) == 1);
    for (;;)
        pause();
}

static void a_signal_to_the_group(const char *parent)
{
    static const int signals[] = { SIGINT, SIGTERM, SIGHUP, SIGKILL };
    char folder[4096], name[16], byte;

    for (size_t i = 0; i < sizeof signals / sizeof *signals; i++) {
        struct dlog dlog;
        int reports[2], status;
        pid_t child;

        snprintf(name, sizeof name, "group%zu", i);
        make(folder, parent, name);
        CHECK(pipe(reports) == 0 && (child = fork()) >= 0);
        if (child == 0)
            be_ended(folder, reports[1]);
        CHECK(close(reports[1]) == 0 && read(reports[0], &byte, 1) == 1);
        CHECK(kill(-child, signals[i]) == 0 && waitpid(child, &status, 0) == child);
        CHECK(WIFSIGNALED(status) && close(reports[0]) == 0);
        CHECK(dlog_start_with(&dlog, program, folder, &patient) == 0);
        open_log(&dlog, "kept", DLOG_OPENED);
        CHECK(count_items(&dlog, "kept") == MANY);
        CHECK(signals[i] == SIGKILL || kill(dlog_process(&dlog), signals[i]) == 0);
        CHECK(log_item(&dlog, "kept", "later") == 0);
        CHECK(dlog_stop(&dlog) == 0);
    }
}

static void a_killed_server(const char *parent)
{
    struct dlog dlog;
    char folder[4096];
    uint32_t tags[2];

    make(folder, parent, "killed");
    for (int is_busy = 0; is_busy < 2; is_busy++) {
        struct dlog_answer answer;
        int fault = 0;

        CHECK(dlog_start(&dlog, program, folder) == 0);
        open_log(&dlog, "busy", is_busy ? DLOG_REPAIRED : DLOG_OPENED);
        CHECK(kill(dlog_process(&dlog), is_busy ? SIGSTOP : SIGKILL) == 0);
        for (int i = 0; i < 2 && is_busy; i++)
            CHECK(dlog_send_sync(&dlog, 1, "busy", &tags[i]) == 0 && dlog_flush(&dlog) == 0);
        CHECK(!is_busy || kill(dlog_process(&dlog), SIGKILL) == 0);
        CHECK(!is_busy || dlog_answer(&dlog, tags[1], &answer) == DLOG_GONE);
        while (fault == 0)
            fault = log_item(&dlog, "busy", "item");
        CHECK(fault == DLOG_GONE && strstr(dlog_error(&dlog), "status 137") != NULL);
        CHECK(dlog_stop(&dlog) == 128 + SIGKILL);
    }
}

/* The lowest descriptor that is free. */
static int lowest_free(void)
{
    int lowest = dup(0);

    CHECK(lowest >= 0 && close(lowest) == 0);
    return lowest;
}

/* A start with too few descriptors says so, and leaves none open. */
static void too_few_descriptors(const char *folder)
{
    struct rlimit whole, few;
    int lowest = lowest_free(), exhausted = 0;

    CHECK(getrlimit(RLIMIT_NOFILE, &whole) == 0);
    few = whole;
    for (int most = 0; most < lowest + 12; most++) {
        struct dlog dlog;
        int fault;

        few.rlim_cur = (rlim_t)most;
        CHECK(setrlimit(RLIMIT_NOFILE, &few) == 0);
        fault = dlog_start(&dlog, program, folder);
        CHECK(setrlimit(RLIMIT_NOFILE, &whole) == 0);
        if (fault == 0)
            CHECK(dlog_stop(&dlog) == 0);
        else
            CHECK(fault == DLOG_GONE || strstr(dlog_error(&dlog), "Too many open files") != NULL);
        exhausted += fault == DLOG_EXHAUSTED;
        CHECK(lowest_free() == lowest);
    }
    CHECK(exhausted > 3);
}

static void why_it_does_not_start(const char *parent)
{
    struct dlog dlog, other;
    char folder[4096], missing[5000];
    struct dlog_settings wrong = { .blocks = UINT32_MAX };

    make(folder, parent, "why");
    snprintf(missing, sizeof missing, "%s/missing", folder);
    CHECK(dlog_start(&dlog, missing, folder) == DLOG_GONE);
    CHECK(strstr(dlog_error(&dlog), "no such program") != NULL);
    CHECK(dlog_start(&dlog, program, missing) == DLOG_GONE);
    CHECK(strstr(dlog_error(&dlog), "missing") != NULL);
    CHECK(dlog_start_with(&dlog, program, folder, &wrong) == DLOG_GONE && dlog.status == 2);
    CHECK(dlog_start(&other, program, folder) == 0);
    CHECK(dlog_start(&dlog, program, folder) == DLOG_GONE);
    CHECK(strstr(dlog_error(&dlog), "another program") != NULL);
    CHECK(dlog_stop(&other) == 0);
    too_few_descriptors(folder);
}

static void what_no_server_reads(const char *parent)
{
    static const char *const names[] = { "", "a b", "a/b", "\xc3\xa4",
        "xxxxxxxxxxxxxxxxxxxxxxxxxxxxxxxxxxxxxxxxxxxxxxxxxxxxxxxxxxxxxxxxx" };
    static uint8_t zeros[DLOG_ITEM_LIMIT + 1];
    struct dlog dlog;
    struct dlog_answer answer;
    struct dlog_bytes items[16], longer = { zeros, sizeof zeros };
    char folder[4096];

    CHECK(dlog_start(&dlog, program, make(folder, parent, "large")) == 0);
    open_log(&dlog, "a", DLOG_OPENED);
    for (int i = 0; i < 16; i++)
        items[i] = (struct dlog_bytes){ zeros, DLOG_ITEM_LIMIT };
    CHECK(dlog_log(&dlog, 1, "a", &longer, 1, &answer) == DLOG_INVALID);
    CHECK(strstr(dlog_error(&dlog), "1048577") != NULL);
    CHECK(dlog_log(&dlog, 1, "a", items, 16, &answer) == DLOG_INVALID);
    CHECK(strstr(dlog_error(&dlog), "16777216") != NULL);
    CHECK(dlog_log(&dlog, 1, "a", items, 0, &answer) == DLOG_INVALID && strstr(dlog_error(&dlog), "at least one") != NULL);
    for (size_t i = 0; i < sizeof names / sizeof *names; i++) {
        struct dlog_options options = { .base = names[i] };

        CHECK(dlog_open(&dlog, 1, names[i], NULL, &answer) == DLOG_INVALID);
        CHECK(dlog_open(&dlog, 1, "b", &options, &answer) == DLOG_INVALID);
    }
    CHECK(dlog_log(&dlog, 1, "a", items, 15, &answer) == 0 && answer.kind == DLOG_DONE);
    CHECK(count_items(&dlog, "a") == 15);
    CHECK(dlog_stop(&dlog) == 0);
}

static void two_servers(const char *parent)
{
    struct dlog first, second;
    char folder[4096];

    CHECK(dlog_start_with(&first, program, make(folder, parent, "first"), &patient) == 0);
    CHECK(dlog_start_with(&second, program, make(folder, parent, "second"), &patient) == 0);
    open_log(&second, "a", DLOG_OPENED);
    CHECK(dlog_stop(&first) == 0);
    CHECK(log_item(&second, "a", "still here") == 0);
    CHECK(dlog_stop(&second) == 0);
}

static void a_child_keeps_none(const char *parent)
{
    struct dlog dlog;
    char folder[4096];
    int asks[2];
    pid_t forked, started;

    CHECK(pipe(asks) == 0);
    CHECK(dlog_start_with(&dlog, program, make(folder, parent, "child"), &patient) == 0);
    open_log(&dlog, "a", DLOG_OPENED);
    CHECK((forked = fork()) >= 0);
    if (forked == 0) {
        dlog_forget(&dlog);
        close(asks[1]);
        _exit(log_item(&dlog, "a", "of the child") == DLOG_GONE && read(asks[0], folder, 1) == 0 ? 0 : 1);
    }
    CHECK((started = fork()) >= 0);
    if (started == 0) {
        dup2(asks[0], 0);
        close(asks[1]);
        execlp("cat", "cat", (char *)NULL);
        _exit(1);
    }
    CHECK(log_item(&dlog, "a", "of the parent") == 0);
    CHECK(dlog_stop(&dlog) == 0);
    CHECK(close(asks[1]) == 0 && close(asks[0]) == 0);
    for (pid_t each = forked; each != 0; each = each == forked ? started : 0) {
        int status;

        CHECK(waitpid(each, &status, 0) == each && WIFEXITED(status) && WEXITSTATUS(status) == 0);
    }
}

/* A thread: its part in the server, and its client and name. */
struct writer {
    pthread_t thread;
    struct dlog dlog;
    uint32_t client;
    char name[16];
};

static void *write_shared(void *given)
{
    struct writer *writer = given;
    uint32_t tags[EACH], synced;
    struct dlog_answer answer;
    struct dlog_bytes item = bytes_of(writer->name);

    CHECK(dlog_open(&writer->dlog, writer->client, "shared", NULL, &answer) == 0 && answer.kind == DLOG_OPENED);
    for (int i = 0; i < EACH; i++) {
        CHECK(dlog_send_log(&writer->dlog, writer->client, "shared", &item, 1, &tags[i]) == 0);
        CHECK(i % 10 > 0 || dlog_flush(&writer->dlog) == 0);
    }
    CHECK(dlog_send_sync(&writer->dlog, writer->client, "shared", &synced) == 0);
    for (int i = EACH - 1; i >= 0; i--)
        CHECK(dlog_answer(&writer->dlog, tags[i], &answer) == 0 && answer.tag == tags[i] && answer.kind == DLOG_DONE);
    CHECK(dlog_answer(&writer->dlog, synced, &answer) == 0 && answer.kind == DLOG_DONE);
    for (int i = 0; i < EACH; i++)
        CHECK(dlog_log(&writer->dlog, writer->client, "shared", &item, 1, &answer) == 0 && answer.kind == DLOG_DONE);
    CHECK(count_items(&writer->dlog, "shared") >= 2 * EACH);
    dlog_detach(&writer->dlog);
    CHECK(log_item(&writer->dlog, "shared", "late") == DLOG_GONE);
    return NULL;
}

static void threads_share(const char *parent)
{
    static struct writer writers[THREADS];
    struct dlog dlog, late;
    char folder[4096];

    CHECK(dlog_start_with(&dlog, program, make(folder, parent, "shared"), &patient) == 0);
    open_log(&dlog, "shared", DLOG_OPENED);
    for (uint32_t i = 0; i < THREADS; i++) {
        struct writer *writer = &writers[i];

        writer->client = i + 1;
        snprintf(writer->name, sizeof writer->name, "%u", i);
        CHECK(dlog_attach(&writer->dlog, &dlog) == 0);
        CHECK(pthread_create(&writer->thread, NULL, write_shared, writer) == 0);
    }
    for (int i = 0; i < THREADS; i++)
        CHECK(pthread_join(writers[i].thread, NULL) == 0);
    CHECK(count_items(&dlog, "shared") == THREADS * 2 * EACH);
    CHECK(dlog_attach(&late, &dlog) == 0);
    CHECK(dlog_stop(&dlog) == 0);
    CHECK(log_item(&late, "shared", "late") == DLOG_GONE);
    CHECK(dlog_stop(&late) == 0 && log_item(&late, "shared", "late") == DLOG_GONE);
    CHECK(dlog_attach(&dlog, &late) == DLOG_GONE);
}

static void its_time_limit(const char *parent)
{
    static uint8_t zeros[DLOG_ITEM_LIMIT];
    struct dlog dlog;
    struct dlog_answer answer;
    struct dlog_bytes large = { zeros, sizeof zeros };
    char folder[4096];

    CHECK(dlog_start(&dlog, program, make(folder, parent, "late")) == 0);
    open_log(&dlog, "a", DLOG_OPENED);
    CHECK(kill(dlog_process(&dlog), SIGSTOP) == 0);
    dlog_set_timeout(&dlog, SHORT);
    CHECK(log_item(&dlog, "a", "late") == DLOG_TIMED_OUT);
    CHECK(dlog_log(&dlog, 1, "a", &large, 1, &answer) == DLOG_TIMED_OUT);
    CHECK(kill(dlog_process(&dlog), SIGCONT) == 0);
    dlog_set_timeout(&dlog, PATIENCE);
    CHECK(log_item(&dlog, "a", "last") == 0);
    CHECK(count_items(&dlog, "a") == 3);
    CHECK(kill(dlog_process(&dlog), SIGSTOP) == 0);
    dlog_set_timeout(&dlog, SHORT);
    CHECK(dlog_stop(&dlog) == DLOG_TIMED_OUT);
    dlog_kill(&dlog);
    CHECK(dlog.status == 128 + SIGKILL);
}

static void a_place_outlives(const char *parent)
{
    struct dlog dlog;
    struct dlog_answer answer;
    struct dlog_items items;
    struct dlog_place place = { 1, { 0 } };
    uint8_t stored[DLOG_PLACE_BYTES];
    char folder[4096];

    CHECK(dlog_start(&dlog, program, make(folder, parent, "place")) == 0);
    open_log(&dlog, "a", DLOG_OPENED);
    CHECK(log_item(&dlog, "a", "one") == 0 && log_item(&dlog, "a", "two") == 0);
    CHECK(dlog_chunk(&dlog, 1, "a", NULL, 1, &answer) == 0 && dlog_items(&answer, &items) == 0);
    memcpy(stored, items.next.bytes, sizeof stored);
    CHECK(dlog_stop(&dlog) == 0 && dlog_start(&dlog, program, folder) == 0);
    open_log(&dlog, "a", DLOG_OPENED);
    memcpy(place.bytes, stored, sizeof stored);
    CHECK(dlog_chunk(&dlog, 1, "a", &place, 9, &answer) == 0 && dlog_items(&answer, &items) == 0);
    CHECK(items.left == 1 && memcmp(items.at + 4, "two", 3) == 0);
    CHECK(dlog_stop(&dlog) == 0);
}

static void starts_again(const char *parent)
{
    struct dlog dlog;
    struct dlog_answer answer;
    char folder[4096];

    CHECK(dlog_start(&dlog, program, make(folder, parent, "again")) == 0);
    open_log(&dlog, "a", DLOG_OPENED);
    CHECK(log_item(&dlog, "a", "kept") == 0 && dlog_sync(&dlog, 1, "a", &answer) == 0);
    dlog_kill(&dlog);
    CHECK(log_item(&dlog, "a", "lost") == DLOG_GONE);
    CHECK(dlog_start_with(&dlog, program, folder, &patient) == 0);
    open_log(&dlog, "a", DLOG_REPAIRED);
    CHECK(count_items(&dlog, "a") == 1);
    CHECK(dlog_stop(&dlog) == 0);
}

static void *stop_later(void *dlog)
{
    struct timespec pause = { 0, 300000000L };

    nanosleep(&pause, NULL);
    CHECK(dlog_stop(dlog) == 0);
    return NULL;
}

static void waits_for_its_folder(const char *parent)
{
    struct dlog first, second;
    struct dlog_settings impatient = { .wait = SHORT };
    char folder[4096];
    pthread_t stops;

    CHECK(dlog_start(&first, program, make(folder, parent, "waits")) == 0);
    CHECK(dlog_start_with(&second, program, folder, &impatient) == DLOG_GONE);
    CHECK(pthread_create(&stops, NULL, stop_later, &first) == 0);
    CHECK(dlog_start_with(&second, program, folder, &patient) == 0);
    open_log(&second, "a", DLOG_OPENED);
    CHECK(dlog_stop(&second) == 0 && pthread_join(stops, NULL) == 0);
}

const struct scenario ends[] = {
    { "a signal to the group spares the server", a_signal_to_the_group },
    { "a killed server is reported to each caller", a_killed_server },
    { "a server reports why it does not start", why_it_does_not_start },
    { "a client refuses what no server reads", what_no_server_reads },
    { "two servers of one program end alone", two_servers },
    { "a child keeps no server open", a_child_keeps_none },
    { "threads share a server", threads_share },
    { "a call ends at its time limit", its_time_limit },
    { "a place outlives its server", a_place_outlives },
    { "a server that has ended starts again", starts_again },
    { "a server waits for its folder", waits_for_its_folder },
    { NULL, NULL },
};

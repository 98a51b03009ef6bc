/* Scenarios of programs that are no server of this version, and of devices that are full, by the C client. */
#include "test_c.h"

#include <errno.h>
#include <sys/stat.h>

enum { MANY = 1000 };

static void write_program(char *path, const char *folder, const char *name, const char *text)
{
    FILE *script;

    snprintf(path, 5000, "%s/%s", folder, name);
    CHECK((script = fopen(path, "w")) != NULL && fputs(text, script) >= 0);
    CHECK(fclose(script) == 0 && chmod(path, 0700) == 0);
}

static void another_version(const char *parent)
{
    struct dlog dlog;
    char folder[4096], other[5000];

    make(folder, parent, "version");
    write_program(other, folder, "other", "#!/bin/sh\n"
                  "printf '\\0\\0\\0\\024\\0\\0\\0\\1\\0\\0\\011\\1\\0\\0\\0\\0\\0\\4\\0\\4dlog'\n"
                  "exec cat >/dev/null\n");
    CHECK(dlog_start(&dlog, other, folder) == DLOG_FORM);
    CHECK(strstr(dlog_error(&dlog), "version 9") != NULL);
}

/* A program whose files become no longer than 4,096 bytes, until its soft limit is raised. */
static const char *limited(const char *folder)
{
    static char full[5000];
    char text[5000];

    snprintf(text, sizeof text, "#!/bin/sh\nulimit -S -f 8\nexec '%s' \"$@\"\n", program);
    write_program(full, folder, "full", text);
    return full;
}

/* Logs items and syncs each until one is refused by E24, and returns how many were taken. */
static int fill(struct dlog *dlog, const char *name)
{
    static const uint8_t zeros[500];
    struct dlog_bytes item = { zeros, sizeof zeros };

    for (int taken = 0;; taken++) {
        struct dlog_answer answer;
        struct dlog_reason reason;

        CHECK(taken < MANY && dlog_log(dlog, 1, name, &item, 1, &answer) == 0);
        if (answer.kind == DLOG_DONE)
            CHECK(dlog_sync(dlog, 1, name, &answer) == 0);
        if (answer.kind == DLOG_DONE)
            continue;
        CHECK(answer.kind == DLOG_REFUSED + 24);
        CHECK(answer.length == 2 + strlen(name) && memcmp(answer.parts + 1, name, strlen(name)) == 0);
        CHECK(dlog_reason(dlog, &answer, &reason) == 0 && reason.cause == DLOG_BY_SYSTEM && reason.number == EFBIG);
        CHECK(strcmp(reason.file, "a.log") == 0 && strcmp(dlog_reason_words(&reason), strerror(EFBIG)) == 0);
        return taken;
    }
}

static void sync_item(struct dlog *dlog, const char *name, const char *text)
{
    struct dlog_answer answer;

    CHECK(log_item(dlog, name, text) == 0);
    CHECK(dlog_sync(dlog, 1, name, &answer) == 0 && answer.kind == DLOG_DONE);
}

static void give_room(const struct dlog *dlog)
{
    char command[100];

    snprintf(command, sizeof command, "prlimit --pid %d --fsize=unlimited", (int)dlog_process(dlog));
    CHECK(system(command) == 0);
}

static void one_call(const char *parent)
{
    static const char *const names[] = { "missing", "b", "a" }, *const wrong[] = { "a b" };
    static uint8_t zeros[10000];
    struct dlog dlog;
    struct dlog_answer answer, its;
    struct dlog_bytes item = { zeros, sizeof zeros };
    struct dlog_unsynced left;
    struct dlog_reason reason;
    struct dlog_names open;
    char folder[4096], name[DLOG_NAME_LIMIT + 1];

    make(folder, parent, "all");
    CHECK(dlog_start(&dlog, limited(folder), folder) == 0);
    open_log(&dlog, "a", DLOG_OPENED);
    open_log(&dlog, "b", DLOG_OPENED);
    CHECK(dlog_log(&dlog, 1, "a", &item, 1, &answer) == 0 && answer.kind == DLOG_DONE);
    CHECK(log_item(&dlog, "b", "has room") == 0);
    CHECK(dlog_sync_all(&dlog, 1, names, 3, &answer) == 0 && dlog_unsynced(&answer, &left) == 0 && left.left == 2);
    CHECK(dlog_next_unsynced(&left, name, &its) == 0 && strcmp(name, "missing") == 0 && its.kind == DLOG_REFUSED + 2);
    CHECK(dlog_next_unsynced(&left, name, &its) == 0 && strcmp(name, "a") == 0 && its.kind == DLOG_REFUSED + 24);
    CHECK(its.length == 3 && memcmp(its.parts, "\1a\0", 3) == 0);
    CHECK(dlog_next_unsynced(&left, name, &its) == 1);
    CHECK(dlog_reason(&dlog, &its, &reason) == 0 && strcmp(reason.file, "a.log") == 0 && reason.number == EFBIG);
    CHECK(dlog_reason(&dlog, &answer, &reason) == DLOG_INVALID);
    CHECK(dlog_logs(&dlog, &answer) == 0 && dlog_names(&answer, &open) == 0 && open.left == 2);
    CHECK(dlog_next_name(&open, name) == 0 && strcmp(name, "a") == 0);
    CHECK(dlog_next_name(&open, name) == 0 && strcmp(name, "b") == 0 && dlog_next_name(&open, name) == 1);
    CHECK(dlog_sync_all(&dlog, 1, wrong, 1, &answer) == DLOG_INVALID);
    give_room(&dlog);
    CHECK(dlog_sync_all(&dlog, 1, NULL, 0, &answer) == 0 && dlog_unsynced(&answer, &left) == 0 && left.left == 0);
    dlog_kill(&dlog);
    CHECK(dlog_start(&dlog, program, folder) == 0);
    open_log(&dlog, "a", DLOG_REPAIRED);
    CHECK(count_items(&dlog, "a") == 1);
    CHECK(dlog_stop(&dlog) == 0);
}

static void a_full_device(const char *parent)
{
    struct dlog dlog;
    struct dlog_settings small = { .blocks = 1 };
    char folder[4096];
    int taken;

    make(folder, parent, "device");
    CHECK(dlog_start_with(&dlog, limited(folder), folder, &small) == 0);
    open_log(&dlog, "a", DLOG_OPENED);
    open_log(&dlog, "b", DLOG_OPENED);
    taken = fill(&dlog, "a");
    CHECK(taken > 0 && fill(&dlog, "a") == 0);
    sync_item(&dlog, "b", "has room");
    give_room(&dlog);
    sync_item(&dlog, "a", "last");
    CHECK(dlog_stop(&dlog) == 0 && dlog_start(&dlog, program, folder) == 0);
    open_log(&dlog, "a", DLOG_OPENED);
    CHECK(count_items(&dlog, "a") > taken);
    CHECK(dlog_stop(&dlog) == 0);
}

static void a_loss_at_the_stop(const char *parent)
{
    static uint8_t zeros[100000];
    struct dlog dlog;
    struct dlog_answer answer;
    struct dlog_bytes item = { zeros, sizeof zeros };
    struct dlog_settings settings = { .blocks = 256 };
    char folder[4096];

    make(folder, parent, "loss");
    CHECK(dlog_start_with(&dlog, limited(folder), folder, &settings) == 0);
    open_log(&dlog, "a", DLOG_OPENED);
    CHECK(dlog_log(&dlog, 1, "a", &item, 1, &answer) == 0 && answer.kind == DLOG_DONE);
    CHECK(dlog_stop(&dlog) == 1 && strstr(dlog_error(&dlog), "is lost") != NULL);
}

const struct scenario devices[] = {
    { "a server of another version is refused", another_version },
    { "many logs are synced by one call", one_call },
    { "a full device is an error until it has room", a_full_device },
    { "a loss at the stop is an error", a_loss_at_the_stop },
    { NULL, NULL },
};

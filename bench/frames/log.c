/* How many items of 100 bytes a second the C client logs, one call at a time and with 64 under way.
 * Words: the program, an empty folder, and a number of items. Prints `name: items a second`. */
#include "../../clients/c/dlog.h"

#include <stdio.h>
#include <stdlib.h>
#include <string.h>
#include <time.h>

enum { ITEM_BYTES = 100, AHEAD = 64, FLUSH_ALL = 17, ROUND = 20 };

static double now(void)
{
    struct timespec time;

    clock_gettime(CLOCK_MONOTONIC, &time);
    return (double)time.tv_sec + (double)time.tv_nsec / 1e9;
}

static void check(int holds)
{
    if (!holds) {
        fputs("bench: the server failed\n", stderr);
        exit(1);
    }
}

/* Logs items, up to so many calls under way, and waits until all are written to the device. */
static void run(struct dlog *dlog, const char *log, const char *name, long count, long ahead)
{
    struct dlog_answer answer;
    uint8_t text[ITEM_BYTES];
    struct dlog_bytes item = { text, sizeof text };
    long sent = 0, answered = 0;
    uint32_t tag;
    double start;

    check(dlog_open(dlog, 1, log, NULL, &answer) == 0 && answer.kind == DLOG_OPENED);
    memset(text, 'z', sizeof text);
    start = now();
    while (answered < count) {
        for (; sent < count && sent < answered + ahead; sent++) {
            memcpy(text, &sent, sizeof sent);
            check(dlog_send_log(dlog, 1, log, &item, 1, &tag) == 0);
        }
        do {
            check(dlog_receive(dlog, &answer) == 0 && answer.kind == DLOG_DONE);
            answered++;
        } while (sent - answered > ahead / 2);
    }
    check(dlog_close(dlog, 1, log, &answer) == 0 && answer.kind == DLOG_DONE);
    printf("%s: %.0f\n", name, (double)count / (now() - start));
}

int main(int count, char **words)
{
    struct dlog dlog;
    long items;

    check(count == 4);
    items = atol(words[3]);
    check(dlog_start(&dlog, words[1], words[2]) == 0);
    run(&dlog, "one", "c_one_at_a_time", items / ROUND, 1);
    run(&dlog, "ahead", "c_64_under_way", items, AHEAD);
    check(dlog_stop(&dlog) == 0);
    return 0;
}

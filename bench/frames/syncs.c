/* How many requests a second threads of the C client have answered that each log an item of 100 bytes and sync, each by a part of
 * its own in one server: one call after the other, and both sent together.
 * Words: the program, an empty folder, how many threads, and how many requests each makes. Prints `name: requests a second`. */
#include "../../clients/c/dlog.h"

#include <stdio.h>
#include <stdlib.h>
#include <time.h>

enum { MOST_THREADS = 64 };

static struct writer {
    pthread_t thread;
    struct dlog dlog;
    uint32_t client;
    long requests;
    int together;
} writers[MOST_THREADS];

static void check(int fact, const char *what)
{
    if (!fact) {
        fprintf(stderr, "bench: %s failed\n", what);
        exit(1);
    }
}

static void ask(struct writer *writer, const struct dlog_bytes *item)
{
    struct dlog *dlog = &writer->dlog;
    struct dlog_answer answer;
    uint32_t logged, synced;

    check(dlog_send_log(dlog, writer->client, "audit", item, 1, &logged) == 0, "a log");
    if (!writer->together)
        check(dlog_answer(dlog, logged, &answer) == 0 && answer.kind == DLOG_DONE, "a log");
    check(dlog_send_sync(dlog, writer->client, "audit", &synced) == 0, "a sync");
    if (writer->together)
        check(dlog_answer(dlog, logged, &answer) == 0 && answer.kind == DLOG_DONE, "a log");
    check(dlog_answer(dlog, synced, &answer) == 0 && answer.kind == DLOG_DONE, "a sync");
}

static void *work(void *given)
{
    struct writer *writer = given;
    char text[101];
    struct dlog_bytes item = { (const uint8_t *)text, 100 };

    for (long number = 0; number < writer->requests; number++) {
        snprintf(text, sizeof text, "%0100ld", number);
        ask(writer, &item);
    }
    dlog_detach(&writer->dlog);
    return NULL;
}

static double now(void)
{
    struct timespec time;

    clock_gettime(CLOCK_MONOTONIC, &time);
    return (double)time.tv_sec + (double)time.tv_nsec / 1e9;
}

static void measure(struct dlog *dlog, long threads, long requests, int together)
{
    double start = now();

    for (long at = 0; at < threads; at++) {
        struct writer *writer = &writers[at];

        *writer = (struct writer){ .client = (uint32_t)at + 1, .requests = requests, .together = together };
        check(dlog_attach(&writer->dlog, dlog) == 0, "a part");
        check(pthread_create(&writer->thread, NULL, work, writer) == 0, "a thread");
    }
    for (long at = 0; at < threads; at++)
        pthread_join(writers[at].thread, NULL);
    printf("c_%s_%ld: %.0f\n", together ? "together" : "one_after_the_other", threads,
           (double)(threads * requests) / (now() - start));
}

int main(int count, char **words)
{
    struct dlog dlog;
    struct dlog_answer answer;
    long threads = count == 5 ? atol(words[3]) : 0, requests = count == 5 ? atol(words[4]) : 0;

    check(threads > 0 && threads <= MOST_THREADS && requests > 0, "the reading of the words");
    check(dlog_start(&dlog, words[1], words[2]) == 0, "the start");
    check(dlog_open(&dlog, 1, "audit", NULL, &answer) == 0 && answer.kind == DLOG_OPENED, "the open");
    measure(&dlog, threads, requests, 0);
    measure(&dlog, threads, requests, 1);
    check(dlog_stop(&dlog) == 0, "the stop");
    return 0;
}

/* `dlog serve` from C: each of so many clients has an item logged and its log synced, and waits for both answers, again and again.
 * One thread writes their requests and takes their answers. Words: the program, an empty folder, how many clients, and how many
 * items each logs. */
#include "../../clients/c/dlog.h"
#include "writers.h"

struct client {
    uint32_t sync;
    long items;
};

static void begin(struct dlog *dlog, struct client *clients, long at)
{
    char item[ITEM_BYTES];
    struct dlog_bytes bytes = { (const uint8_t *)item, sizeof item };
    uint32_t client = (uint32_t)at + 1, tag;

    make_item(item, clients[at].items);
    check(dlog_send_log(dlog, client, "served", &bytes, 1, &tag) == 0, "a log");
    check(dlog_send_sync(dlog, client, "served", &clients[at].sync) == 0, "a sync");
}

static long client_of(const struct client *clients, long count, uint32_t tag)
{
    for (long at = 0; at < count; at++)
        if (clients[at].sync == tag)
            return at;
    return -1;
}

int main(int count, char **words)
{
    struct client clients[MOST_THREADS];
    struct dlog_answer answer;
    struct dlog dlog;
    long clients_count, items, left;
    double start;

    check(count == 5, "the words");
    clients_count = atol(words[3]);
    items = atol(words[4]);
    left = clients_count;
    check(clients_count > 0 && clients_count <= MOST_THREADS && items > 0, "the words");
    check(dlog_start(&dlog, words[1], words[2]) == 0, "the start");
    for (long at = 0; at < clients_count; at++)
        check(dlog_open(&dlog, (uint32_t)at + 1, "served", NULL, &answer) == 0 && answer.kind == DLOG_OPENED, "an open");
    start = now();
    for (long at = 0; at < clients_count; at++) {
        clients[at].items = items;
        begin(&dlog, clients, at);
    }
    while (left > 0) {
        long at;

        check(dlog_receive(&dlog, &answer) == 0 && answer.kind == DLOG_DONE, "an answer");
        at = client_of(clients, clients_count, answer.tag);
        if (at >= 0 && --clients[at].items > 0)
            begin(&dlog, clients, at);
        else if (at >= 0)
            left--;
    }
    printf("dlog_serve_c_%ld: %.0f items/s\n", clients_count, (double)(clients_count * items) / (now() - start));
    check(dlog_stop(&dlog) == 0, "the stop");
    return 0;
}

/* The scenarios of the clients, by the C client. Words: the program, and an empty folder. */
#include "test_c.h"

#include <sys/stat.h>
#include <time.h>

enum { MANY = 100000, AHEAD = 64, ITEM_BYTES = 100 };

const char *program;
static char folder[4096];

static void begin(struct dlog *dlog, const char *parent, const char *name)
{
    snprintf(folder, sizeof folder, "%s/%s", parent, name);
    CHECK(mkdir(folder, 0700) == 0);
    CHECK(dlog_start(dlog, program, folder) == 0);
}

static void items_come_back_in_order(const char *parent)
{
    struct dlog dlog;
    struct dlog_answer answer;
    struct dlog_items items;
    struct dlog_bytes item, two[2];

    begin(&dlog, parent, "order");
    two[0] = bytes_of("first");
    two[1] = bytes_of("second");
    CHECK(dlog_open(&dlog, 1, "words", NULL, &answer) == 0 && answer.kind == DLOG_OPENED);
    CHECK(dlog_log(&dlog, 1, "words", two, 2, &answer) == 0 && answer.kind == DLOG_DONE);
    CHECK(dlog_chunk(&dlog, 1, "words", NULL, 9, &answer) == 0);
    CHECK(dlog_items(&answer, &items) == 0 && items.bad == 0);
    CHECK(dlog_next_item(&items, &item) == 0 && item.length == 5 && memcmp(item.at, "first", 5) == 0);
    CHECK(dlog_next_item(&items, &item) == 0 && item.length == 6);
    CHECK(dlog_next_item(&items, &item) == 1);
    CHECK(dlog_chunk(&dlog, 1, "words", &items.next, 9, &answer) == 0 && answer.kind == DLOG_EOF);
    CHECK(dlog_close(&dlog, 1, "words", &answer) == 0 && answer.kind == DLOG_DONE);
    CHECK(dlog_log(&dlog, 1, "words", two, 2, &answer) == 0 && answer.kind == DLOG_REFUSED + 2);
    CHECK(dlog_stop(&dlog) == 0);
}

static void a_full_log_refuses_and_tells(const char *parent)
{
    struct dlog dlog;
    struct dlog_answer answer;
    struct dlog_options options = { .has_size = 1, .bytes = 40, .notify = 1 };
    struct dlog_bytes item = bytes_of("123456789012345678901234567890");
    uint32_t tag;

    begin(&dlog, parent, "full");
    CHECK(dlog_open(&dlog, 1, "small", &options, &answer) == 0 && answer.kind == DLOG_OPENED);
    CHECK(dlog_send_log(&dlog, 1, "small", &item, 1, &tag) == 0);
    CHECK(dlog_receive(&dlog, &answer) == 0 && answer.tag == tag);
    CHECK(answer.kind == DLOG_REFUSED + 14);
    CHECK(dlog_receive(&dlog, &answer) == 0 && answer.kind == DLOG_NOTICE);
    CHECK(dlog_receive(&dlog, &answer) == 0 && answer.kind == DLOG_NOTICE);
    CHECK(dlog_stop(&dlog) == 0);
}

static void a_wrap_log_rolls(const char *parent)
{
    static const char *const texts[] = { "one-one-", "two-two-", "three---" };
    struct dlog dlog;
    struct dlog_answer answer;
    struct dlog_items items;
    struct dlog_bytes item, head = bytes_of("h");
    struct dlog_options options = { .has_size = 1, .bytes = 40, .files = 2, .notify = 1, .head = &head };
    uint8_t step[5] = { 0, 0, 0, 0, 1 };
    struct dlog_place place = { 1, { 0 } };
    uint32_t tag;

    begin(&dlog, parent, "wrap");
    CHECK(dlog_open(&dlog, 1, "ring", &options, &answer) == 0 && answer.kind == DLOG_OPENED);
    for (int i = 0; i < 3; i++) {
        item = bytes_of(texts[i]);
        CHECK(dlog_send_log(&dlog, 1, "ring", &item, 1, &tag) == 0);
        CHECK(dlog_receive(&dlog, &answer) == 0 && answer.tag == tag && answer.kind == DLOG_DONE);
        if (i > 0)
            CHECK(dlog_receive(&dlog, &answer) == 0 && answer.kind == DLOG_NOTICE);
    }
    CHECK(dlog_call(&dlog, 5, 1, "ring", step, sizeof step, &answer) == 0 && answer.kind == DLOG_AT);
    memcpy(place.bytes, answer.parts, sizeof place.bytes);
    CHECK(dlog_chunk(&dlog, 1, "ring", &place, 9, &answer) == 0 && dlog_items(&answer, &items) == 0);
    CHECK(dlog_next_item(&items, &item) == 0 && item.length == 1 && item.at[0] == 'h');
    options.head = NULL;
    CHECK(dlog_open(&dlog, 1, "ring2", &options, &answer) == 0 && answer.kind == DLOG_OPENED);
    CHECK(dlog_call(&dlog, 5, 1, "ring2", step, sizeof step, &answer) == 0 && answer.kind == DLOG_REFUSED + 22);
    CHECK(dlog_stop(&dlog) == 0);
}

static void a_block_keeps_the_calls_of_others(const char *parent)
{
    struct dlog dlog;
    struct dlog_answer answer;
    struct dlog_bytes item = bytes_of("late");
    uint32_t tag;

    begin(&dlog, parent, "block");
    CHECK(dlog_open(&dlog, 1, "shared", NULL, &answer) == 0 && answer.kind == DLOG_OPENED);
    CHECK(dlog_block(&dlog, 1, "shared", 1, &answer) == 0 && answer.kind == DLOG_DONE);
    CHECK(dlog_send_log(&dlog, 2, "shared", &item, 1, &tag) == 0);
    CHECK(dlog_chunk(&dlog, 1, "shared", NULL, 9, &answer) == 0 && answer.kind == DLOG_EOF);
    CHECK(dlog_unblock(&dlog, 1, "shared", &answer) == 0 && answer.kind == DLOG_DONE);
    CHECK(dlog_receive(&dlog, &answer) == 0 && answer.tag == tag && answer.kind == DLOG_DONE);
    CHECK(dlog_stop(&dlog) == 0);
}

static void a_held_log_has_no_more_than_its_blocks(const char *parent)
{
    static const uint8_t one[5] = { 1, 0, 0, 0, 1 };
    struct dlog dlog;
    struct dlog_answer answer;
    struct dlog_options options = { .hold = 1 };
    struct dlog_bytes item = bytes_of("item");

    begin(&dlog, parent, "held");
    CHECK(dlog_open(&dlog, 1, "held", &options, &answer) == 0 && answer.kind == DLOG_OPENED);
    CHECK(dlog_log(&dlog, 1, "held", &item, 1, &answer) == 0 && answer.kind == DLOG_DONE);
    options.hold = 2;
    CHECK(dlog_open(&dlog, 2, "held", &options, &answer) == 0);
    CHECK(answer.kind == DLOG_REFUSED + 4 && answer.length == 1 && answer.parts[0] == 9);
    CHECK(dlog_open(&dlog, 2, "held", NULL, &answer) == 0 && answer.kind == DLOG_OPENED);
    CHECK(dlog_call(&dlog, 13, 2, "held", NULL, 0, &answer) == 0 && answer.kind == DLOG_INFO);
    CHECK(answer.length > sizeof one);
    CHECK(memcmp(answer.parts + answer.length - sizeof one, one, sizeof one) == 0);
    CHECK(dlog_stop(&dlog) == 0);
}

static double now(void)
{
    struct timespec time;

    clock_gettime(CLOCK_MONOTONIC, &time);
    return (double)time.tv_sec + (double)time.tv_nsec / 1e9;
}

static void a_hundred_thousand_items_pipelined(const char *parent)
{
    struct dlog dlog;
    struct dlog_answer answer;
    struct dlog_items items;
    struct dlog_bytes item;
    struct dlog_place place = { 0, { 0 } };
    char text[ITEM_BYTES + 1];
    int sent = 0, answered = 0, read = 0;
    double start;

    begin(&dlog, parent, "many");
    CHECK(dlog_open(&dlog, 1, "many", NULL, &answer) == 0 && answer.kind == DLOG_OPENED);
    start = now();
    while (answered < MANY) {
        uint32_t tag;

        for (; sent < MANY && sent < answered + AHEAD; sent++) {
            snprintf(text, sizeof text, "%0*d", ITEM_BYTES, sent);
            item = bytes_of(text);
            CHECK(dlog_send_log(&dlog, 1, "many", &item, 1, &tag) == 0);
        }
        CHECK(dlog_receive(&dlog, &answer) == 0 && answer.kind == DLOG_DONE);
        answered++;
    }
    printf("  %.0f items of 100 bytes a second\n", MANY / (now() - start));
    for (;;) {
        CHECK(dlog_chunk(&dlog, 1, "many", &place, 4096, &answer) == 0);
        if (answer.kind == DLOG_EOF)
            break;
        CHECK(dlog_items(&answer, &items) == 0);
        place = items.next;
        for (; dlog_next_item(&items, &item) == 0; read++) {
            snprintf(text, sizeof text, "%0*d", ITEM_BYTES, read);
            CHECK(item.length == ITEM_BYTES && memcmp(item.at, text, ITEM_BYTES) == 0);
        }
    }
    CHECK(read == MANY);
    CHECK(dlog_stop(&dlog) == 0);
}

static void what_was_synced_stays_after_a_kill(const char *parent)
{
    struct dlog dlog;
    struct dlog_answer answer;
    struct dlog_items items;
    struct dlog_bytes item = bytes_of("synced");

    begin(&dlog, parent, "kill");
    CHECK(dlog_open(&dlog, 1, "kept", NULL, &answer) == 0 && answer.kind == DLOG_OPENED);
    CHECK(dlog_log(&dlog, 1, "kept", &item, 1, &answer) == 0 && answer.kind == DLOG_DONE);
    CHECK(dlog_sync(&dlog, 1, "kept", &answer) == 0 && answer.kind == DLOG_DONE);
    dlog_kill(&dlog);
    CHECK(dlog_start(&dlog, program, folder) == 0);
    CHECK(dlog_open(&dlog, 1, "kept", NULL, &answer) == 0 && answer.kind == DLOG_REPAIRED);
    CHECK(dlog_chunk(&dlog, 1, "kept", NULL, 9, &answer) == 0 && dlog_items(&answer, &items) == 0);
    CHECK(dlog_next_item(&items, &item) == 0 && item.length == 6);
    CHECK(dlog_stop(&dlog) == 0);
}

static void what_is_no_request_is_told(const char *parent)
{
    static const struct { uint8_t op; size_t length; uint8_t place; } wrong[] = { { 200, 0, 4 }, { 2, 0, 11 }, { 13, 1, 11 } };
    struct dlog dlog;
    struct dlog_answer answer;
    struct dlog_bytes item = bytes_of("still there");

    begin(&dlog, parent, "wrong");
    CHECK(dlog_open(&dlog, 1, "a", NULL, &answer) == 0 && answer.kind == DLOG_OPENED);
    for (size_t i = 0; i < sizeof wrong / sizeof *wrong; i++) {
        CHECK(dlog_call(&dlog, wrong[i].op, 1, "a", "x", wrong[i].length, &answer) == 0);
        CHECK(answer.kind == DLOG_BAD_FRAME && answer.length == 4 && answer.parts[3] == wrong[i].place);
    }
    CHECK(dlog_log(&dlog, 1, "a", &item, 1, &answer) == 0 && answer.kind == DLOG_DONE);
    CHECK(dlog_stop(&dlog) == 0);
}

static void many_clients_stop_in_order(const char *parent)
{
    struct dlog dlog;
    struct dlog_answer answer;
    struct dlog_items items;
    struct dlog_bytes item = bytes_of("one item");
    char name[16];

    begin(&dlog, parent, "clients");
    for (uint32_t client = 1; client < 50; client++) {
        snprintf(name, sizeof name, "log%u", client);
        CHECK(dlog_open(&dlog, client, name, NULL, &answer) == 0 && answer.kind == DLOG_OPENED);
        CHECK(dlog_log(&dlog, client, name, &item, 1, &answer) == 0 && answer.kind == DLOG_DONE);
    }
    CHECK(dlog_stop(&dlog) == 0);
    CHECK(dlog_start(&dlog, program, folder) == 0);
    for (uint32_t number = 1; number < 50; number++) {
        snprintf(name, sizeof name, "log%u", number);
        CHECK(dlog_open(&dlog, 7, name, NULL, &answer) == 0 && answer.kind == DLOG_OPENED);
        CHECK(dlog_chunk(&dlog, 7, name, NULL, 9, &answer) == 0 && dlog_items(&answer, &items) == 0);
        CHECK(items.left == 1);
    }
    CHECK(dlog_stop(&dlog) == 0);
}

static const struct scenario scenarios[] = {
    { "items come back in order", items_come_back_in_order },
    { "a full log refuses and tells", a_full_log_refuses_and_tells },
    { "a wrap log rolls", a_wrap_log_rolls },
    { "a block keeps the calls of others", a_block_keeps_the_calls_of_others },
    { "a held log has no more than its blocks", a_held_log_has_no_more_than_its_blocks },
    { "a hundred thousand items pipelined", a_hundred_thousand_items_pipelined },
    { "what was synced stays after a kill", what_was_synced_stays_after_a_kill },
    { "what is no request is told", what_is_no_request_is_told },
    { "many clients stop in order", many_clients_stop_in_order },
    { NULL, NULL },
};

static void run(const struct scenario *each, const char *parent)
{
    for (; each->name != NULL; each++) {
        each->run(parent);
        printf("c: %s\n", each->name);
        fflush(stdout);
    }
}

int main(int count, char **words)
{
    CHECK(count == 3);
    program = words[1];
    run(scenarios, words[2]);
    run(ends, words[2]);
    run(devices, words[2]);
    return 0;
}

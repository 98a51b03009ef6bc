/* Frames: requests as they are written, and answers as they are read. */
#include "dlog_private.h"

#include <errno.h>
#include <stdlib.h>
#include <string.h>
#include <unistd.h>

enum { NONE = 255 /* no kind of an answer */ };

/* ---- bytes that are to be sent */

int dlog_add(struct dlog *dlog, const void *bytes, size_t length)
{
    struct dlog_server *server = dlog->server;

    if (server == NULL || server->has_ended)
        return dlog_gone(dlog);
    if (server->out_room - server->out_length < length) {
        size_t room = 2 * (server->out_length + length);
        uint8_t *out = realloc(server->out, room);

        if (out == NULL)
            return dlog_fail(dlog, DLOG_EXHAUSTED, "out of memory");
        server->out = out;
        server->out_room = room;
    }
    if (length > 0)
        memcpy(server->out + server->out_length, bytes, length);
    server->out_length += length;
    return 0;
}

void dlog_put(uint8_t *bytes, uint64_t number, int count)
{
    while (count-- > 0) {
        bytes[count] = (uint8_t)number;
        number >>= 8;
    }
}

int dlog_add_number(struct dlog *dlog, uint64_t number, int count)
{
    uint8_t bytes[8];

    dlog_put(bytes, number, count);
    return dlog_add(dlog, bytes, (size_t)count);
}

int dlog_add_name(struct dlog *dlog, const char *text)
{
    static const char letters[] = "ABCDEFGHIJKLMNOPQRSTUVWXYZabcdefghijklmnopqrstuvwxyz0123456789_-";
    size_t length = strlen(text);
    int fault;

    if (length == 0 || length > DLOG_NAME_LIMIT || strspn(text, letters) != length)
        return dlog_fail(dlog, DLOG_INVALID, "the name \"%.80s\": a name is 1 to %d of A-Z a-z 0-9 _ -",
                         text, DLOG_NAME_LIMIT);
    fault = dlog_add_number(dlog, length, 1);
    return fault != 0 ? fault : dlog_add(dlog, text, length);
}

int dlog_add_item(struct dlog *dlog, const struct dlog_bytes *item)
{
    int fault;

    if (item->length > DLOG_ITEM_LIMIT)
        return dlog_fail(dlog, DLOG_INVALID, "an item of %zu bytes: an item has at most %d",
                         item->length, DLOG_ITEM_LIMIT);
    fault = dlog_add_number(dlog, item->length, 4);
    return fault != 0 ? fault : dlog_add(dlog, item->at, item->length);
}

int dlog_begin(struct dlog *dlog, uint8_t op, uint32_t client, const char *name)
{
    int fault = dlog_hold(dlog);

    if (fault != 0)
        return fault;
    dlog->start = dlog->server->out_length;
    fault = dlog_add_number(dlog, 0, 8);
    if (fault == 0)
        fault = dlog_add_number(dlog, op, 1);
    if (fault == 0 && name != NULL)
        fault = dlog_add_number(dlog, client, 4);
    return fault == 0 && name != NULL ? dlog_add_name(dlog, name) : fault;
}

/* Sets the length and the tag of a whole request. */
static int seal(struct dlog *dlog, uint32_t *tag)
{
    struct dlog_server *server = dlog->server;
    size_t length = server->out_length - dlog->start - 4;

    if (length > server->frame_limit)
        return dlog_fail(dlog, DLOG_INVALID, "a request of %zu bytes: it has at most %lu", length,
                         (unsigned long)server->frame_limit);
    dlog_put(server->out + dlog->start, length, 4);
    if (tag == NULL)
        return 0;
    if (++server->tag == 0)
        server->tag = 1;
    *tag = server->tag;
    dlog_put(server->out + dlog->start + 4, *tag, 4);
    return 0;
}

int dlog_end(struct dlog *dlog, int fault, uint32_t *tag)
{
    struct dlog_server *server = dlog->server;

    if (server == NULL)
        return fault;
    if (fault == 0)
        fault = seal(dlog, tag);
    if (fault != 0 && server->out_length > dlog->start)
        server->out_length = dlog->start;
    dlog_release(dlog);
    return fault;
}

int dlog_write_all(struct dlog *dlog)
{
    struct dlog_server *server = dlog->server;
    int fault = 0;

    while (server->out_at < server->out_length && fault == 0) {
        ssize_t count = write(server->input, server->out + server->out_at, server->out_length - server->out_at);

        if (count > 0)
            server->out_at += (size_t)count;
        else if (count < 0 && errno != EINTR)
            fault = dlog_wait(dlog, errno == EAGAIN);
    }
    if (server->out_at == server->out_length)
        server->out_at = server->out_length = 0;
    return fault;
}

int dlog_flush(struct dlog *dlog)
{
    int fault = dlog_hold(dlog);

    if (fault != 0)
        return fault;
    dlog_begin_time(dlog);
    fault = dlog_write_all(dlog);
    dlog_release(dlog);
    return fault;
}

/* ---- answers */

uint64_t dlog_number_at(const uint8_t *bytes, int count)
{
    uint64_t number = 0;

    for (int i = 0; i < count; i++)
        number = number << 8 | bytes[i];
    return number;
}

/* Takes a frame, whose parts are copied, and passes over those at the front that were taken. */
static int take_frame(struct dlog *dlog, uint8_t *frame, struct dlog_answer *answer)
{
    struct dlog_server *server = dlog->server;
    size_t length = 4 + (size_t)dlog_number_at(frame, 4) - FRAME_BYTES;

    if (length > dlog->kept_room) {
        uint8_t *kept = realloc(dlog->kept, length);

        if (kept == NULL)
            return dlog_fail(dlog, DLOG_EXHAUSTED, "out of memory");
        dlog->kept = kept;
        dlog->kept_room = length;
    }
    if (length > 0)
        memcpy(dlog->kept, frame + FRAME_BYTES, length);
    *answer = (struct dlog_answer){ (uint32_t)dlog_number_at(frame + 4, 4), frame[8], dlog->kept, length };
    memset(frame + 4, 0, FRAME_BYTES - 4);
    while (server->in_at < server->in_seen && dlog_number_at(server->in + server->in_at + 4, 5) == 0)
        server->in_at += 4 + (size_t)dlog_number_at(server->in + server->in_at, 4);
    return 0;
}

/* Takes the answer of a tag, or with a tag of 0 the first that is there. Notices before an answer are
 * passed over for it. Where it is not there yet the answer has the kind NONE. */
static int take(struct dlog *dlog, uint32_t tag, struct dlog_answer *answer)
{
    struct dlog_server *server = dlog->server;
    int fault = 0;

    answer->kind = NONE;
    for (size_t at = server->in_at; at < server->in_seen && answer->kind == NONE && fault == 0;) {
        uint8_t *frame = server->in + at;
        size_t length = 4 + (size_t)dlog_number_at(frame, 4);
        uint32_t its = (uint32_t)dlog_number_at(frame + 4, 4);

        if (tag == 0 ? its != 0 || frame[8] != 0 : its == tag)
            fault = take_frame(dlog, frame, answer);
        else if (frame[8] == DLOG_NOTICE)
            memset(frame + 4, 0, FRAME_BYTES - 4);
        at += length;
    }
    if (answer->kind == NONE && server->has_form_fault)
        return dlog_fail(dlog, DLOG_FORM, "an answer of less than %d bytes", FRAME_BYTES - 4);
    return fault;
}

/* Waits for the answer of a tag, or, of 0, for the next one. Others stay where they are. */
static int await(struct dlog *dlog, uint32_t tag, struct dlog_answer *answer)
{
    int fault = dlog_hold(dlog), taken;

    if (fault != 0)
        return fault;
    dlog_begin_time(dlog);
    dlog->awaited = tag;
    fault = dlog_write_all(dlog);
    while ((taken = take(dlog, tag, answer)) == 0 && answer->kind == NONE && fault == 0)
        fault = dlog_wait(dlog, 0);
    dlog_release(dlog);
    return taken == 0 && answer->kind == NONE ? fault : taken;
}

int dlog_receive(struct dlog *dlog, struct dlog_answer *answer)
{
    return await(dlog, 0, answer);
}

int dlog_answer(struct dlog *dlog, uint32_t tag, struct dlog_answer *answer)
{
    return await(dlog, tag, answer);
}

int dlog_items(const struct dlog_answer *answer, struct dlog_items *items)
{
    if (answer->kind != DLOG_ITEMS || answer->length < DLOG_PLACE_BYTES + 12)
        return DLOG_FORM;
    items->next.given = 1;
    memcpy(items->next.bytes, answer->parts, DLOG_PLACE_BYTES);
    items->bad = dlog_number_at(answer->parts + DLOG_PLACE_BYTES, 8);
    items->left = (uint32_t)dlog_number_at(answer->parts + DLOG_PLACE_BYTES + 8, 4);
    items->at = answer->parts + DLOG_PLACE_BYTES + 12;
    items->length = answer->length - DLOG_PLACE_BYTES - 12;
    return 0;
}

int dlog_next_item(struct dlog_items *items, struct dlog_bytes *item)
{
    if (items->left == 0)
        return 1;
    if (items->length < 4)
        return DLOG_FORM;
    item->length = (size_t)dlog_number_at(items->at, 4);
    item->at = items->at + 4;
    if (item->length > items->length - 4)
        return DLOG_FORM;
    items->at += 4 + item->length;
    items->length -= 4 + item->length;
    items->left--;
    return 0;
}

/* The calls. */
#include "dlog_private.h"

#include <string.h>

enum { OP_OPEN = 1, OP_LOG = 2, OP_CHUNK = 4, OP_SYNC = 10, OP_BLOCK = 11, OP_UNBLOCK = 12,
       OP_CLOSE = 14 };

int dlog_send(struct dlog *dlog, uint8_t op, uint32_t client, const char *name,
              const void *parts, size_t length, uint32_t *tag)
{
    int fault = dlog_begin(dlog, op, client, name);

    if (fault == 0)
        fault = dlog_add(dlog, parts, length);
    return dlog_end(dlog, fault, tag);
}

int dlog_call(struct dlog *dlog, uint8_t op, uint32_t client, const char *name,
              const void *parts, size_t length, struct dlog_answer *answer)
{
    uint32_t tag;
    int fault = dlog_send(dlog, op, client, name, parts, length, &tag);

    return fault != 0 ? fault : dlog_answer(dlog, tag, answer);
}

static int add_size(struct dlog *dlog, const struct dlog_options *options)
{
    int form = options->files > 0 ? 2 : options->bytes > 0 ? 1 : 0;
    int fault = dlog_add_number(dlog, options->has_size != 0, 1);

    if (fault == 0 && options->has_size)
        fault = dlog_add_number(dlog, (uint64_t)form, 1);
    if (fault == 0 && options->has_size && form > 0)
        fault = dlog_add_number(dlog, options->bytes, 8);
    if (fault == 0 && options->has_size && form > 1)
        fault = dlog_add_number(dlog, options->files, 4);
    return fault;
}

static int add_options(struct dlog *dlog, const struct dlog_options *options)
{
    int fault = dlog_add_number(dlog, options->wrap || options->files > 0, 1);

    if (fault == 0)
        fault = dlog_add_number(dlog, options->base != NULL, 1);
    if (fault == 0 && options->base != NULL)
        fault = dlog_add_name(dlog, options->base);
    if (fault == 0)
        fault = add_size(dlog, options);
    if (fault == 0)
        fault = dlog_add_number(dlog, options->read_only != 0, 1);
    if (fault == 0)
        fault = dlog_add_number(dlog, (uint64_t)options->repair, 1);
    if (fault == 0)
        fault = dlog_add_number(dlog, options->head != NULL, 1);
    if (fault == 0 && options->head != NULL)
        fault = dlog_add_item(dlog, options->head);
    if (fault == 0)
        fault = dlog_add(dlog, (uint8_t[]){ options->notify != 0, options->anonymous != 0, options->hold > 0 }, 3);
    if (fault == 0 && options->hold > 0)
        fault = dlog_add_number(dlog, options->hold, 4);
    return fault;
}

int dlog_open(struct dlog *dlog, uint32_t client, const char *name,
              const struct dlog_options *options, struct dlog_answer *answer)
{
    static const struct dlog_options plain;
    uint32_t tag;
    int fault = dlog_begin(dlog, OP_OPEN, client, name);

    if (fault == 0)
        fault = add_options(dlog, options != NULL ? options : &plain);
    fault = dlog_end(dlog, fault, &tag);
    return fault != 0 ? fault : dlog_answer(dlog, tag, answer);
}

static int add_items(struct dlog *dlog, const struct dlog_bytes *items, uint32_t count)
{
    int fault;

    if (count == 0)
        return dlog_fail(dlog, DLOG_INVALID, "a call of no items: it has at least one");
    fault = dlog_add_number(dlog, count, 4);
    for (uint32_t i = 0; i < count && fault == 0; i++)
        fault = dlog_add_item(dlog, &items[i]);
    return fault;
}

int dlog_send_log(struct dlog *dlog, uint32_t client, const char *name,
                  const struct dlog_bytes *items, uint32_t count, uint32_t *tag)
{
    int fault = dlog_begin(dlog, OP_LOG, client, name);

    if (fault == 0)
        fault = add_items(dlog, items, count);
    return dlog_end(dlog, fault, tag);
}

int dlog_log(struct dlog *dlog, uint32_t client, const char *name,
             const struct dlog_bytes *items, uint32_t count, struct dlog_answer *answer)
{
    uint32_t tag;
    int fault = dlog_send_log(dlog, client, name, items, count, &tag);

    return fault != 0 ? fault : dlog_answer(dlog, tag, answer);
}

int dlog_send_chunk(struct dlog *dlog, uint32_t client, const char *name,
                    const struct dlog_place *place, uint64_t most, uint32_t *tag)
{
    uint8_t parts[1 + DLOG_PLACE_BYTES + 8];
    size_t length = 1;

    parts[0] = place != NULL && place->given;
    if (parts[0]) {
        memcpy(parts + 1, place->bytes, DLOG_PLACE_BYTES);
        length += DLOG_PLACE_BYTES;
    }
    dlog_put(parts + length, most, 8);
    return dlog_send(dlog, OP_CHUNK, client, name, parts, length + 8, tag);
}

int dlog_chunk(struct dlog *dlog, uint32_t client, const char *name,
               const struct dlog_place *place, uint64_t most, struct dlog_answer *answer)
{
    uint32_t tag;
    int fault = dlog_send_chunk(dlog, client, name, place, most, &tag);

    return fault != 0 ? fault : dlog_answer(dlog, tag, answer);
}

int dlog_send_sync(struct dlog *dlog, uint32_t client, const char *name, uint32_t *tag)
{
    return dlog_send(dlog, OP_SYNC, client, name, NULL, 0, tag);
}

int dlog_sync(struct dlog *dlog, uint32_t client, const char *name, struct dlog_answer *answer)
{
    return dlog_call(dlog, OP_SYNC, client, name, NULL, 0, answer);
}

int dlog_close(struct dlog *dlog, uint32_t client, const char *name, struct dlog_answer *answer)
{
    return dlog_call(dlog, OP_CLOSE, client, name, NULL, 0, answer);
}

int dlog_block(struct dlog *dlog, uint32_t client, const char *name, int queue,
               struct dlog_answer *answer)
{
    uint8_t flag = queue != 0;

    return dlog_call(dlog, OP_BLOCK, client, name, &flag, 1, answer);
}

int dlog_unblock(struct dlog *dlog, uint32_t client, const char *name, struct dlog_answer *answer)
{
    return dlog_call(dlog, OP_UNBLOCK, client, name, NULL, 0, answer);
}

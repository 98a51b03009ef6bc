/* The call that syncs many logs. */
#include "dlog_private.h"

#include <string.h>

enum { OP_SYNC_ALL = 18, BAD_ARG = 1, ARG_MISMATCH = 4, SIZE_MISMATCH = 5, FILE_IN_USE = 8, NOT_A_LOG_FILE = 10,
       NEW_SIZE_TOO_SMALL = 19, CORRUPT_LOG_FILE = 23, DEVICE_FAULT = 24 };

int dlog_sync_all(struct dlog *dlog, uint32_t client, const char *const *names, uint32_t count,
                  struct dlog_answer *answer)
{
    uint32_t tag;
    int fault = dlog_begin(dlog, OP_SYNC_ALL, 0, NULL);

    if (fault == 0)
        fault = dlog_add_number(dlog, client, 4);
    if (fault == 0)
        fault = dlog_add_number(dlog, count, 4);
    for (uint32_t i = 0; i < count && fault == 0; i++)
        fault = dlog_add_name(dlog, names[i]);
    fault = dlog_end(dlog, fault, &tag);
    return fault != 0 ? fault : dlog_answer(dlog, tag, answer);
}

int dlog_unsynced(const struct dlog_answer *answer, struct dlog_unsynced *unsynced)
{
    if (answer->kind != DLOG_UNSYNCED || answer->length < 4)
        return DLOG_FORM;
    unsynced->left = (uint32_t)dlog_number_at(answer->parts, 4);
    unsynced->at = answer->parts + 4;
    unsynced->length = answer->length - 4;
    return 0;
}

/* How many bytes a text, or a size, has that begins there; more than are there if it is cut short. */
static size_t text_length(const uint8_t *at, size_t length)
{
    return 1 + (length > 0 ? at[0] : 0);
}

static size_t size_length(const uint8_t *at, size_t length)
{
    return length == 0 || at[0] == 0 ? 1 : at[0] == 1 ? 9 : 13;
}

static size_t sizes_length(const uint8_t *at, size_t length)
{
    size_t first = size_length(at, length);

    return first + (first < length ? size_length(at + first, length - first) : 1);
}

static size_t file_length(const uint8_t *at, size_t length)
{
    size_t base = text_length(at, length);

    return base + (base < length && at[base] == 2 ? 5 : 1);
}

/* How many bytes the parts of an answer have. */
static size_t parts_length(uint8_t kind, const uint8_t *at, size_t length)
{
    switch (kind - DLOG_REFUSED) {
    case BAD_ARG:
    case ARG_MISMATCH:
        return 1;
    case SIZE_MISMATCH:
        return sizes_length(at, length);
    case FILE_IN_USE:
        return text_length(at, length);
    case NOT_A_LOG_FILE:
    case DEVICE_FAULT:
        return file_length(at, length);
    case NEW_SIZE_TOO_SMALL:
        return 8;
    case CORRUPT_LOG_FILE:
        return 4;
    default:
        return 0;
    }
}

int dlog_next_unsynced(struct dlog_unsynced *unsynced, char name[DLOG_NAME_LIMIT + 1],
                       struct dlog_answer *its)
{
    size_t front = text_length(unsynced->at, unsynced->length) + 1, parts;

    if (unsynced->left == 0)
        return 1;
    if (front > unsynced->length || front - 2 > DLOG_NAME_LIMIT)
        return DLOG_FORM;
    memcpy(name, unsynced->at + 1, front - 2);
    name[front - 2] = 0;
    its->kind = unsynced->at[front - 1];
    parts = parts_length(its->kind, unsynced->at + front, unsynced->length - front);
    if (parts > unsynced->length - front)
        return DLOG_FORM;
    its->tag = 0;
    its->parts = unsynced->at + front;
    its->length = parts;
    unsynced->at += front + parts;
    unsynced->length -= front + parts;
    unsynced->left--;
    return 0;
}

/* What the server knows: which logs are open, and why the device failed. */
#include "dlog_private.h"

#include <stdio.h>
#include <string.h>

enum { OP_REASON = 19, OP_LOGS = 20, INDEX = 1, NUMBERED = 2 };

/* Takes a text from the front of some bytes. */
static int take_text(const uint8_t **at, size_t *length, char name[DLOG_NAME_LIMIT + 1])
{
    size_t count = *length > 0 ? (*at)[0] : 0;

    if (*length < 1 + count || count > DLOG_NAME_LIMIT)
        return DLOG_FORM;
    memcpy(name, *at + 1, count);
    name[count] = 0;
    *at += 1 + count;
    *length -= 1 + count;
    return 0;
}

/* ---- logs */

int dlog_logs(struct dlog *dlog, struct dlog_answer *answer)
{
    return dlog_call(dlog, OP_LOGS, 0, NULL, NULL, 0, answer);
}

int dlog_names(const struct dlog_answer *answer, struct dlog_names *names)
{
    if (answer->kind != DLOG_LOGS || answer->length < 4)
        return DLOG_FORM;
    names->left = (uint32_t)dlog_number_at(answer->parts, 4);
    names->at = answer->parts + 4;
    names->length = answer->length - 4;
    return 0;
}

int dlog_next_name(struct dlog_names *names, char name[DLOG_NAME_LIMIT + 1])
{
    if (names->left == 0)
        return 1;
    names->left--;
    return take_text(&names->at, &names->length, name);
}

/* ---- reasons */

/* Takes a file from the front of some bytes: a base, and which of its files. */
static int take_file(const uint8_t **at, size_t *length, char file[DLOG_FILE_LIMIT + 1])
{
    char base[DLOG_NAME_LIMIT + 1];
    size_t part;

    if (take_text(at, length, base) != 0 || *length < 1)
        return DLOG_FORM;
    part = (*at)[0] == NUMBERED ? 5 : 1;
    if (*length < part)
        return DLOG_FORM;
    if ((*at)[0] == NUMBERED)
        snprintf(file, DLOG_FILE_LIMIT + 1, "%s.%lu", base, (unsigned long)dlog_number_at(*at + 1, 4));
    else
        snprintf(file, DLOG_FILE_LIMIT + 1, "%s.%s", base, (*at)[0] == INDEX ? "idx" : "log");
    *at += part;
    *length -= part;
    return 0;
}

/* Reads the reason of an answer. Returns 1 if it has none. */
static int read_reason(const struct dlog_answer *answer, struct dlog_reason *reason)
{
    const uint8_t *at = answer->parts + 1;
    size_t length = answer->length - 1;

    if (answer->kind != DLOG_REASON || answer->length < 1)
        return DLOG_FORM;
    if (answer->parts[0] == 0)
        return 1;
    if (take_file(&at, &length, reason->file) != 0 || length < 5)
        return DLOG_FORM;
    reason->cause = at[0];
    reason->number = (int32_t)dlog_number_at(at + 1, 4);
    return 0;
}

int dlog_reason(struct dlog *dlog, const struct dlog_answer *refused, struct dlog_reason *reason)
{
    char file[DLOG_FILE_LIMIT + 1];
    struct dlog_answer answer;
    const uint8_t *at = refused->parts;
    size_t length = refused->length;
    int fault;

    memset(reason, 0, sizeof *reason);
    if (refused->kind != DLOG_REFUSED + 24 || take_file(&at, &length, file) != 0)
        return dlog_fail(dlog, DLOG_INVALID, "the answer is no fault of the device");
    fault = dlog_call(dlog, OP_REASON, 0, NULL, NULL, 0, &answer);
    if (fault == 0)
        fault = read_reason(&answer, reason);
    if (fault == DLOG_FORM)
        return dlog_fail(dlog, DLOG_FORM, "an answer has no form of the protocol");
    return fault == 0 && strcmp(file, reason->file) != 0 ? 1 : fault;
}

const char *dlog_reason_words(const struct dlog_reason *reason)
{
    switch (reason->cause) {
    case DLOG_BY_SYSTEM:
        return strerror(reason->number);
    case DLOG_BY_MEMORY:
        return "out of memory";
    case DLOG_NOT_PLAIN:
        return "it is a link, a folder or a pipe, and no plain file";
    case DLOG_SHORTER:
        return "it is shorter than it was left";
    case DLOG_EARLIER_SYNC:
        return "an earlier sync of it failed";
    default:
        return "the system gave no reason";
    }
}

/* What the files of the C scenarios share. */
#ifndef TEST_C_H
#define TEST_C_H

#include "../c/dlog.h"

#include <stdio.h>
#include <stdlib.h>
#include <string.h>

#define CHECK(fact)                                                         \
    do {                                                                    \
        if (!(fact)) {                                                      \
            fprintf(stderr, "c: %s:%d: %s\n", __func__, __LINE__, #fact);   \
            exit(1);                                                        \
        }                                                                   \
    } while (0)

extern const char *program;

static inline struct dlog_bytes bytes_of(const char *text)
{
    struct dlog_bytes bytes = { (const uint8_t *)text, strlen(text) };

    return bytes;
}

struct scenario {
    const char *name;
    void (*run)(const char *parent);
};

/* The scenarios of how a server starts and ends, and of devices, each up to one without a name. */
extern const struct scenario ends[];
extern const struct scenario devices[];

/* Makes a folder for a scenario, and returns its path. */
const char *make(char *folder, const char *parent, const char *name);

/* Calls that have to succeed, of client 1: an open that is answered so, a log of a text, which may also meet a fault, and how many
 * items a log has. */
void open_log(struct dlog *dlog, const char *name, uint8_t kind);
int log_item(struct dlog *dlog, const char *name, const char *text);
int count_items(struct dlog *dlog, const char *name);

#endif

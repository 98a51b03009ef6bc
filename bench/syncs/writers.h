/* What the peers share: an item of 100 bytes, threads that each write some, and the line that is printed.
 * Words of each program: an empty folder, a number of threads, and how many items each thread writes. */
#ifndef WRITERS_H
#define WRITERS_H

#include <pthread.h>
#include <stdio.h>
#include <stdlib.h>
#include <string.h>
#include <time.h>

enum { ITEM_BYTES = 100, MOST_THREADS = 64 };

static inline double now(void)
{
    struct timespec time;

    clock_gettime(CLOCK_MONOTONIC, &time);
    return (double)time.tv_sec + (double)time.tv_nsec / 1e9;
}

static inline void check(int holds, const char *what)
{
    if (!holds) {
        fprintf(stderr, "bench: %s failed\n", what);
        exit(1);
    }
}

static inline void make_item(char *item, long number)
{
    memset(item, 'x', ITEM_BYTES);
    memcpy(item, &number, sizeof number);
}

struct writer {
    pthread_t thread;
    long number;
    long items;
    const char *folder;
};

/* Has each thread write its items, and prints how many a second that were. */
static inline void time_writers(const char *name, char **words, void *(*write)(void *))
{
    struct writer writers[MOST_THREADS];
    long count = atol(words[2]), items = atol(words[3]);
    double start;

    check(count > 0 && count <= MOST_THREADS && items > 0, "the words");
    start = now();
    for (long at = 0; at < count; at++) {
        writers[at].number = at;
        writers[at].items = items;
        writers[at].folder = words[1];
        check(pthread_create(&writers[at].thread, NULL, write, &writers[at]) == 0, "a thread");
    }
    for (long at = 0; at < count; at++)
        check(pthread_join(writers[at].thread, NULL) == 0, "a thread");
    printf("%s_%ld: %.0f items/s\n", name, count, (double)(count * items) / (now() - start));
}

#endif

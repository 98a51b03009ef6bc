/* A device that takes two milliseconds to sync, put before a program: fsync and fdatasync wait so long and ask no device.
 *
 *   cc -O2 -shared -fPIC -o slow_sync.so bench/slow_sync.c
 *   LD_PRELOAD=$PWD/slow_sync.so PROGRAM ..
 *
 * SLOW_SYNC_US sets another number of microseconds. With SLOW_SYNC_COUNT the number of syncs is written to standard error as the
 * program ends. What a power cut leaves is not what a sync promises then: it is for measuring alone. */
#include <stdatomic.h>
#include <stdio.h>
#include <stdlib.h>
#include <time.h>

enum { MICROSECONDS = 2000 };

static atomic_long syncs;

static int wait_for_device(void)
{
    const char *word = getenv("SLOW_SYNC_US");
    long wait = word != NULL ? atol(word) : MICROSECONDS;
    struct timespec time = { wait / 1000000, wait % 1000000 * 1000 };

    nanosleep(&time, NULL);
    atomic_fetch_add(&syncs, 1);
    return 0;
}

int fsync(int file)
{
    (void)file;
    return wait_for_device();
}

int fdatasync(int file)
{
    (void)file;
    return wait_for_device();
}

__attribute__((destructor)) static void write_count(void)
{
    if (getenv("SLOW_SYNC_COUNT") != NULL)
        fprintf(stderr, "syncs of the device: %ld\n", atomic_load(&syncs));
}

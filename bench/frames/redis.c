/* How many items of 100 bytes a second a Redis list takes over a unix socket, one call at a time and with 64 under way; its file
 * is synced each second. Words: the program redis-server, an empty folder, and a number of items. Prints `name: items a second`. */
#include <hiredis/hiredis.h>
#include <signal.h>
#include <stdio.h>
#include <stdlib.h>
#include <string.h>
#include <sys/wait.h>
#include <time.h>
#include <unistd.h>

enum { ITEM_BYTES = 100, AHEAD = 64, ROUND = 20, TRIES = 5000 };

static double now(void)
{
    struct timespec time;

    clock_gettime(CLOCK_MONOTONIC, &time);
    return (double)time.tv_sec + (double)time.tv_nsec / 1e9;
}

static redisContext *start(const char *program, const char *folder, const char *socket)
{
    for (int i = 0; i < TRIES; i++, usleep(1000)) {
        redisContext *context = redisConnectUnix(socket);

        if (context != NULL && context->err == 0)
            return context;
        if (context != NULL)
            redisFree(context);
        if (i > 0)
            continue;
        if (fork() == 0) {
            freopen("/dev/null", "w", stdout);
            execlp(program, program, "--port", "0", "--unixsocket", socket, "--dir", folder, "--appendonly", "yes",
                   "--appendfsync", "everysec", "--save", "", "--auto-aof-rewrite-percentage", "0", (char *)NULL);
            _exit(127);
        }
    }
    exit(1);
}

static void run(redisContext *context, const char *list, const char *name, long count, long ahead)
{
    char text[ITEM_BYTES];
    long sent = 0, answered = 0;
    double start = now();

    memset(text, 'z', sizeof text);
    while (answered < count) {
        for (; sent < count && sent < answered + ahead; sent++) {
            memcpy(text, &sent, sizeof sent);
            redisAppendCommand(context, "RPUSH %s %b", list, text, sizeof text);
        }
        do {
            redisReply *reply;

            if (redisGetReply(context, (void **)&reply) != REDIS_OK || reply->type != REDIS_REPLY_INTEGER)
                exit(1);
            freeReplyObject(reply);
            answered++;
        } while (sent - answered > ahead / 2);
    }
    printf("%s: %.0f\n", name, (double)count / (now() - start));
}

int main(int count, char **words)
{
    char socket[512];
    redisContext *context;
    long items = count == 4 ? atol(words[3]) : 0;

    if (items < ROUND)
        return 2;
    snprintf(socket, sizeof socket, "%s/socket", words[2]);
    context = start(words[1], words[2], socket);
    run(context, "one", "redis_one_at_a_time", items / ROUND, 1);
    run(context, "ahead", "redis_64_under_way", items, AHEAD);
    redisAppendCommand(context, "SHUTDOWN NOSAVE");
    redisBufferWrite(context, NULL);
    wait(NULL);
    return 0;
}

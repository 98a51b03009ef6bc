/* Berkeley DB: each thread puts items into a queue, each in a transaction of its own that is synced as it is committed. */
#include "writers.h"

#include <db.h>

enum { LOG_BUFFER = 1 << 20 };

static DB_ENV *env;
static DB *db;

static void *write_items(void *part)
{
    struct writer *own = part;
    char item[ITEM_BYTES];

    for (long number = 0; number < own->items; number++) {
        DBT key, data;
        DB_TXN *txn;
        db_recno_t place = 0;
        int done = DB_LOCK_DEADLOCK;

        make_item(item, number);
        while (done == DB_LOCK_DEADLOCK) {
            memset(&key, 0, sizeof key);
            memset(&data, 0, sizeof data);
            key.data = &place;
            key.ulen = sizeof place;
            key.flags = DB_DBT_USERMEM;
            data.data = item;
            data.size = ITEM_BYTES;
            check(env->txn_begin(env, NULL, &txn, DB_TXN_SYNC) == 0, "a transaction");
            done = db->put(db, txn, &key, &data, DB_APPEND);
            if (done == 0)
                check(txn->commit(txn, DB_TXN_SYNC) == 0, "a commit");
            else
                check(txn->abort(txn) == 0 && done == DB_LOCK_DEADLOCK, "a put");
        }
    }
    return NULL;
}

int main(int count, char **words)
{
    check(count == 4, "the words");
    check(db_env_create(&env, 0) == 0, "an environment");
    check(env->set_lg_bsize(env, LOG_BUFFER) == 0 && env->set_lk_detect(env, DB_LOCK_DEFAULT) == 0, "the settings");
    check(env->open(env, words[1],
                    DB_CREATE | DB_INIT_TXN | DB_INIT_LOG | DB_INIT_LOCK | DB_INIT_MPOOL | DB_PRIVATE | DB_THREAD, 0) == 0,
          "the environment's open");
    check(db_create(&db, env, 0) == 0 && db->set_re_len(db, ITEM_BYTES) == 0, "a queue");
    check(db->open(db, NULL, "queue", NULL, DB_QUEUE, DB_CREATE | DB_THREAD | DB_AUTO_COMMIT, 0600) == 0, "the queue's open");
    time_writers("berkeley_db", words, write_items);
    check(db->close(db, 0) == 0 && env->close(env, 0) == 0, "the close");
    return 0;
}

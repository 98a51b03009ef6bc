// LevelDB: each thread puts items, each with a sync.
#include "writers.h"

#include <leveldb/db.h>

#include <string>

static leveldb::DB *db;

static void *write_items(void *part)
{
    const writer *own = static_cast<const writer *>(part);
    leveldb::WriteOptions options;
    char item[ITEM_BYTES], key[40];

    options.sync = true;
    for (long number = 0; number < own->items; number++) {
        make_item(item, number);
        snprintf(key, sizeof key, "%ld_%ld", own->number, number);
        check(db->Put(options, key, leveldb::Slice(item, ITEM_BYTES)).ok(), "a put");
    }
    return nullptr;
}

int main(int count, char **words)
{
    leveldb::Options options;

    check(count == 4, "the words");
    options.create_if_missing = true;
    options.compression = leveldb::kNoCompression;
    options.write_buffer_size = 64 << 20;
    check(leveldb::DB::Open(options, std::string(words[1]) + "/leveldb", &db).ok(), "the open");
    time_writers("leveldb", words, write_items);
    delete db;
    return 0;
}

// The same cells in LevelDB. Usage: leveldb tall|wide|long freeze|compact CELLS FOLDER   (what is printed: engine/plain.rs)
//
// Keys are row, family, qualifier and label, a byte 0 behind each, and the inverted timestamp. Nothing is compressed; its log is
// written, since it can't be left out; all else is as LevelDB has it.
#include <leveldb/db.h>
#include <leveldb/options.h>
#include <leveldb/write_batch.h>

#include "cells.h"

static void check(const leveldb::Status &status) {
    if (!status.ok()) {
        fprintf(stderr, "%s\n", status.ToString().c_str());
        exit(1);
    }
}

struct Store {
    leveldb::DB *db = nullptr;

    explicit Store(const std::string &folder) {
        leveldb::Options options;
        options.create_if_missing = true;
        options.compression = leveldb::kNoCompression;
        check(leveldb::DB::Open(options, folder, &db));
    }

    ~Store() { delete db; }

    struct Batch {
        leveldb::WriteBatch batch;

        void put(const std::string &key, const std::string &value) { batch.Put(key, value); }
    };

    void write(Batch &batch) {
        check(db->Write(leveldb::WriteOptions(), &batch.batch));
        batch.batch.Clear();
    }

    void compact() { db->CompactRange(nullptr, nullptr); }

    leveldb::Iterator *iterator() { return db->NewIterator(leveldb::ReadOptions()); }
};

int main(int count, char **words) { return run<Store>(count, words); }

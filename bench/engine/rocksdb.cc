// The same cells in RocksDB. Usage: rocksdb tall|wide|long freeze|compact CELLS FOLDER   (what is printed: engine/plain.rs)
//
// Keys are row, family, qualifier and label, a byte 0 behind each, and the inverted timestamp. Nothing is logged or compressed;
// all else is as RocksDB has it.
#include <rocksdb/db.h>
#include <rocksdb/options.h>
#include <rocksdb/write_batch.h>

#include "cells.h"

static void check(const rocksdb::Status &status) {
    if (!status.ok()) {
        fprintf(stderr, "%s\n", status.ToString().c_str());
        exit(1);
    }
}

struct Store {
    rocksdb::DB *db = nullptr;

    explicit Store(const std::string &folder) {
        rocksdb::Options options;
        options.create_if_missing = true;
        options.compression = rocksdb::kNoCompression;
        check(rocksdb::DB::Open(options, folder, &db));
    }

    ~Store() { delete db; }

    struct Batch {
        rocksdb::WriteBatch batch;

        void put(const std::string &key, const std::string &value) { batch.Put(key, value); }
    };

    void write(Batch &batch) {
        rocksdb::WriteOptions options;
        options.disableWAL = true;
        check(db->Write(options, &batch.batch));
        batch.batch.Clear();
    }

    void compact() { check(db->CompactRange(rocksdb::CompactRangeOptions(), nullptr, nullptr)); }

    rocksdb::Iterator *iterator() { return db->NewIterator(rocksdb::ReadOptions()); }
};

int main(int count, char **words) { return run<Store>(count, words); }

// Synced writes into RocksDB. Usage: rocksdb FOLDER SECONDS THREADS PUTS
//
// So many threads write for so many seconds, each so many keys at once, with WriteOptions.sync; all else is as RocksDB has it. Keys and values are
// as long as those of the client (../server/client.rs). It prints what that prints of a part.
#include <rocksdb/db.h>
#include <rocksdb/options.h>
#include <rocksdb/write_batch.h>

#include <algorithm>
#include <chrono>
#include <cstdio>
#include <cstdlib>
#include <random>
#include <string>
#include <thread>
#include <vector>

using Clock = std::chrono::steady_clock;

static void check(const rocksdb::Status &status) {
    if (!status.ok()) {
        fprintf(stderr, "%s\n", status.ToString().c_str());
        exit(1);
    }
}

static double since(Clock::time_point begun) { return std::chrono::duration<double>(Clock::now() - begun).count(); }

static std::string key(std::mt19937_64 &chance) {
    char text[64];
    unsigned column = chance() % 32000;
    int length = snprintf(text, sizeof text, "%010u%cf%03u%cq%03u%cA&(B|C)%c", unsigned(chance() % 1000000), 0, column % 4, 0, column / 4 % 1000, 0, 0);
    return std::string(text, length) + std::string(8, 1);
}

static void write(rocksdb::DB *db, int seed, int puts, double seconds, Clock::time_point begun, std::vector<double> &waits) {
    std::mt19937_64 chance(seed);
    rocksdb::WriteOptions options;
    options.sync = true;
    while (since(begun) < seconds) {
        rocksdb::WriteBatch batch;
        for (int at = 0; at < puts; at++) batch.Put(key(chance), std::string(20, 'a' + chance() % 26));
        auto asked = Clock::now();
        check(db->Write(options, &batch));
        waits.push_back(since(asked) * 1e6);
    }
}

int main(int, char **words) {
    double seconds = atof(words[2]);
    int threads = atoi(words[3]), puts = atoi(words[4]);
    rocksdb::Options options;
    options.create_if_missing = true;
    options.compression = rocksdb::kNoCompression;
    rocksdb::DB *db;
    check(rocksdb::DB::Open(options, words[1], &db));
    std::vector<std::vector<double>> waits(threads);
    std::vector<std::thread> all;
    auto begun = Clock::now();
    for (int at = 0; at < threads; at++) all.emplace_back(write, db, at, puts, seconds, begun, std::ref(waits[at]));
    for (auto &one : all) one.join();
    double took = since(begun);
    std::vector<double> every;
    for (auto &some : waits) every.insert(every.end(), some.begin(), some.end());
    std::sort(every.begin(), every.end());
    auto at = [&](double share) { return every[std::min(every.size() - 1, size_t(every.size() * share))]; };
    printf("writes\t%zu\t%f\t%f\t%f\t%f\n", every.size() * puts, took, at(0.5), at(0.99), at(1));
    delete db;
}

// What the peers in C++ share: the cells, the labels, the frames and the parts that are timed. engine/plain.rs says what each is.
// A Store has write(Batch), compact() and iterator(), whose Seek, Valid, Next, key and value are those of LevelDB and RocksDB.
#pragma once

#include <endian.h>

#include <cctype>
#include <cstdint>
#include <cstdio>
#include <cstdlib>
#include <cstring>
#include <ctime>
#include <fstream>
#include <memory>
#include <string>
#include <type_traits>
#include <unordered_map>
#include <utility>
#include <vector>

static const char *const LABELS[8] = {"A", "A&B", "A&(B|C)", "B|D", "D", "A&D", "(A|B)&E", "D&(A|E)"};
static const uint64_t NEIGHBOURS = 10;
// Cells of a batch of writes.
static const uint64_t WRITES = 100;
// Cells after which the buffer of frames is emptied.
static const uint64_t BATCH = 1000;

// The word number n of splitmix64 from the seed.
static uint64_t word(uint64_t seed, uint64_t n) {
    uint64_t w = seed + n * 0x9e3779b97f4a7c15u;
    w = (w ^ (w >> 30)) * 0xbf58476d1ce4e5b9u;
    w = (w ^ (w >> 27)) * 0x94d049bb133111ebu;
    return w ^ (w >> 31);
}

// The numbers below count in random order, by Fisher and Yates.
static std::vector<uint64_t> shuffled(uint64_t count) {
    std::vector<uint64_t> order(count);
    for (uint64_t i = 0; i < count; i++) order[i] = i;
    for (uint64_t last = count - 1; last > 0; last--) std::swap(order[last], order[word(1, last) % (last + 1)]);
    return order;
}

// So many last digits of a number, behind what the text holds.
static void add_digits(std::string &text, uint64_t number, size_t count) {
    text.append(count, '0');
    for (size_t i = 1; i <= count; i++, number /= 10) text[text.size() - i] = static_cast<char>('0' + number % 10);
}

static void add_big_endian32(std::string &text, size_t number) {
    const uint32_t turned = htobe32(static_cast<uint32_t>(number));
    text.append(reinterpret_cast<const char *>(&turned), sizeof turned);
}

static void add_big_endian64(std::string &text, uint64_t number) {
    const uint64_t turned = htobe64(number);
    text.append(reinterpret_cast<const char *>(&turned), sizeof turned);
}

// So many letters of one word, behind what the text holds.
static void add_letters(std::string &text, uint64_t rest, int count) {
    for (int i = 0; i < count; i++, rest /= 8) text.push_back(static_cast<char>('a' + rest % 8));
}

// Whether rows are long: plain.rs says how.
static bool is_long = false;

// Where a row begins, up to its number.
static void add_front(std::string &text, uint64_t row) {
    if (is_long) text.append("customers/north/town/");
    add_digits(text, row, 10);
}

static void set_long_key(std::string &key, uint64_t row, uint64_t number) {
    add_front(key, row);
    add_letters(key, word(5, row), 9);
    key.append(1, '\0').append("shipping").append(1, '\0').append("regionq0");
    add_digits(key, number % 100, 2);
    key.append(1, '\0').append("A&(B|CD)").append(1, '\0');
}

static void set_short_key(std::string &key, uint64_t row, uint64_t number) {
    const uint64_t w = word(2, number);
    add_front(key, row);
    key.append(1, '\0').append(1, 'f');
    add_digits(key, w / 8 % 4, 3);
    key.append(1, '\0').append(1, 'q');
    add_digits(key, w / 32 % 10 * 100 + number % 100, 3);
    key.append(1, '\0').append(LABELS[w % 8]).append(1, '\0');
}

// The key of the cell of this number, which lies in this row.
static void set_key(std::string &key, uint64_t row, uint64_t number) {
    key.clear();
    is_long ? set_long_key(key, row, number) : set_short_key(key, row, number);
    const uint64_t timestamp = 1;
    add_big_endian64(key, static_cast<uint64_t>(INT64_MAX) - timestamp);
}

static void set_value(std::string &value, uint64_t number) {
    value.clear();
    add_letters(value, word(3, number), 20);
}

// A key or a value as it lies in the store.
struct Bytes {
    const char *data;
    size_t size;
};

// A key in its parts.
struct Parts {
    Bytes part[4];
    uint64_t timestamp;
};

static Parts parts_of(const char *data, size_t size) {
    Parts parts;
    const char *at = data;
    for (Bytes &part : parts.part) {
        const char *end = static_cast<const char *>(memchr(at, 0, static_cast<size_t>(data + size - at)));
        part = {at, static_cast<size_t>(end - at)};
        at = end + 1;
    }
    uint64_t inverted;
    memcpy(&inverted, at, sizeof inverted);
    parts.timestamp = static_cast<uint64_t>(INT64_MAX) - be64toh(inverted);
    return parts;
}

// Judges labels for the reader, who holds A and B, each text once.
class Judge {
  public:
    bool admits(const Bytes &label) {
        text.assign(label.data, label.size);
        const auto found = judged.find(text);
        if (found != judged.end()) return found->second;
        const char *at = text.c_str();
        return judged[text] = expression(at);
    }

  private:
    static bool expression(const char *&at) {
        bool holds = operand(at);
        while (*at == '&' || *at == '|') {
            const char joiner = *at++;
            const bool next = operand(at);
            holds = joiner == '&' ? holds && next : holds || next;
        }
        return holds;
    }

    static bool operand(const char *&at) {
        if (*at == '(') {
            const bool holds = expression(++at);
            ++at;
            return holds;
        }
        const char *begin = at;
        while (isalnum(static_cast<unsigned char>(*at))) ++at;
        return at - begin == 1 && (*begin == 'A' || *begin == 'B');
    }

    std::string text;
    std::unordered_map<std::string, bool> judged;
};

// Where frames of cells go.
struct Frames {
    std::string buffer;
    uint64_t cells = 0, bytes = 0;

    void put(const Parts &key, const Bytes &value) {
        size_t size = 29 + value.size;
        for (const Bytes &part : key.part) size += part.size;
        add_big_endian32(buffer, size);
        buffer.push_back('\x82');
        for (const Bytes &part : key.part) put_field(part);
        add_big_endian64(buffer, key.timestamp);
        put_field(value);
        if (++cells % BATCH == 0) empty();
    }

    void put_field(const Bytes &field) {
        add_big_endian32(buffer, field.size);
        buffer.append(field.data, field.size);
    }

    void empty() {
        bytes += buffer.size();
        buffer.clear();
    }
};

// The cell at which the iterator stands, if the reader sees it.
template <class Iterator> static void show(Iterator &at, Judge &judge, Frames &frames) {
    const auto key = at.key(), value = at.value();
    const Parts parts = parts_of(key.data(), key.size());
    if (judge.admits(parts.part[3])) frames.put(parts, {value.data(), value.size()});
}

template <class Store> static Frames scan(Store &store) {
    Judge judge;
    Frames frames;
    const auto at = std::unique_ptr<std::remove_pointer_t<decltype(store.iterator())>>(store.iterator());
    for (at->SeekToFirst(); at->Valid(); at->Next()) show(*at, judge, frames);
    frames.empty();
    return frames;
}

// So many neighbouring rows from random places, for each ten cells once.
template <class Store> static Frames scan_ranges(Store &store, uint64_t cells) {
    Judge judge;
    Frames frames;
    const auto at = std::unique_ptr<std::remove_pointer_t<decltype(store.iterator())>>(store.iterator());
    std::string low, high;
    for (uint64_t range = 0; range < cells / 10; range++) {
        const uint64_t row = word(4, range) % (cells - NEIGHBOURS + 1);
        low.clear(), high.clear();
        add_front(low, row), add_front(high, row + NEIGHBOURS);
        for (at->Seek(low); at->Valid() && at->key().compare(high) < 0; at->Next()) show(*at, judge, frames);
    }
    frames.empty();
    return frames;
}

template <class Store> static void write(Store &store, const std::vector<uint64_t> &order, uint64_t width) {
    typename Store::Batch batch;
    std::string key, value;
    uint64_t held = 0;
    for (const uint64_t row : order) {
        for (uint64_t at = 0; at < width; at++) {
            set_key(key, row, row * width + at);
            set_value(value, row * width + at);
            batch.put(key, value);
            if (++held % WRITES == 0) store.write(batch);
        }
    }
    if (held % WRITES != 0) store.write(batch);
}

static int64_t nanoseconds(clockid_t clock) {
    timespec time;
    clock_gettime(clock, &time);
    return time.tv_sec * INT64_C(1000000000) + time.tv_nsec;
}

// Runs a part and prints its line.
template <class Run> static void timed(const char *part, const Run &run) {
    const int64_t begin = nanoseconds(CLOCK_MONOTONIC), used = nanoseconds(CLOCK_PROCESS_CPUTIME_ID);
    const std::string told = run();
    const int64_t elapsed = nanoseconds(CLOCK_MONOTONIC) - begin, worked = nanoseconds(CLOCK_PROCESS_CPUTIME_ID) - used;
    printf("%s %lld %lld%s\n", part, static_cast<long long>(elapsed), static_cast<long long>(worked), told.c_str());
}

// Prints what memory the process holds.
static void print_memory(const char *moment) {
    std::ifstream status("/proc/self/status");
    for (std::string line; std::getline(status, line);) {
        if (line.rfind("RssAnon:", 0) == 0 || line.rfind("VmHWM:", 0) == 0) printf("%s %s\n", moment, line.c_str());
    }
}

static std::string given(const Frames &frames) {
    return " " + std::to_string(frames.cells) + " " + std::to_string(frames.bytes);
}

template <class Store> static int run(int count, char **words) {
    if (count != 5) return 2;
    is_long = strcmp(words[1], "long") == 0;
    const bool is_wide = strcmp(words[1], "wide") == 0, compacts = strcmp(words[2], "compact") == 0;
    const uint64_t cells = strtoull(words[3], nullptr, 10), width = is_wide ? 100 : 1;
    const std::vector<uint64_t> order = shuffled(cells / width);
    Store store(words[4]);
    print_memory("base");
    timed("W", [&] { return write(store, order, width), std::string(); });
    timed("F", [&] { return compacts ? store.compact() : void(), std::string(); });
    print_memory("rest");
    timed("S", [&] { return given(scan(store)); });
    if (!is_wide) timed("R", [&] { return given(scan_ranges(store, cells)); });
    print_memory("end");
    return 0;
}

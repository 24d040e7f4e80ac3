// reader.cpp - fills a database of RocksDB or LevelDB, or reads it by threads for some seconds and
// prints as a line of JSON how many reads a second there were, and how many of a hundred look-ups
// of blocks were hits.
//
//   reader fill NAME VALUE..     engine, folder, keys, value (bytes), block (bytes)
//   reader read NAME VALUE..     the same, and cache, capacity (bytes), law (uniform, or skewed: by
//                                Zipf's of 0.99), threads, seconds, writes (a second, of one more
//                                thread; or 0)
#include "../peers/laws.hpp"
#include "databases.hpp"

#include <atomic>
#include <chrono>
#include <map>
#include <thread>
#include <vector>

namespace {

using namespace engines;
using peers::numbers;
using peers::zipf;
using steady = std::chrono::steady_clock;

class words {
  public:
    words(int count, char **all) {
        for (int at = 2; at + 1 < count; at += 2) {
            all_[all[at]] = all[at + 1];
        }
    }
    std::string operator[](const char *name) const {
        const auto it = all_.find(name);
        must(it != all_.end(), std::string("looking for ") + name);
        return it->second;
    }
    std::uint32_t number(const char *name) const {
        return static_cast<std::uint32_t>(std::stoul((*this)[name]));
    }

  private:
    std::map<std::string, std::string> all_;
};

setup setup_of(const words &asked, const std::string &cache, std::size_t capacity) {
    const std::size_t block = asked.number("block");
    return {asked["folder"], cache, capacity, block, block};
}

std::string value_of(const words &asked, numbers &numbers) {
    std::string value(asked.number("value"), '\0');
    for (char &byte : value) {
        byte = static_cast<char>(numbers.next());
    }
    return value;
}

void fill(const words &asked) {
    const auto database = opened(asked["engine"], setup_of(asked, "lru_cache", 8 << 20));
    numbers numbers;
    for (std::uint32_t key = 0; key < asked.number("keys"); ++key) {
        database->put(key, value_of(asked, numbers));
    }
    database->compact();
}

// Which key is read next. Those that are read most don't lie side by side.
class chooser {
  public:
    explicit chooser(const words &asked)
        : is_skewed_(asked["law"] == "skewed"), keys_(asked.number("keys")), law_(0.99, keys_) {}

    std::uint64_t next(numbers &numbers) const {
        constexpr std::uint64_t prime = 0x5bd1'e995;
        return is_skewed_ ? law_.next(numbers) * prime % keys_ : numbers.next() % keys_;
    }

  private:
    bool is_skewed_;
    std::uint32_t keys_;
    zipf law_;
};

struct tally {
    std::uint64_t reads = 0;
    counts blocks;
};

tally read(database &database, const chooser &chooser, std::uint64_t seed,
           const std::atomic<bool> &has_ended) {
    numbers numbers(seed);
    const counts before = database.counted();
    tally tally;
    for (; !has_ended.load(std::memory_order_relaxed); ++tally.reads) {
        database.get(chooser.next(numbers));
    }
    const counts after = database.counted();
    tally.blocks = {after.hits - before.hits, after.misses - before.misses};
    return tally;
}

// Writes so many values a second, of random keys.
void write(database &database, const words &asked, const std::atomic<bool> &has_ended) {
    const std::uint32_t keys = asked.number("keys"), rate = asked.number("writes");
    numbers numbers(99);
    const auto start = steady::now();
    for (std::uint64_t n = 0; rate != 0 && !has_ended.load(); ++n) {
        if (n % 16 == 0) {
            const std::chrono::nanoseconds due(n * 1'000'000'000 / rate);
            std::this_thread::sleep_until(start + due);
        }
        database.put(numbers.next() % keys, value_of(asked, numbers));
    }
}

void read(const words &asked) {
    const auto database =
        opened(asked["engine"], setup_of(asked, asked["cache"], std::stoull(asked["capacity"])));
    const chooser chooser(asked);
    database->scan();
    std::atomic<bool> has_ended{false};
    std::vector<tally> all(asked.number("threads"));
    std::vector<std::thread> threads;
    const auto start = steady::now();
    for (std::size_t n = 0; n < all.size(); ++n) {
        threads.emplace_back(
            [&, n] { all[n] = read(*database, chooser, n * 7919 + 1, has_ended); });
    }
    threads.emplace_back([&] { write(*database, asked, has_ended); });
    std::this_thread::sleep_for(std::chrono::duration<double>(std::stod(asked["seconds"])));
    has_ended = true;
    for (std::thread &it : threads) {
        it.join();
    }
    const std::chrono::duration<double> took = steady::now() - start;
    tally sum;
    for (const tally &it : all) {
        sum.reads += it.reads;
        sum.blocks.hits += it.blocks.hits;
        sum.blocks.misses += it.blocks.misses;
    }
    const auto hits = static_cast<double>(sum.blocks.hits);
    std::printf("{\"operations_per_second\": %.0f, \"hits\": %.2f}\n",
                static_cast<double>(sum.reads) / took.count(),
                100 * hits / (hits + static_cast<double>(sum.blocks.misses)));
}

} // namespace

int main(int count, char **all) {
    const std::string action = count > 1 ? all[1] : "";
    const words asked(count, all);
    must(action == "fill" || action == "read", "an action '" + action + "'");
    action == "fill" ? fill(asked) : read(asked);
}

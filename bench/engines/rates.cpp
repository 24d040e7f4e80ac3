// rates.cpp - reads a database by the laws of ../peers/laws.hpp through one cache after the other,
// and prints as lines of JSON how many of a hundred look-ups of blocks were hits in the second half
// of the reads. Several threads take one read after the other of those that a law draws.
//
//   rates ENGINE FOLDER THREADS CACHE..      the database is made if it isn't there
//
// Each block has one value, so that a read looks for one block; a cache's capacity is so many times
// what it charges for one. RocksDB's metadata isn't charged.
#include "../peers/laws.hpp"
#include "databases.hpp"

#include <sys/stat.h>

#include <atomic>
#include <thread>
#include <vector>

namespace {

using namespace engines;

constexpr std::size_t block_size = 4096;
constexpr std::uint32_t percents[] = {33, 10};

setup setup_of(const std::string &folder, const std::string &cache, std::size_t fitting,
               std::size_t charge) {
    return {folder, cache, fitting * charge, block_size, charge};
}

// Also leaves there what this returns: what a block is charged.
std::size_t filled(const std::string &engine, const std::string &folder) {
    struct stat found;
    const bool is_new = stat(folder.c_str(), &found) != 0;
    const auto database = opened(engine, setup_of(folder, "lru_cache", peers::blocks, 16384));
    for (std::uint32_t key = 0; is_new && key < peers::blocks; ++key) {
        database->put(key, std::string(block_size, static_cast<char>('a' + key % 26)));
    }
    if (is_new) {
        database->compact();
    }
    constexpr std::uint32_t asked = 1000;
    const std::size_t before = database->usage();
    for (std::uint32_t key = 0; key < asked; ++key) {
        database->get(key * 64);
    }
    return (database->usage() - before) / asked;
}

// Takes reads until there are none, and returns what it looked for in the second half.
counts taken(database &database, const peers::drawn &drawn, std::atomic<std::uint32_t> &next) {
    counts late;
    for (std::uint32_t n = next++; n < peers::reads; n = next++) {
        const counts before = database.counted();
        database.get(drawn[n]);
        const counts after = database.counted();
        if (n >= peers::reads / 2) {
            late.hits += after.hits - before.hits;
            late.misses += after.misses - before.misses;
        }
    }
    return late;
}

double hits_of(database &database, const peers::drawn &drawn, std::size_t many) {
    std::atomic<std::uint32_t> next{0};
    std::vector<counts> all(many);
    std::vector<std::thread> threads;
    for (counts &mine : all) {
        threads.emplace_back([&] { mine = taken(database, drawn, next); });
    }
    for (std::thread &it : threads) {
        it.join();
    }
    double hits = 0, sought = 0;
    for (const counts &it : all) {
        hits += static_cast<double>(it.hits);
        sought += static_cast<double>(it.hits + it.misses);
    }
    return 100 * hits / sought;
}

void print_hits(const std::string &engine, const setup &setup, const peers::law &law,
                std::uint32_t percent, const peers::drawn &drawn, std::size_t threads) {
    const auto database = opened(engine, setup);
    std::printf(R"({"table": "rates", "engine": "%s", "law": "%s", "percent": %u, )"
                R"("threads": %zu, "cache": "%s", "hits": %.2f})"
                "\n",
                engine.c_str(), law.name, percent, threads, setup.cache.c_str(),
                hits_of(*database, drawn, threads));
    std::fflush(stdout);
}

} // namespace

int main(int count, char **words) {
    must(count > 4, "reading ENGINE FOLDER THREADS CACHE..");
    const std::string engine = words[1], folder = words[2];
    const std::size_t charge = filled(engine, folder), threads = std::stoul(words[3]);
    for (const std::uint32_t percent : percents) {
        const std::uint32_t fitting = peers::blocks * percent / 100;
        for (const peers::law &law : peers::laws) {
            const peers::drawn drawn = law.draw(fitting);
            for (int at = 4; at < count; ++at) {
                print_hits(engine, setup_of(folder, words[at], fitting, charge), law, percent,
                           drawn, threads);
            }
        }
    }
}

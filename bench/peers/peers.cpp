// peers.cpp - plays the same kinds and numbers of operations on this project's cache, on its twin and
// on RocksDB's, in turns, and prints a JSON line for each round of each.
//
//   peers [--case NAME]... [--cache NAME]... [--value-size N]... [--threads N]...
//         [--megabytes N]... [--shards N] [--rounds N] [--operations N]
//
// Where a cache's memory lies makes it faster or slower, so all are made anew for every three rounds,
// in another order; and each round begins with the next of them. What else a processor has to do makes
// them slower, so each thread stays on one: in a round the same for all caches, in the next another.
//
// An option that is left out stands for all there are, but for two caches. ferretgold-objects has blocks
// by pointer, as RocksDB's caches have: it plays all but `pinned`, and sizes of up to 65,536 bytes, of
// which those above 4,096 leave out ferretgold and its twin; and `touch`, a hit of which the block's
// first word is read, against RocksDB's and the twin with a word as value. ferretgold-rocksdb plays the
// same by the calls of RocksDB's block cache. `blocks-unseeded` leaves out
// the caches that always spread keys; `save` and `load` leave out all but ferretgold, and all numbers of
// threads but one. A cache has 16,384 slots, or, by --megabytes, the power of two with which Ferretgold's
// table comes nearest to so many, and so many shards that none has above 65,536 (`pinned` leaves out
// those of which the threads can't hold all entries). Eight threads play `get-one` and `get-sixteen`
// alone, unless they are asked for. Each thread makes as many operations a round as --operations says; by
// 0, the default, as many as take the first cache 40 ms, or another 200 ms.
#include "cases.hpp"

#include <algorithm>
#include <cinttypes>
#include <iterator>
#include <memory>

#ifndef PEERS_BUILD
#define PEERS_BUILD "unknown"
#endif

namespace {

using namespace peers;

constexpr std::uint32_t usual_slots = 1 << 14;
constexpr std::uint32_t most_slots = 1 << 16; // of a shard
constexpr std::uint32_t most_shards = 64;
constexpr std::uint64_t seed = 0x5eed;
constexpr double round_seconds = 0.04;
// A slower cache may take so many times as long.
constexpr std::uint64_t longest = 5;
constexpr std::uint64_t first_guess = 100;
// How many rounds the same caches are played.
constexpr std::uint64_t rounds_together = 3;

struct options {
    std::vector<std::string> cases;
    std::vector<std::string> caches;
    std::vector<std::uint64_t> value_sizes;
    std::vector<std::uint64_t> threads;
    std::vector<std::uint64_t> megabytes;
    std::uint64_t shards = 1;
    std::uint64_t rounds = 7;
    std::uint64_t operations = 0;
};

[[noreturn]] void stop(const std::string &why) {
    std::fprintf(stderr, "peers: %s\n", why.c_str());
    std::exit(2);
}

std::uint64_t number_of(const std::string &word, std::uint64_t least, std::uint64_t most) {
    char *end = nullptr;
    std::uint64_t number = std::strtoull(word.c_str(), &end, 10);
    if (word.empty() || *end != '\0' || number < least || number > most) {
        stop("'" + word + "' is no number from " + std::to_string(least) + " to " +
             std::to_string(most));
    }
    return number;
}

// How many bytes a value has: those of whole words.
std::uint64_t value_size_of(const std::string &word) {
    std::uint64_t bytes = number_of(word, 8, 65536);
    if (bytes % 8 != 0) {
        stop("'" + word + "' is no multiple of 8");
    }
    return bytes;
}

std::string cache_of(const std::string &word) {
    const std::string all[] = {ferret::name(),         twin::name(),        ferret_objects::name(),
                               ferret_rocksdb::name(), twin_objects::name(), hyper_clock::name(),
                               lru::name(),            lru_sharded::name()};
    if (std::find(std::begin(all), std::end(all), word) == std::end(all)) {
        stop("there is no cache " + word);
    }
    return word;
}

std::uint64_t power_of_two(const std::string &word, std::uint64_t most) {
    std::uint64_t number = number_of(word, 1, most);
    if ((number & (number - 1)) != 0) {
        stop("'" + word + "' is no power of two");
    }
    return number;
}

options options_of(int count, char **words) {
    options asked;
    for (int at = 1; at + 1 < count; at += 2) {
        std::string name = words[at], word = words[at + 1];
        if (name == "--case") {
            asked.cases.push_back(word);
        } else if (name == "--cache") {
            asked.caches.push_back(cache_of(word));
        } else if (name == "--value-size") {
            asked.value_sizes.push_back(value_size_of(word));
        } else if (name == "--threads") {
            asked.threads.push_back(number_of(word, 1, 64));
        } else if (name == "--megabytes") {
            asked.megabytes.push_back(number_of(word, 1, 10'000));
        } else if (name == "--shards") {
            asked.shards = power_of_two(word, most_shards);
        } else if (name == "--rounds") {
            asked.rounds = number_of(word, 1, 1000);
        } else if (name == "--operations") {
            asked.operations = number_of(word, 0, 1'000'000'000);
        } else {
            stop("there is no option " + name);
        }
    }
    if (count % 2 == 0) {
        stop(std::string(words[count - 1]) + " lacks its value");
    }
    return asked;
}

template <class Word> bool is_asked(const std::vector<Word> &asked, const Word &word) {
    return asked.empty() || std::find(asked.begin(), asked.end(), word) != asked.end();
}

// A cache under a case, whichever it is.
struct player {
    virtual ~player() = default;
    virtual outcome play(std::uint64_t operations, std::uint64_t round) = 0;
    std::string name;
};

template <class Cache, class Bench = bench<Cache>> struct player_of : player {
    player_of(kind is, const sizes &sizes, const std::vector<draws> &drawn)
        : bench_(is, sizes, drawn) {
        name = Cache::name();
    }
    outcome play(std::uint64_t operations, std::uint64_t round) override {
        return bench_.play(operations, round);
    }

  private:
    Bench bench_;
};

using players = std::vector<std::unique_ptr<player>>;

// How a cache is made and filled, by its name.
struct maker {
    std::string name;
    std::unique_ptr<player> (*make)(kind, const sizes &, const std::vector<draws> &);
};

template <class Cache, class Bench = bench<Cache>> maker maker_of() {
    return {Cache::name(),
            [](kind is, const sizes &sizes,
               const std::vector<draws> &drawn) -> std::unique_ptr<player> {
                return std::make_unique<player_of<Cache, Bench>>(is, sizes, drawn);
            }};
}

// The caches that can be played so.
std::vector<maker> makers_of(kind is, const sizes &sizes) {
    bool is_single = sizes.value_size <= most_bytes;
    std::vector<maker> all;
    if (is == kind::pinned && sizes.capacity > sizes.handles * sizes.threads) {
        return all; // not all can be held
    }
    if (is_warm(is)) {
        if (is_single && sizes.threads == 1) {
            all.push_back(maker_of<ferret, warm_start>());
        }
        return all;
    }
    if (is == kind::touch) {
        all = {maker_of<ferret_objects>(), maker_of<twin_objects>()};
    } else if (is_single) {
        all = {maker_of<ferret>(), maker_of<twin>()};
    }
    if (is != kind::blocks_unseeded) {
        if (is != kind::pinned && is != kind::touch) {
            all.push_back(maker_of<ferret_objects>());
        }
        if (is != kind::pinned) {
            all.push_back(maker_of<ferret_rocksdb>());
        }
        all.push_back(maker_of<hyper_clock>());
        all.push_back(maker_of<lru>());
        all.push_back(maker_of<lru_sharded>());
    }
    return all;
}

// Those of them that are asked for.
std::vector<maker> makers_of(const options &asked, kind is, const sizes &sizes) {
    std::vector<maker> some;
    for (maker &it : makers_of(is, sizes)) {
        bool is_usual = it.name != ferret_rocksdb::name()
                        && (is == kind::touch || it.name != ferret_objects::name());
        if (asked.caches.empty() ? is_usual : is_asked(asked.caches, it.name)) {
            some.push_back(std::move(it));
        }
    }
    return some;
}

// How many operations take a cache as long as a round should.
std::uint64_t operations_of(player &of) {
    std::uint64_t operations = first_guess;
    for (;;) {
        double seconds = of.play(operations, 0).seconds;
        if (seconds > round_seconds / 4) {
            return std::max<std::uint64_t>(
                1, static_cast<std::uint64_t>(static_cast<double>(operations) * round_seconds /
                                              seconds));
        }
        operations *= 2;
    }
}

// The same for all of them, where no round should take any of them much longer.
std::uint64_t operations_of(const players &all) {
    std::uint64_t operations = operations_of(*all.front());
    for (const std::unique_ptr<player> &it : all) {
        operations = std::min(operations, longest * operations_of(*it));
    }
    return operations;
}

const char *build_of(const std::string &cache) {
    if (cache == ferret::name() || cache == ferret_objects::name()
        || cache == ferret_rocksdb::name()) {
        return "proved";
    }
    return cache == twin::name() || cache == twin_objects::name() ? "unproved" : PEERS_BUILD;
}

void print(const player &of, const char *case_name, const sizes &sizes, std::uint64_t round,
           const outcome &made) {
    double operations = static_cast<double>(made.operations);
    std::printf("{\"cache\":\"%s\",\"build\":\"%s\",\"case\":\"%s\",\"value_size\":%" PRIu32
                ",\"threads\":%" PRIu32 ",\"processors\":%zu,\"slots\":%" PRIu32
                ",\"shards\":%" PRIu32 ",\"round\":%" PRIu64 ",\"operations\":%" PRIu64
                ",\"seconds\":%.6f,\"operations_per_second\":%.0f,"
                "\"nanoseconds_per_operation\":%.2f,\"hits\":%" PRIu64 ",\"misses\":%" PRIu64
                "}\n",
                of.name.c_str(), build_of(of.name), case_name, sizes.value_size, sizes.threads,
                processors().size(), sizes.slots, sizes.shards, round, made.operations,
                made.seconds, operations / made.seconds,
                made.seconds * 1e9 * sizes.threads / operations, made.hits, made.misses);
}

void compare(const options &asked, const named_case &of, const sizes &sizes) {
    std::vector<maker> makers = makers_of(asked, of.is, sizes);
    std::uint64_t operations = asked.operations;
    if (makers.empty()) {
        return;
    }
    const std::vector<draws> drawn = drawn_for(of.is, sizes);
    players all;
    for (std::uint64_t round = 0; round < asked.rounds; ++round) {
        if (round % rounds_together == 0) {
            all.clear();
            for (const maker &it : makers) {
                all.push_back(it.make(of.is, sizes, drawn));
            }
            std::rotate(makers.begin(), makers.begin() + 1, makers.end());
        }
        if (operations == 0) {
            operations = operations_of(all);
        }
        for (std::size_t turn = 0; turn < all.size(); ++turn) {
            player &it = *all[(round + turn) % all.size()];
            print(it, of.name, sizes, round, it.play(operations, round));
        }
    }
    std::fflush(stdout);
}

// How many slots a cache has: by 0 megabytes the usual number.
std::uint32_t slots_of(std::uint64_t megabytes, std::uint64_t value_size) {
    if (megabytes == 0) {
        return usual_slots;
    }
    double wanted = static_cast<double>(megabytes) * 1e6 / static_cast<double>(56 + value_size);
    double power = std::clamp(std::round(std::log2(wanted)), 8.0, std::log2(most_slots * most_shards));
    return static_cast<std::uint32_t>(std::exp2(power));
}

sizes sizes_of(const options &asked, kind is, std::uint64_t megabytes, std::uint64_t value_size,
               std::uint64_t threads) {
    sizes sizes{};
    sizes.slots = slots_of(megabytes, value_size);
    sizes.shards = std::max(static_cast<std::uint32_t>(asked.shards), sizes.slots / most_slots);
    sizes.capacity = sizes.slots / sizes.shards * 7 / 10 * sizes.shards;
    sizes.value_size = static_cast<std::uint32_t>(value_size);
    sizes.threads = static_cast<std::uint32_t>(threads);
    sizes.handles = usual_slots;
    sizes.seed = is == kind::blocks_unseeded ? 0 : seed;
    return sizes;
}

// Plays a case at all sizes and numbers of threads.
void compare(const options &asked, const named_case &of) {
    std::vector<std::uint64_t> all = asked.threads;
    if (all.empty()) {
        all = {1, 2, 4};
        if (is_of_few(of.is)) {
            all.push_back(8);
        }
    }
    for (std::uint64_t megabytes : asked.megabytes) {
        for (std::uint64_t value_size : asked.value_sizes) {
            for (std::uint64_t threads : all) {
                compare(asked, of, sizes_of(asked, of.is, megabytes, value_size, threads));
            }
        }
    }
}

} // namespace

int main(int count, char **words) {
    options asked = options_of(count, words);
    if (asked.value_sizes.empty()) {
        asked.value_sizes = {16, 256, 4096};
    }
    if (asked.megabytes.empty()) {
        asked.megabytes = {0};
    }
    bool is_known = false;
    for (const named_case &of : all_cases) {
        if (!is_asked(asked.cases, std::string(of.name))) {
            continue;
        }
        is_known = true;
        compare(asked, of);
    }
    if (!is_known) {
        stop("there is no such case");
    }
    return 0;
}

// cases.hpp - what is measured: each case fills a cache, and then each of its threads makes so many
// operations on it; or it saves a cache, or begins with what was saved.
#ifndef PEERS_CASES_HPP
#define PEERS_CASES_HPP

#include "objects.hpp"

#include <algorithm>
#include <atomic>
#include <chrono>
#include <cmath>
#include <cstdint>
#include <sched.h>
#include <string>
#include <thread>
#include <vector>

namespace peers {

enum class kind {
    hits_uniform,
    touch,
    get,
    get_one,
    get_sixteen,
    get_cold,
    misses,
    mix,
    evict,
    pinned,
    hot,
    hits_zipf,
    blocks_seeded,
    blocks_unseeded,
    save,
    load
};

struct named_case {
    const char *name;
    kind is;
};

constexpr named_case all_cases[] = {
    {"hits-uniform", kind::hits_uniform},
    {"touch", kind::touch},
    {"get", kind::get},
    {"get-one", kind::get_one},
    {"get-sixteen", kind::get_sixteen},
    {"get-cold", kind::get_cold},
    {"misses", kind::misses},
    {"mix", kind::mix},
    {"evict", kind::evict},
    {"pinned", kind::pinned},
    {"hot", kind::hot},
    {"hits-zipf", kind::hits_zipf},
    {"blocks-seeded", kind::blocks_seeded},
    {"blocks-unseeded", kind::blocks_unseeded},
    {"save", kind::save},
    {"load", kind::load},
};

// Whether a case is of a warm start: on one thread, and of this project's cache alone.
constexpr bool is_warm(kind is) { return is == kind::save || is == kind::load; }

// Whether it shows how threads meet at a few entries, so that more of them than processors are of
// interest, too.
constexpr bool is_of_few(kind is) { return is == kind::get_one || is == kind::get_sixteen; }

// What came of a round: all threads' operations, and the seconds from the first to the last, or those
// that a thread measured itself.
struct outcome {
    std::uint64_t operations = 0;
    std::uint64_t hits = 0;
    std::uint64_t misses = 0;
    double seconds = 0;
};

// A generator of the splitmix family: the same numbers in every run.
class numbers {
  public:
    explicit numbers(std::uint64_t seed) : state_(seed) {}
    std::uint64_t next() {
        state_ += 0x9e3779b97f4a7c15;
        std::uint64_t z = state_;
        z = (z ^ (z >> 30)) * 0xbf58476d1ce4e5b9;
        z = (z ^ (z >> 27)) * 0x94d049bb133111eb;
        return z ^ (z >> 31);
    }
    double fraction() { return static_cast<double>(next() >> 11) * 0x1p-53; }

  private:
    std::uint64_t state_;
};

// The key of a block: which file, and which of its blocks.
inline ferretgold_key key_of(std::uint64_t file, std::uint64_t block) { return {file, block}; }

// The key that hcc_block gives a block, where all files have 1,024 blocks and the numbers go through
// one file after another. Without a seed those of several files lie on top of one another.
inline ferretgold_key block_key_of(std::uint64_t number) {
    std::uint64_t file = number / 1024, index = number % 1024;
    return {index << 32 | file, file << 32 | index};
}

// The key numbers that a thread asks for, drawn beforehand, a power of two of them. They come round.
using draws = std::vector<std::uint32_t>;

inline void draw_uniform(std::uint64_t seed, std::uint32_t keys, draws &drawn) {
    numbers random(seed);
    for (std::uint32_t &draw : drawn) {
        draw = static_cast<std::uint32_t>(random.next() % keys);
    }
}

// The k-th key with a weight of k^-0.99: the sums of these weights.
inline std::vector<double> zipf_sums(std::uint32_t keys) {
    std::vector<double> sums(keys);
    double sum = 0;
    for (std::uint32_t k = 0; k < keys; ++k) {
        sum += std::pow(k + 1.0, -0.99);
        sums[k] = sum;
    }
    return sums;
}

inline void draw_zipf(std::uint64_t seed, const std::vector<double> &sums, draws &drawn) {
    numbers random(seed);
    for (std::uint32_t &draw : drawn) {
        auto at = std::lower_bound(sums.begin(), sums.end(), random.fraction() * sums.back());
        auto rank = std::min<std::size_t>(at - sums.begin(), sums.size() - 1);
        draw = static_cast<std::uint32_t>(rank);
    }
}

// How many entries are there to be hit: half of the capacity, so that all have a place, or a few.
inline std::uint32_t loaded(kind is, const sizes &sizes) {
    switch (is) {
    case kind::get_one:
    case kind::hot:
        return 1;
    case kind::get_sixteen:
        return 16;
    default:
        return sizes.capacity / 2;
    }
}

// What each thread asks for: as many draws as four times the slots, but not above some millions.
inline std::vector<draws> drawn_for(kind is, const sizes &sizes) {
    constexpr std::size_t fewest = std::size_t{1} << 16, most = std::size_t{1} << 22;
    std::size_t count = std::clamp<std::size_t>(std::size_t{4} * sizes.slots, fewest, most);
    std::vector<draws> all(is_warm(is) ? 0 : sizes.threads, draws(count));
    std::vector<double> sums;
    if (is == kind::mix || is == kind::hits_zipf) {
        sums = zipf_sums(is == kind::mix ? 4 * sizes.capacity : loaded(is, sizes));
    }
    for (std::size_t thread = 0; thread < all.size(); ++thread) {
        if (sums.empty()) {
            draw_uniform(thread, loaded(is, sizes), all[thread]);
        } else {
            draw_zipf(thread, sums, all[thread]);
        }
    }
    return all;
}

// The file numbers that keys are of: of entries that are there, of those that never are, and of new
// ones, a file for each thread.
constexpr std::uint64_t loaded_file = 1;
constexpr std::uint64_t absent_file = 2;
constexpr std::uint64_t first_new_file = 3;

// The processors that this thread may use.
inline std::vector<int> processors() {
    cpu_set_t all;
    must(sched_getaffinity(0, sizeof all, &all) == 0, "asking for the processors");
    std::vector<int> usable;
    for (int processor = 0; processor < CPU_SETSIZE; ++processor) {
        if (CPU_ISSET(processor, &all)) {
            usable.push_back(processor);
        }
    }
    return usable;
}

// Keeps this thread on one of them.
inline void stay_on(std::uint64_t number) {
    std::vector<int> usable = processors();
    cpu_set_t one;
    CPU_ZERO(&one);
    CPU_SET(usable[number % usable.size()], &one);
    must(sched_setaffinity(0, sizeof one, &one) == 0, "keeping a processor");
}

// A cache under one case: filled once, and then played on for as many rounds as are asked for.
template <class Cache> class bench {
  public:
    bench(kind is, const sizes &sizes, const std::vector<draws> &drawn)
        : is_(is), sizes_(sizes), value_(sizes.value_size, 0x5a), drawn_(drawn), cache_(sizes) {
        for (std::uint32_t thread = 0; thread < sizes.threads; ++thread) {
            readers_.emplace_back(cache_, sizes);
        }
        next_.assign(sizes.threads, 0);
        fill();
    }

    // Each thread makes so many operations, all at once, and in a round each cache's on the same
    // processors.
    outcome play(std::uint64_t operations, std::uint64_t round) {
        std::vector<outcome> parts(sizes_.threads);
        std::atomic<std::uint32_t> waiting{sizes_.threads};
        std::vector<std::thread> threads;
        std::vector<clock::time_point> begun(sizes_.threads), ended(sizes_.threads);
        for (std::uint32_t thread = 0; thread < sizes_.threads; ++thread) {
            threads.emplace_back([&, thread] {
                stay_on(thread + round);
                std::vector<std::uint8_t> buffer(sizes_.value_size);
                waiting.fetch_sub(1);
                while (waiting.load() != 0) {
                    std::this_thread::yield();
                }
                begun[thread] = clock::now();
                parts[thread] = work(thread, operations, buffer.data());
                ended[thread] = clock::now();
            });
        }
        for (std::thread &thread : threads) {
            thread.join();
        }
        outcome all;
        for (const outcome &part : parts) {
            all.operations += part.operations;
            all.hits += part.hits;
            all.misses += part.misses;
            all.seconds = std::max(all.seconds, part.seconds);
        }
        if (is_ != kind::get_cold) {
            all.seconds = seconds_between(*std::min_element(begun.begin(), begun.end()),
                                          *std::max_element(ended.begin(), ended.end()));
        }
        return all;
    }

  private:
    using clock = std::chrono::steady_clock;

    static double seconds_between(clock::time_point begun, clock::time_point ended) {
        return std::chrono::duration<double>(ended - begun).count();
    }

    // The key of an entry that is there to be hit.
    ferretgold_key loaded_key(std::uint64_t number) const {
        bool is_block = is_ == kind::blocks_seeded || is_ == kind::blocks_unseeded;
        return is_block ? block_key_of(number) : key_of(loaded_file, number);
    }

    void fill() {
        switch (is_) {
        case kind::hits_uniform:
        case kind::touch:
        case kind::get:
        case kind::get_one:
        case kind::get_sixteen:
        case kind::misses:
        case kind::hot:
        case kind::hits_zipf:
        case kind::blocks_seeded:
        case kind::blocks_unseeded:
            for (std::uint32_t number = 0; number < loaded(is_, sizes_); ++number) {
                readers_[0].insert(loaded_key(number), value_.data());
            }
            break;
        case kind::get_cold:
        case kind::mix:
        case kind::evict:
            (void)play(2 * sizes_.slots / sizes_.threads, 0);
            break;
        case kind::pinned:
            for (std::uint32_t number = 0; number < sizes_.capacity; ++number) {
                readers_[number % sizes_.threads].pin(key_of(loaded_file, number), value_.data());
            }
            break;
        case kind::save:
        case kind::load:
            break; // a warm_start's
        }
    }

    // Inserts keys that are new, and reads each of them once: only the reads are measured.
    outcome work_cold(std::uint32_t thread, std::uint64_t operations, std::uint8_t *buffer) {
        typename Cache::reader &reader = readers_[thread];
        std::uint64_t together = std::max(1u, loaded(is_, sizes_) / sizes_.threads);
        outcome made;
        for (std::uint64_t left = operations; left != 0;) {
            std::uint64_t first = next_[thread], count = std::min(left, together);
            for (std::uint64_t number = first; number < first + count; ++number) {
                reader.insert(key_of(first_new_file + thread, number), value_.data());
            }
            clock::time_point begun = clock::now();
            for (std::uint64_t number = first; number < first + count; ++number) {
                made.hits += reader.get(key_of(first_new_file + thread, number), buffer);
            }
            made.seconds += seconds_between(begun, clock::now());
            next_[thread] += count;
            left -= count;
        }
        made.operations = operations;
        made.misses = operations - made.hits;
        return made;
    }

    outcome work(std::uint32_t thread, std::uint64_t operations, std::uint8_t *buffer) {
        if (is_ == kind::get_cold) {
            return work_cold(thread, operations, buffer);
        }
        std::uint64_t first = next_[thread];
        outcome made;
        made.operations = operations;
        for (std::uint64_t number = first; number < first + operations; ++number) {
            made.hits += operate(thread, number, buffer);
        }
        next_[thread] = first + operations;
        bool reads = is_ != kind::evict && is_ != kind::pinned;
        made.misses = reads ? operations - made.hits : 0;
        return made;
    }

    // One operation: whether it was a hit.
    bool operate(std::uint32_t thread, std::uint64_t number, std::uint8_t *buffer) {
        typename Cache::reader &reader = readers_[thread];
        const draws &all = drawn_[thread];
        std::uint32_t drawn = all[number & (all.size() - 1)];
        switch (is_) {
        case kind::hits_uniform:
        case kind::hot:
        case kind::hits_zipf:
            return reader.read(key_of(loaded_file, drawn), buffer);
        case kind::touch:
            return reader.touch(key_of(loaded_file, drawn), buffer);
        case kind::get:
        case kind::get_one:
        case kind::get_sixteen:
            return reader.get(key_of(loaded_file, drawn), buffer);
        case kind::misses:
            return reader.read(key_of(absent_file, drawn), buffer);
        case kind::mix: {
            ferretgold_key key = key_of(loaded_file, drawn);
            return reader.get(key, buffer) || (reader.insert(key, value_.data()), false);
        }
        case kind::blocks_seeded:
        case kind::blocks_unseeded: {
            ferretgold_key key = block_key_of(drawn);
            return reader.read(key, buffer) || (reader.insert(key, value_.data()), false);
        }
        case kind::evict:
        case kind::pinned:
            reader.insert(key_of(first_new_file + thread, number), value_.data());
            return false;
        case kind::get_cold:
        case kind::save:
        case kind::load:
            break;
        }
        return false;
    }

    kind is_;
    sizes sizes_;
    std::vector<std::uint8_t> value_;
    const std::vector<draws> &drawn_;
    Cache cache_;
    std::vector<typename Cache::reader> readers_;
    std::vector<std::uint64_t> next_;
};

// This project's cache once it was full and was closed, or as it begins with what was saved of it.
// The file is in memory, and an operation is one of its entries.
class warm_start {
  public:
    warm_start(kind is, const sizes &sizes, const std::vector<draws> &)
        : is_(is), config_(config_of(sizes)) {
        ferretgold::cache cache(config_);
        {
            std::vector<std::uint8_t> value(sizes.value_size, 0x5a);
            ferretgold::client client = cache.open_client();
            for (std::uint32_t number = 0; number < 2 * sizes.slots; ++number) {
                (void)client.insert(key_of(loaded_file, number), value.data(), value.size(), 1);
            }
        }
        ferretgold::closed closed = cache.close_keeping();
        entries_ = closed.totals().slot_count;
        save(closed);
    }

    // Saves or loads all entries, until there were so many, on a thread of its own: what is left of a
    // cache only the thread that closed it may read.
    outcome play(std::uint64_t operations, std::uint64_t round) {
        outcome made;
        std::thread([&] {
            stay_on(round);
            ferretgold::cache cache = load();
            ferretgold::closed closed = cache.close_keeping();
            do {
                clock::time_point begun = clock::now();
                if (is_ == kind::save) {
                    save(closed);
                } else {
                    cache = load();
                }
                made.seconds += std::chrono::duration<double>(clock::now() - begun).count();
                made.operations += entries_;
                cache = ferretgold::cache();
            } while (made.operations < operations);
        }).join();
        return made;
    }

  private:
    using clock = std::chrono::steady_clock;

    void save(const ferretgold::closed &closed) {
        file_.clear();
        ferretgold::save(closed, [this](const void *bytes, std::size_t count) {
            const auto *first = static_cast<const std::uint8_t *>(bytes);
            file_.insert(file_.end(), first, first + count);
            return true;
        });
    }

    // A cache of the same sizes, which has all of the entries.
    ferretgold::cache load() const {
        std::size_t at = 0;
        ferretgold_loaded loaded{};
        auto read = [&](void *bytes, std::size_t count, bool &) {
            std::size_t has = std::min(count, file_.size() - at);
            std::memcpy(bytes, file_.data() + at, has);
            at += has;
            return has;
        };
        ferretgold::cache cache = ferretgold::load(config_, read, &loaded);
        must(loaded.left == entries_, "beginning with all entries");
        return cache;
    }

    kind is_;
    ferretgold_config config_;
    std::vector<std::uint8_t> file_;
    std::uint64_t entries_ = 0;
};

} // namespace peers

#endif

// hit_rates.cpp - prints a table in Markdown: of a hundred reads, how many find their block in a
// cache, by where the countdown of a new block begins. On one thread; each run draws the same.
//
// A million times one of 65,536 blocks of 4 KiB is read, and inserted if it is missed; the reads of
// the second half count. Objects are inserted with a handle, as RocksDB inserts them, and the
// handle is released as a use or as no use; bytes are inserted with no handle, except in the last
// column. So a countdown begins
//   at 3, 2, 1   by the priority, high, low or bottom, if the handle was a use, or there was none;
//   at 0         at bottom priority, if it was no use: unless the block was read by then, the
//                hand's first visit frees it.
// Under "0 or 2" it begins at 2 for blocks that were handed back lately, and at 0 for all others.
// RocksDB inserts at low priority and counts the handle as a use, so HyperClockCache begins at 2.
//
// RocksDB's caches have the shards and slots that RocksDB chooses for so many bytes; their metadata
// isn't charged. This project's have as many shards as HyperClockCache: one for each 32 MiB, as a
// power of two, 64 at most; and in each the fewest slots, as a power of two, of which its part of
// the capacity takes at most seven tenths. ferretgold_config_for goes the other way: by it the
// capacity is seven tenths of the slots that memory allows. A charge is a block's bytes. Values in
// the caches of bytes have eight, since no hit depends on it.
#include "caches.hpp"
#include "ferretgold_object.h"
#include "ferretgold_raw.h"
#include "laws.hpp"

namespace {

using namespace peers;

constexpr std::uint32_t block_size = 4096;

// ---- The caches --------------------------------------------------------------------------------

ferretgold_key key_of(std::uint32_t block) {
    return {block * std::uint64_t{0x9e37'79b9'7f4a'7c15}, block};
}

class cache {
  public:
    virtual ~cache() = default;
    // Whether the block is there. It is inserted if not.
    virtual bool read(std::uint32_t block) = 0;
};

class rocks_cache : public cache {
  public:
    explicit rocks_cache(std::shared_ptr<rocksdb::Cache> cache) : cache_(std::move(cache)) {}

    bool read(std::uint32_t block) override {
        const ferretgold_key key = key_of(block);
        const rocksdb::Slice slice(reinterpret_cast<const char *>(&key), sizeof key);
        rocksdb::Cache::Handle *held = cache_->Lookup(slice);
        const bool is_hit = held != nullptr;
        if (!is_hit) {
            must(cache_->Insert(slice, this, block_size, &forget, &held).ok(), "an insertion");
        }
        cache_->Release(held);
        return is_hit;
    }

  private:
    static void forget(const rocksdb::Slice &, void *) {}

    std::shared_ptr<rocksdb::Cache> cache_;
};

std::size_t bytes_of(std::uint32_t fitting) {
    return std::size_t{fitting} * block_size;
}

std::unique_ptr<cache> lru(std::uint32_t fitting) {
    return std::make_unique<rocks_cache>(
        rocksdb::NewLRUCache(bytes_of(fitting), -1, false, 0.5, nullptr,
                             rocksdb::kDefaultToAdaptiveMutex, rocksdb::kDontChargeCacheMetadata));
}

std::unique_ptr<cache> hyper_clock(std::uint32_t fitting) {
    return std::make_unique<rocks_cache>(
        rocksdb::HyperClockCacheOptions(bytes_of(fitting), block_size, -1, false, nullptr,
                                        rocksdb::kDontChargeCacheMetadata)
            .MakeSharedCache());
}

std::uint32_t shards_for(std::uint32_t fitting) {
    std::uint32_t shards = 1;
    while (shards < 64 && bytes_of(fitting) / (2 * shards) >= 32 << 20) {
        shards *= 2;
    }
    return shards;
}

std::uint32_t slots_for(std::uint32_t fitting, std::uint32_t shards) {
    std::uint32_t slots = 8;
    while (std::uint64_t{slots} * shards * 7 < std::uint64_t{fitting} * 10) {
        slots *= 2;
    }
    return slots;
}

// What both of this project's caches are made with.
template <typename Config> Config config_of(std::uint32_t fitting) {
    Config config{};
    config.shards = shards_for(fitting);
    config.slots = slots_for(fitting, config.shards);
    config.clients = 1;
    config.handles = 1;
    config.capacity = bytes_of(fitting);
    config.serials = FERRETGOLD_MOST_SERIALS;
    config.seed = 0x9e37'79b9'7f4a'7c15;
    return config;
}

// A cache of bytes. With a handle, which is no use, a new block begins one lower.
class byte_cache : public cache {
  public:
    byte_cache(std::uint32_t fitting, ferretgold_priority priority, bool gives_handle)
        : cache_(config(fitting)), opened_(cache_.open_client()), priority_(priority),
          gives_handle_(gives_handle) {}

    bool read(std::uint32_t block) override {
        const ferretgold_key key = key_of(block);
        std::uint8_t value[8] = {};
        if (ferretgold_get(opened_.get(), &key, value, sizeof value, true, nullptr) ==
            FERRETGOLD_OK) {
            return true;
        }
        if (gives_handle_) {
            insert_pinned(key, value);
        } else {
            insert(key, value);
        }
        return false;
    }

  private:
    static ferretgold_config config(std::uint32_t fitting) {
        auto config = config_of<ferretgold_config>(fitting);
        config.room = 1;
        return config;
    }
    void insert(const ferretgold_key &key, const std::uint8_t (&value)[8]) {
        must(ferretgold_insert(opened_.get(), &key, value, sizeof value, block_size, priority_,
                               nullptr) == FERRETGOLD_OK,
             "an insertion");
    }
    void insert_pinned(const ferretgold_key &key, const std::uint8_t (&value)[8]) {
        ferretgold_handle held;
        must(ferretgold_insert_pinned(opened_.get(), &key, value, sizeof value, block_size,
                                      priority_, nullptr, &held) == FERRETGOLD_OK,
             "an insertion");
        (void)ferretgold_release(opened_.get(), held, false, false, nullptr);
    }

    ferretgold::cache cache_;
    ferretgold::client opened_;
    ferretgold_priority priority_;
    bool gives_handle_;
};

// How a new block begins: its priority, and whether its insertion's handle was a use.
struct beginning {
    ferretgold_priority priority;
    bool is_use;
};

constexpr beginning at_two{FERRETGOLD_LOW, true};
constexpr beginning at_zero{FERRETGOLD_BOTTOM, false};

// A cache of objects, called as a rocksdb::Cache over it would. Nothing lies at their addresses.
class object_cache : public cache {
  public:
    object_cache(std::uint32_t fitting, beginning beginning) : beginning_(beginning) {
        auto config = config_of<ferretgold_object_config>(fitting);
        config.gone = 256;
        must(ferretgold_raw_object_open(&config, 1, &client_, 1, &cache_) == FERRETGOLD_OK &&
                 ferretgold_raw_objects_open(&left_) == FERRETGOLD_OK,
             "opening a cache of objects");
    }
    object_cache(const object_cache &) = delete;
    ~object_cache() override {
        ferretgold_object kept{};
        ferretgold_key key;
        ferretgold_object_value object;
        must(ferretgold_raw_object_close(cache_, &client_, 1, &left_, &kept) == FERRETGOLD_OK,
             "closing a cache of objects");
        while (ferretgold_raw_objects_next(&left_, &key, &object) == FERRETGOLD_OK) {
        }
        must(ferretgold_raw_objects_end(left_, &kept) == FERRETGOLD_OK, "handing all out");
    }

    bool read(std::uint32_t block) override {
        const ferretgold_key key = key_of(block);
        ferretgold_held_object held;
        held.key = key;
        if (ferretgold_raw_object_hold(&client_, &held) == FERRETGOLD_OK) {
            must(held.object.address == object_of(block).address, "a look-up");
            release(held.handle, true);
            return true;
        }
        insert(key, block);
        return false;
    }

  protected:
    virtual beginning beginning_of(std::uint32_t) { return beginning_; }
    virtual void goes(std::uint32_t) {}

  private:
    static ferretgold_object_value object_of(std::uint32_t block) {
        return {std::uint64_t{block} + 1, 0};
    }
    void insert(const ferretgold_key &key, std::uint32_t block) {
        const ferretgold_object_value object = object_of(block);
        const beginning beginning = beginning_of(block);
        std::uint32_t placing = 0;
        bool is_full = false;
        ferretgold_handle held;
        must(ferretgold_raw_object_insert_pinned(&client_, &key, &object, block_size,
                                                 beginning.priority, &placing, &is_full,
                                                 &held) == FERRETGOLD_OK,
             "an insertion");
        release(held, beginning.is_use);
        forget();
    }
    void release(const ferretgold_handle &held, bool is_use) {
        bool is_freed = false;
        must(ferretgold_raw_object_release(&client_, &held, is_use, false, &is_freed) ==
                 FERRETGOLD_OK,
             "a release");
    }
    void forget() {
        ferretgold_key key;
        ferretgold_object_value object;
        std::size_t left = 1;
        while (left != 0 && ferretgold_raw_object_take_gone(&client_, &key, &object, &left) == FERRETGOLD_OK) {
            goes(static_cast<std::uint32_t>(object.address - 1));
        }
    }

    beginning beginning_;
    ferretgold_object client_{};
    ferretgold_object cache_{};
    ferretgold_object left_{};
};

// A block that was handed back lately begins higher. Which ones were is kept as 32 bits of each, in
// as many places as blocks fit.
class listing_cache : public object_cache {
  public:
    explicit listing_cache(std::uint32_t fitting)
        : object_cache(fitting, at_zero), listed_(fitting) {}

  protected:
    beginning beginning_of(std::uint32_t block) override {
        std::uint32_t &place = place_of(block);
        if (place != mark_of(block)) {
            return at_zero;
        }
        place = 0;
        return at_two;
    }
    void goes(std::uint32_t block) override { place_of(block) = mark_of(block); }

  private:
    static std::uint64_t hash(std::uint32_t block) {
        std::uint64_t mixed = (std::uint64_t{block} + 1) * 0xd6e8'feb8'6659'fd93;
        mixed = (mixed ^ mixed >> 32) * 0xd6e8'feb8'6659'fd93;
        return mixed ^ mixed >> 29;
    }
    static std::uint32_t mark_of(std::uint32_t block) {
        return static_cast<std::uint32_t>(hash(block)) | 1;
    }
    std::uint32_t &place_of(std::uint32_t block) {
        return listed_[(hash(block) >> 32) % listed_.size()];
    }

    std::vector<std::uint32_t> listed_;
};

template <ferretgold_priority PRIORITY, bool GIVES_HANDLE>
std::unique_ptr<cache> bytes(std::uint32_t fitting) {
    return std::make_unique<byte_cache>(fitting, PRIORITY, GIVES_HANDLE);
}

template <ferretgold_priority PRIORITY, bool IS_USE>
std::unique_ptr<cache> objects(std::uint32_t fitting) {
    return std::make_unique<object_cache>(fitting, beginning{PRIORITY, IS_USE});
}

std::unique_ptr<cache> listing(std::uint32_t fitting) {
    return std::make_unique<listing_cache>(fitting);
}

struct column {
    const char *name;
    std::unique_ptr<cache> (*make)(std::uint32_t fitting);
};

constexpr column columns[] = {
    {"LRUCache", lru},
    {"HyperClockCache", hyper_clock},
    {"objects: 3", objects<FERRETGOLD_HIGH, true>},
    {"2", objects<FERRETGOLD_LOW, true>},
    {"1", objects<FERRETGOLD_BOTTOM, true>},
    {"0", objects<FERRETGOLD_BOTTOM, false>},
    {"0 or 2", listing},
    {"bytes: 3", bytes<FERRETGOLD_HIGH, false>},
    {"2", bytes<FERRETGOLD_LOW, false>},
    {"1", bytes<FERRETGOLD_BOTTOM, false>},
    {"0", bytes<FERRETGOLD_BOTTOM, true>},
};

// ---- The table ---------------------------------------------------------------------------------

double hits_of(cache &cache, const drawn &drawn) {
    std::uint32_t hits = 0;
    for (std::uint32_t n = 0; n < reads; ++n) {
        hits += cache.read(drawn[n]) && n >= reads / 2;
    }
    return 100.0 * hits / (reads / 2);
}

void print_head() {
    std::printf("| Blocks read | Cache of |");
    for (const column &column : columns) {
        std::printf(" %s |", column.name);
    }
    std::printf("\n|---|---|");
    for (std::size_t n = 0; n < std::size(columns); ++n) {
        std::printf("---|");
    }
    std::printf("\n");
}

void print_row(const law &law, std::uint32_t percent, double (&sums)[std::size(columns)]) {
    const std::uint32_t fitting = blocks * percent / 100;
    const drawn drawn = law.draw(fitting);
    std::printf("| %s | %u %% |", law.name, percent);
    for (std::size_t n = 0; n < std::size(columns); ++n) {
        const double hits = hits_of(*columns[n].make(fitting), drawn);
        sums[n] += hits;
        std::printf(" %.1f |", hits);
        std::fflush(stdout);
    }
    std::printf("\n");
}

} // namespace

int main() {
    double sums[std::size(columns)] = {};
    std::size_t rows = 0;
    print_head();
    for (std::uint32_t percent : {33, 10}) {
        for (const law &law : laws) {
            print_row(law, percent, sums);
            ++rows;
        }
    }
    std::printf("| mean | |");
    for (double sum : sums) {
        std::printf(" %.2f |", sum / static_cast<double>(rows));
    }
    std::printf("\n");
}

// caches.hpp - the caches that are laid side by side, each with the same few calls: a reader is a
// thread's way into a cache.
#ifndef PEERS_CACHES_HPP
#define PEERS_CACHES_HPP

#include "ferretgold.hpp"
#include "ferretgold_file.hpp"
#include "ferretgold_rocksdb.hpp"

#include <rocksdb/cache.h>

#include <algorithm>
#include <cstdint>
#include <cstdio>
#include <cstdlib>
#include <cstring>
#include <memory>
#include <string>
#include <utility>
#include <vector>

namespace peers {

// What all caches of a run are made with. Each entry has charge 1.
struct sizes {
    std::uint32_t slots;      // in all shards
    std::uint32_t shards;
    std::uint32_t capacity;   // in charges: seven tenths of all slots, as RocksDB fills its table
    std::uint32_t value_size; // in bytes, a multiple of 8
    std::uint32_t threads;
    std::uint32_t handles; // that a thread holds at once, at most
    std::uint64_t seed;    // of keys, where a cache takes one: 0 for none
};

// The most bytes of a single value, in this project's cache and in its twin.
constexpr std::uint32_t most_bytes = 4096;

inline void must(bool is_well, const char *what) {
    if (!is_well) {
        std::fprintf(stderr, "peers: %s failed\n", what);
        std::exit(1);
    }
}

// The configuration of this project's cache.
inline ferretgold_config config_of(const sizes &sizes) {
    ferretgold_config config{};
    config.slots = sizes.slots / sizes.shards;
    config.room = sizes.value_size / 8;
    config.clients = sizes.threads;
    config.handles = sizes.handles;
    config.shards = sizes.shards;
    config.strict = false;
    config.marks = false;
    config.capacity = sizes.capacity;
    config.serials = FERRETGOLD_MOST_SERIALS;
    config.seed = sizes.seed != 0 ? sizes.seed : FERRETGOLD_UNSEEDED;
    return config;
}

// A block of the caller's, with these bytes.
inline std::uint8_t *new_block(const std::uint8_t *value, std::uint32_t size) {
    std::uint8_t *block = new std::uint8_t[size];
    std::memcpy(block, value, size);
    return block;
}

// This project's cache, through its header for C.
class ferret {
  public:
    static std::string name() { return "ferretgold"; }

    explicit ferret(const sizes &sizes) : cache_(config_of(sizes)) {}

    class reader {
      public:
        reader(ferret &cache, const sizes &sizes)
            : opened_(cache.cache_.open_client()), client_(opened_.get()), size_(sizes.value_size) {}
        ~reader() { unpin(); }
        reader(reader &&) = default;

        // Copies the value of a key to a buffer, and tells whether it was there.
        bool read(const ferretgold_key &key, std::uint8_t *buffer) {
            ferretgold_handle found;
            if (ferretgold_lookup(client_, &key, &found) != FERRETGOLD_OK) {
                return false;
            }
            (void)ferretgold_read_value(client_, found, buffer, size_, nullptr);
            (void)ferretgold_release(client_, found, true, false, nullptr);
            return true;
        }

        // The same where only the first word of a block is read; of bytes all are.
        bool touch(const ferretgold_key &key, std::uint8_t *buffer) { return read(key, buffer); }

        // The same in one call, where the cache has one.
        bool get(const ferretgold_key &key, std::uint8_t *buffer) {
            return ferretgold_get(client_, &key, buffer, size_, true, nullptr) ==
                   FERRETGOLD_OK;
        }

        void insert(const ferretgold_key &key, const std::uint8_t *value) {
            (void)ferretgold_insert(client_, &key, value, size_, 1, FERRETGOLD_LOW, nullptr);
        }

        // Inserts an entry and holds it until `unpin`.
        void pin(const ferretgold_key &key, const std::uint8_t *value) {
            ferretgold_handle held;
            must(ferretgold_insert_pinned(client_, &key, value, size_, 1, FERRETGOLD_LOW,
                                          nullptr, &held) == FERRETGOLD_OK,
                 "a pinned insertion");
            held_.push_back(held);
        }

        void unpin() {
            for (const ferretgold_handle &held : held_) {
                (void)ferretgold_release(client_, held, true, false, nullptr);
            }
            held_.clear();
        }

      private:
        ferretgold::client opened_;
        ferretgold_client *client_;
        std::uint32_t size_;
        std::vector<ferretgold_handle> held_;
    };

  private:
    ferretgold::cache cache_;
};

// What the twin exports: see ../twin/src/lib.rs.
extern "C" {
struct twin_sizes {
    std::uint32_t slots, room, handles, shards;
    std::uint64_t capacity, seed;
    bool strict, marks;
};
void *twin_open(const twin_sizes *sizes);
void *twin_client(std::uint32_t cache, std::uint32_t number, std::uint32_t handles);
bool twin_lookup(const void *cache, void *client, std::uint64_t w0, std::uint64_t w1,
                 ferretgold_handle *handle);
bool twin_lookup_word(const void *cache, void *client, std::uint64_t w0, std::uint64_t w1,
                      ferretgold_handle *handle, std::uint64_t *word, std::uint64_t *charge);
std::uint64_t twin_read(const void *cache, const void *client, const ferretgold_handle *handle,
                        std::uint8_t *buffer, std::size_t length);
bool twin_release(const void *cache, void *client, const ferretgold_handle *handle, bool useful);
std::uint64_t twin_get(const void *cache, void *client, std::uint64_t w0, std::uint64_t w1,
                       std::uint8_t *buffer, std::size_t length);
bool twin_insert(const void *cache, void *client, std::uint64_t w0, std::uint64_t w1,
                 const std::uint8_t *value, std::size_t length, ferretgold_handle *handle);
void twin_client_close(void *client);
bool twin_close(void *cache);
}

// The same algorithm in Rust without a proof.
class twin {
  public:
    static std::string name() { return "twin"; }

    explicit twin(const sizes &sizes) {
        twin_sizes asked{};
        asked.slots = sizes.slots / sizes.shards;
        asked.room = sizes.value_size / 8;
        asked.handles = sizes.handles;
        asked.shards = sizes.shards;
        asked.capacity = sizes.capacity;
        asked.seed = sizes.seed;
        cache_ = twin_open(&asked);
    }
    ~twin() { must(twin_close(cache_), "the twin's books"); }
    twin(const twin &) = delete;

    class reader {
      public:
        reader(twin &cache, const sizes &sizes)
            : cache_(cache.cache_), client_(twin_client(1, cache.next_++, sizes.handles)),
              size_(sizes.value_size) {}
        ~reader() {
            unpin();
            if (client_ != nullptr) {
                twin_client_close(client_);
            }
        }
        reader(reader &&from)
            : cache_(from.cache_), client_(std::exchange(from.client_, nullptr)),
              size_(from.size_), held_(std::move(from.held_)) {}

        bool read(const ferretgold_key &key, std::uint8_t *buffer) {
            ferretgold_handle held;
            if (!twin_lookup(cache_, client_, key.w0, key.w1, &held)) {
                return false;
            }
            (void)twin_read(cache_, client_, &held, buffer, size_);
            return twin_release(cache_, client_, &held, true);
        }

        bool touch(const ferretgold_key &key, std::uint8_t *buffer) { return read(key, buffer); }

        bool get(const ferretgold_key &key, std::uint8_t *buffer) {
            return twin_get(cache_, client_, key.w0, key.w1, buffer, size_) != none;
        }

        void insert(const ferretgold_key &key, const std::uint8_t *value) {
            (void)twin_insert(cache_, client_, key.w0, key.w1, value, size_, nullptr);
        }

        void pin(const ferretgold_key &key, const std::uint8_t *value) {
            ferretgold_handle held;
            must(twin_insert(cache_, client_, key.w0, key.w1, value, size_, &held),
                 "a pinned insertion");
            held_.push_back(held);
        }

        void unpin() {
            for (const ferretgold_handle &held : held_) {
                twin_release(cache_, client_, &held, true);
            }
            held_.clear();
        }

      protected:
        static constexpr std::uint64_t none = UINT64_MAX;
        const void *cache_;
        void *client_;
        std::uint32_t size_;
        std::vector<ferretgold_handle> held_;
    };

  private:
    void *cache_;
    std::uint32_t next_ = 0;
};

// A block cache of RocksDB. Its values are bytes of their own, taken by `new` and freed by a deleter,
// as blocks are.
class rocks {
  public:
    class reader {
      public:
        reader(rocks &cache, const sizes &sizes) : cache_(*cache.cache_), size_(sizes.value_size) {}
        ~reader() { unpin(); }
        reader(reader &&) = default;

        bool read(const ferretgold_key &key, std::uint8_t *buffer) {
            return look(key, buffer, size_);
        }
        bool get(const ferretgold_key &key, std::uint8_t *buffer) { return read(key, buffer); }
        bool touch(const ferretgold_key &key, std::uint8_t *buffer) { return look(key, buffer, 8); }

        void insert(const ferretgold_key &key, const std::uint8_t *value) {
            (void)cache_.Insert(slice(key), new_block(value, size_), 1, &forget, nullptr,
                                rocksdb::Cache::Priority::LOW);
        }

        void pin(const ferretgold_key &key, const std::uint8_t *value) {
            rocksdb::Cache::Handle *held = nullptr;
            must(cache_
                     .Insert(slice(key), new_block(value, size_), 1, &forget, &held,
                             rocksdb::Cache::Priority::LOW)
                     .ok(),
                 "a pinned insertion");
            held_.push_back(held);
        }

        void unpin() {
            for (rocksdb::Cache::Handle *held : held_) {
                cache_.Release(held);
            }
            held_.clear();
        }

      private:
        // Inline in each cache's reader, or the compiler's choice would count as the cache's.
        [[gnu::always_inline]] bool look(const ferretgold_key &key, std::uint8_t *buffer,
                                         std::uint32_t bytes) {
            rocksdb::Cache::Handle *found = cache_.Lookup(slice(key));
            if (found == nullptr) {
                return false;
            }
            std::memcpy(buffer, cache_.Value(found), bytes);
            cache_.Release(found);
            return true;
        }

        static rocksdb::Slice slice(const ferretgold_key &key) {
            return rocksdb::Slice(reinterpret_cast<const char *>(&key), sizeof key);
        }
        static void forget(const rocksdb::Slice &, void *value) {
            delete[] static_cast<std::uint8_t *>(value);
        }

        rocksdb::Cache &cache_;
        std::uint32_t size_;
        std::vector<rocksdb::Cache::Handle *> held_;
    };

  protected:
    explicit rocks(std::shared_ptr<rocksdb::Cache> cache) : cache_(std::move(cache)) {}

    static int bits(std::uint32_t shards) {
        int bits = 0;
        while ((std::uint32_t{1} << bits) < shards) {
            ++bits;
        }
        return bits;
    }

  private:
    std::shared_ptr<rocksdb::Cache> cache_;
};

// HyperClockCache. By an estimated charge of 1 it has as many slots as this project's.
class hyper_clock : public rocks {
  public:
    static std::string name() { return "rocksdb-hyperclock"; }

    explicit hyper_clock(const sizes &sizes)
        : rocks(rocksdb::HyperClockCacheOptions(sizes.capacity, 1, bits(sizes.shards), false,
                                                nullptr, rocksdb::kDontChargeCacheMetadata)
                    .MakeSharedCache()) {}
};

// This project's, with as many slots by the same charge.
class ferret_rocksdb : public rocks {
  public:
    static std::string name() { return "ferretgold-rocksdb"; }

    explicit ferret_rocksdb(const sizes &sizes)
        : rocks(ferretgold::NewFerretgoldCache({sizes.capacity, 1, bits(sizes.shards), false,
                                                nullptr, rocksdb::kDontChargeCacheMetadata})) {}
};

class lru : public rocks {
  public:
    static std::string name() { return "rocksdb-lru"; }

    explicit lru(const sizes &sizes) : lru(sizes, bits(sizes.shards)) {}

  protected:
    lru(const sizes &sizes, int bits)
        : rocks(rocksdb::NewLRUCache(sizes.capacity, bits, false, 0.5, nullptr,
                                     rocksdb::kDefaultToAdaptiveMutex,
                                     rocksdb::kDontChargeCacheMetadata)) {}
};

// LRUCache in as many shards as RocksDB chooses for a cache of so many bytes: one for each 512 KiB, as
// a power of two, 64 at most.
class lru_sharded : public lru {
  public:
    static std::string name() { return "rocksdb-lru-sharded"; }

    explicit lru_sharded(const sizes &sizes) : lru(sizes, chosen_bits(sizes)) {}

  private:
    static int chosen_bits(const sizes &sizes) {
        std::uint64_t shards = std::uint64_t{sizes.capacity} * sizes.value_size / (512 << 10);
        int bits = 0;
        while (bits < 6 && (shards >>= 1) != 0) {
            ++bits;
        }
        return bits;
    }
};

} // namespace peers

#endif

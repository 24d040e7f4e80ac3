// ferretgold_leveldb.hpp - the cache of objects of ferretgold_object.h as a leveldb::Cache of
// LevelDB 1.23: for Options::block_cache, and wherever else a program takes one. C++11.
//
//     options.block_cache = ferretgold::new_leveldb_cache(256 << 20);
//     ... open, use and delete the database ...
//     delete options.block_cache;
//
// What includes it is linked with libferretgold and LevelDB. Where LevelDB was built without
// run-time types, as its own build has it and Debian's hasn't, it is compiled by -fno-rtti, too.
//
// WHAT IS PROVED
//   The table, and who is handed what an entry stands for: once, when nobody holds it. What
//   ferretgold_object.h adds of threads, deleters and handles is tested, and so is this file: by
//   LevelDB's own tests and by ours.
//
// AS LEVELDB'S OWN CACHE
//   Insert replaces, returns a handle always, and allocates a node with the key. A deleter runs
//   once, with no lock held, and may call the cache. Any thread gives back any handle. Look-ups
//   compare whole keys. A capacity of 0 keeps nothing. Where memory for a node is refused the
//   program ends.
//
// OTHERWISE
//   - What is evicted is chosen by a clock: first what no look-up found since the insertion.
//   - Insert erases and then inserts: two threads that insert one key at once may leave both values
//     there, of which look-ups find either. LevelDB's blocks are the same then.
//   - Keys of 16 bytes, as LevelDB's blocks have, are found by these, others by a hash of 128 bits.
//     What is found alike is erased alike: an unlike key, too, if that ever comes.
//   - A value whose last handle was given back by another thread than got it may wait for its
//     deleter: till that one's next call, a Prune, or the end. So may one that was erased while it
//     was held.
//   - 64 threads may be in calls at once. One more that finds no client misses, and what it inserts
//     is uncached; an erasure waits for a client, some 10 ms at most, after which the old value may
//     stay. LevelDB's own cache waits for its mutex.
//   - 2,048 handles may be out, or half as many as entries, if that is more, up to 65,536: then
//     look-ups miss, and insertions are uncached.
//   - What is charged more than a shard's part of the capacity is uncached, as it would drive out
//     all others there: that part is 1,433 usual charges at least, or the whole capacity.
//   - It keeps a fifth more entries than the capacity has usual charges, or more. All memory except
//     nodes is allocated when it is made: half a MiB of a small cache, and of 1 GiB in blocks of
//     4 KiB 3.1 of a hundred for slots, and 1.2 besides; of 64 MiB 3.1 and 2.7.
#ifndef FERRETGOLD_LEVELDB_HPP
#define FERRETGOLD_LEVELDB_HPP

#include "ferretgold_object.h"

#include <leveldb/cache.h>

#include <algorithm>
#include <atomic>
#include <cassert>
#include <cstddef>
#include <cstdint>
#include <cstdlib>
#include <cstring>
#include <new>
#include <thread>

namespace ferretgold {

class leveldb_cache final : public leveldb::Cache {
  public:
    using Slice = leveldb::Slice;
    using deleter = void (*)(const Slice &key, void *value);

    // How large a cache of objects is that is to hold so much, in charges that are mostly so large.
    static ferretgold_object_config config_for(std::size_t capacity,
                                               std::size_t usual_charge) noexcept;

    // The 16 bytes by which a key is found.
    static ferretgold_key found_by(const Slice &key) noexcept;

    // Without a cache below it keeps nothing.
    leveldb_cache() noexcept = default;

    // Whether a cache below could be opened.
    bool has_opened(const ferretgold_object_config &config) noexcept;

    // All handles were given back, and no thread is in a call: else all is left as it is.
    ~leveldb_cache() override;

    Handle *Insert(const Slice &key, void *value, std::size_t charge,
                   deleter delete_value) override;
    Handle *Lookup(const Slice &key) override;
    void Release(Handle *handle) override;
    void *Value(Handle *handle) override { return node_of(handle)->value; }
    void Erase(const Slice &key) override { (void)has_erased(found_by(key)); }
    std::uint64_t NewId() override { return ids_.fetch_add(1, std::memory_order_relaxed) + 1; }

    // A walk over all slots: others may insert and hold meanwhile.
    void Prune() override;

    // What was inserted and not deleted yet, so with what was erased while it is held. Counted
    // here, in parts: no picture of one moment.
    std::size_t TotalCharge() const override;

    // What calls came to so far, while they go on (ferretgold_object_cache_counts).
    ferretgold_counts counts() const noexcept {
        ferretgold_counts counts{};
        (void)ferretgold_object_cache_counts(cache_, &counts);
        return counts;
    }

  private:
    // What an entry stands for. Its key is behind it.
    struct node {
        void *value;
        deleter delete_value;
        std::size_t charge; // in the total; 0 for what isn't in the cache
        std::size_t size;   // of the key

        char *bytes() noexcept { return reinterpret_cast<char *>(this + 1); }
        Slice key() noexcept { return Slice(bytes(), size); }
    };

    // A part of the total, on a line of its own, so that insertions don't meet there.
    struct part {
        char apart[64 - sizeof(std::atomic<std::size_t>)];
        std::atomic<std::size_t> sum{0};
    };

    // What the low bits of a handle say: which are 0 in what it points to.
    enum : std::uintptr_t { LOOKED_UP = 0, INSERTED = 1, UNCACHED = 2, BITS = 3 };
    static_assert(alignof(ferretgold_object_handle) > BITS && alignof(node) > BITS,
                  "ferretgold: handles have no bits left here");

    enum : std::uint16_t { KIND = 0 }; // of which the checking library sees that each stands once
    enum : unsigned { PARTS = 16, TRIES = 10000 };
    enum : std::uint32_t { CLIENTS = 64, GONE = 64, FEWEST_HANDLES = 32, MOST_HANDLES = 1024 };
    enum : std::uint64_t { FEWEST_SLOTS = 64, SLOTS_OF_SHARD = 4096, MOST_SHARDS = 64 };
    enum : std::uint64_t { MOST_SLOTS = MOST_SHARDS * 65536 };

    static node *made_node(const Slice &key, void *value, deleter delete_value) noexcept;
    static void delete_node(node *it) noexcept;
    static void delete_object(void *context, const ferretgold_key *key, void *object,
                              std::uint16_t kind) noexcept;
    static std::uint64_t mixed(std::uint64_t word) noexcept;

    static Handle *handle_on(const void *it, std::uintptr_t bits) noexcept {
        return reinterpret_cast<Handle *>(reinterpret_cast<std::uintptr_t>(it) | bits);
    }
    static std::uintptr_t bits_of(const Handle *handle) noexcept {
        return reinterpret_cast<std::uintptr_t>(handle) & BITS;
    }
    static void *pointer_of(const Handle *handle) noexcept {
        const auto word = reinterpret_cast<std::uintptr_t>(handle);
        return reinterpret_cast<void *>(word - bits_of(handle));
    }
    static node *node_of(const Handle *handle) noexcept {
        void *it = pointer_of(handle);
        return static_cast<node *>(bits_of(handle) == UNCACHED
                                       ? it
                                       : static_cast<ferretgold_object_handle *>(it)->object);
    }

    bool has_erased(const ferretgold_key &key) noexcept;
    void add_to_total(node *it, std::size_t charge) noexcept;
    void take_from_total(node *it) noexcept;
    std::atomic<std::size_t> &part_of(const node *it) noexcept {
        return parts_[reinterpret_cast<std::uintptr_t>(it) / 128 % PARTS].sum;
    }

    ferretgold_object_cache *cache_ = nullptr;
    std::uint32_t shards_ = 0;
    std::uint32_t slots_ = 0;
    std::uint64_t most_ = 0; // that an entry is charged
    bool is_closing_ = false;
    std::atomic<std::uint64_t> ids_{0};
    part parts_[PARTS];
};

// A cache of this capacity, in charges that are mostly of `usual_charge`: the size of blocks, or 1
// where the capacity counts entries. The caller deletes it. Null if memory is refused, the usual
// charge is 0, or the capacity is above 2^40 or above 2,936,012 usual charges.
inline leveldb::Cache *new_leveldb_cache(std::size_t capacity,
                                         std::size_t usual_charge = 4096) noexcept {
    leveldb_cache *it = usual_charge == 0 ? nullptr : new (std::nothrow) leveldb_cache;
    if (it == nullptr || capacity == 0
        || it->has_opened(leveldb_cache::config_for(capacity, usual_charge))) {
        return it;
    }
    delete it;
    return nullptr;
}

// What the calls of such a cache came to so far; it is one that new_leveldb_cache made.
inline ferretgold_counts counts_of(const leveldb::Cache &cache) noexcept {
    return static_cast<const leveldb_cache &>(cache).counts();
}

// ---- Making and ending it ----------------------------------------------------------------------

// Slots for ten sevenths of the entries, which makes evictions cheap. Handles for half of them,
// within bounds: they are most of the memory that isn't slots.
inline ferretgold_object_config leveldb_cache::config_for(std::size_t capacity,
                                                          std::size_t usual_charge) noexcept {
    const std::uint64_t entries = capacity / usual_charge + (capacity % usual_charge != 0);
    const std::uint64_t handles = entries / 2 / CLIENTS;
    std::uint64_t slots = FEWEST_SLOTS;
    while (slots * 7 / 10 < entries && slots <= MOST_SLOTS) {
        slots *= 2;
    }
    const std::uint64_t shards =
        std::min<std::uint64_t>(std::max<std::uint64_t>(slots / SLOTS_OF_SHARD, 1), MOST_SHARDS);
    ferretgold_object_config it = FERRETGOLD_OBJECT_CONFIG;
    it.slots = static_cast<std::uint32_t>(slots / shards);
    it.shards = static_cast<std::uint32_t>(shards);
    it.clients = CLIENTS;
    it.handles = static_cast<std::uint32_t>(std::min<std::uint64_t>(
        std::max<std::uint64_t>(handles, FEWEST_HANDLES), MOST_HANDLES));
    it.gone = GONE;
    it.capacity = capacity;
    return it;
}

inline bool leveldb_cache::has_opened(const ferretgold_object_config &config) noexcept {
    shards_ = config.shards;
    slots_ = config.slots;
    most_ = config.capacity / config.shards;
    return ferretgold_object_open(&config, delete_object, this, &cache_) == FERRETGOLD_OK
           && ferretgold_object_owns(cache_, KIND) == FERRETGOLD_OK;
}

inline leveldb_cache::~leveldb_cache() {
    is_closing_ = true;
    const ferretgold_status status = ferretgold_object_close(cache_);
    assert(cache_ == nullptr || status == FERRETGOLD_OK);
    (void)status;
}

// ---- Keys and nodes ----------------------------------------------------------------------------

inline std::uint64_t leveldb_cache::mixed(std::uint64_t word) noexcept {
    word = (word ^ word >> 32) * UINT64_C(0xd6e8feb86659fd93);
    word = (word ^ word >> 32) * UINT64_C(0xd6e8feb86659fd93);
    return word ^ word >> 32;
}

inline ferretgold_key leveldb_cache::found_by(const Slice &key) noexcept {
    ferretgold_key it;
    if (key.size() == sizeof it) {
        std::memcpy(&it, key.data(), sizeof it);
        return it;
    }
    it.w0 = key.size() * UINT64_C(0x9e3779b97f4a7c15);
    it.w1 = ~it.w0;
    for (std::size_t at = 0; at < key.size(); at += sizeof(std::uint64_t)) {
        std::uint64_t word = 0;
        std::memcpy(&word, key.data() + at, std::min(sizeof word, key.size() - at));
        it.w0 = mixed(it.w0 ^ word);
        it.w1 = mixed(it.w1 + word) * 3;
    }
    return it;
}

inline leveldb_cache::node *leveldb_cache::made_node(const Slice &key, void *value,
                                                     deleter delete_value) noexcept {
    void *at = std::malloc(sizeof(node) + key.size());
    if (at == nullptr) {
        std::abort(); // a handle has to be returned, and the value has to be somewhere
    }
    node *it = new (at) node{value, delete_value, 0, key.size()};
    std::copy(key.data(), key.data() + key.size(), it->bytes());
    return it;
}

// Nothing unwinds through C: a deleter that throws ends the program.
inline void leveldb_cache::delete_node(node *it) noexcept {
    it->delete_value(it->key(), it->value);
    std::free(it);
}

inline void leveldb_cache::delete_object(void *context, const ferretgold_key *, void *object,
                                         std::uint16_t) noexcept {
    node *it = static_cast<node *>(object);
    static_cast<leveldb_cache *>(context)->take_from_total(it);
    delete_node(it);
}

// ---- The total ---------------------------------------------------------------------------------

inline void leveldb_cache::add_to_total(node *it, std::size_t charge) noexcept {
    it->charge = charge;
    part_of(it).fetch_add(charge, std::memory_order_relaxed);
}

inline void leveldb_cache::take_from_total(node *it) noexcept {
    part_of(it).fetch_sub(it->charge, std::memory_order_relaxed);
    it->charge = 0;
}

inline std::size_t leveldb_cache::TotalCharge() const {
    std::size_t total = 0;
    for (const part &it : parts_) {
        total += it.sum.load(std::memory_order_relaxed);
    }
    return total;
}

// ---- The calls ---------------------------------------------------------------------------------

// Whether what a key finds is erased. Where no client is to be had this waits for one: what it left
// would be found still. When the cache is closed none will be had.
inline bool leveldb_cache::has_erased(const ferretgold_key &key) noexcept {
    for (unsigned tries = 0; tries < TRIES; tries++) {
        if (ferretgold_object_erase(cache_, &key, nullptr) != FERRETGOLD_NO_CLIENT) {
            return true;
        }
        if (is_closing_) {
            return false;
        }
        std::this_thread::yield();
    }
    return false;
}

// New blocks begin at the bottom, where they are evicted first, and the handle of the insertion is
// no use of them: a scan passes through, and what is looked up again stays.
inline leveldb::Cache::Handle *leveldb_cache::Insert(const Slice &key, void *value,
                                                     std::size_t charge, deleter delete_value) {
    node *it = made_node(key, value, delete_value);
    const ferretgold_key at = found_by(key);
    if (!has_erased(at) || charge > most_) {
        return handle_on(it, UNCACHED);
    }
    const std::size_t charged =
        std::min<std::size_t>(std::max<std::size_t>(charge, 1), UINT32_MAX);
    const ferretgold_object_handle *handle = nullptr;
    ferretgold_inserted inserted = FERRETGOLD_DROPPED;
    add_to_total(it, charge);
    const ferretgold_status status =
        ferretgold_object_insert_pinned(cache_, &at, it, KIND, static_cast<std::uint32_t>(charged),
                                        FERRETGOLD_BOTTOM, &inserted, &handle);
    if (status != FERRETGOLD_OK || inserted != FERRETGOLD_PLACED) {
        take_from_total(it); // held still, so it is there
    }
    return status == FERRETGOLD_OK ? handle_on(handle, INSERTED) : handle_on(it, UNCACHED);
}

inline leveldb::Cache::Handle *leveldb_cache::Lookup(const Slice &key) {
    const ferretgold_object_handle *handle =
        cache_ != nullptr ? ferretgold_object_find(cache_, found_by(key)) : nullptr;
    if (handle == nullptr) {
        return nullptr;
    }
    if (static_cast<node *>(handle->object)->key() == key) {
        return handle_on(handle, LOOKED_UP);
    }
    (void)ferretgold_object_give_back(cache_, handle, false, false);
    return nullptr;
}

inline void leveldb_cache::Release(Handle *handle) {
    if (bits_of(handle) == UNCACHED) {
        delete_node(node_of(handle));
        return;
    }
    (void)ferretgold_object_give_back(cache_,
                                      static_cast<ferretgold_object_handle *>(pointer_of(handle)),
                                      bits_of(handle) == LOOKED_UP, false);
}

inline void leveldb_cache::Prune() {
    (void)ferretgold_object_collect(cache_);
    for (std::uint32_t shard = 0; shard < shards_; shard++) {
        for (std::uint32_t slot = 0; slot < slots_; slot++) {
            const ferretgold_object_handle *handle = nullptr;
            if (ferretgold_object_pin_at(cache_, shard, slot, &handle) == FERRETGOLD_OK) {
                (void)ferretgold_object_release(cache_, handle, false, true, nullptr);
            }
        }
    }
}

} // namespace ferretgold

#endif

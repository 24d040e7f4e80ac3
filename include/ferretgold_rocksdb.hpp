// ferretgold_rocksdb.hpp - a block cache for RocksDB: its class rocksdb::Cache over
// ferretgold_object.h. For RocksDB 7.8 and C++17; what includes it is linked with libferretgold and
// with RocksDB.
//
//     rocksdb::BlockBasedTableOptions table;
//     table.block_cache = ferretgold::NewFerretgoldCache({std::size_t{1} << 30, 4096});
//
// WHAT IS PROVED
//   The table, and who is handed what: each value that was placed is handed back once, to the call
//   that freed its entry, and not while anybody holds that (docs/GUARANTEES.md). The C between,
//   which finds threads their clients (ferretgold_object.h), and this file are tested, not proved.
//
// VALUES
//   - Keys have 16 bytes, as those of RocksDB's blocks; of another length nothing is found. Values
//     lie below 2^48. A charge is at most 2^32 - 1, and 0 counts, and is shown, as 1. A cache knows
//     4,096 deleters. What else is inserted is refused by NotSupported.
//   - Insert answers OK where the value is placed, OkOverwritten where it goes with its handle,
//     since an entry of its key is there, or no place for it. A value inserted without a handle
//     that finds no place is deleted, and the answer is OK. With a handle the answer is MemoryLimit
//     where the cache is strict and full; and, strict or not, where no handle is to be had, since
//     all of all clients are out, or where more threads insert at once than there are clients, and
//     as many values more than those have places. An answer that isn't OK leaves the value to the
//     caller.
//   - An entry that nobody looks up goes at the first visit of the clock: it begins at 0, and
//     giving back the handle of its insertion is no use of it. One of priority HIGH (index and
//     filter blocks, where the table's options say so) begins at 1. A look-up's handle is a use.
//   - Two look-ups of an entry give two handles. Any thread may give one back; where it isn't the
//     one that got it, Release returns false, and the entry may stay held until the next call of
//     that one's.
//   - Deleters may call the cache, except SetCapacity.
//
// SIZES
//   All memory is allocated when the cache is made, from the capacity, the estimated charge of an
//   entry, the bits of shards and the policy for metadata. As in HyperClockCache, entries of that
//   charge take seven tenths of the slots at most. There are at most 64 shards of 65,536 slots:
//   more entries than 2,900,000 don't fit. 64 clients serve as many threads that make calls at
//   once, and more, but not well. What isn't slots takes 2 of a hundred of a capacity from 160 MiB
//   on, which goes to handles (1,700 for each client where the capacity is 1 GiB), 5 of 64 MiB, and
//   some 700 KB at least. Where metadata is charged it counts with the usage: the slots, which take
//   three quarters of the capacity at most, and of the rest what leaves half of it.
//
// TOTALS
//   They are those of ferretgold_object.h, without what SetCapacity inserts. GetUsage and
//   GetPinnedUsage also count what was erased and is held, and what goes with its handle; where
//   metadata is charged, GetPinnedUsage a slot for as many entries of the estimated charge, too.
//   GetUsage and GetOccupancyCount load a word of each shard, GetPinnedUsage one of each slot, which
//   takes milliseconds in a large cache; and each two of every client.
//
// COUNTS
//   counts_of tells what calls came to, while they go on: as ferretgold_object_cache_counts, with what
//   SetCapacity inserts, and what RocksDB looks for and inserts of its own when it opens a database.
//   All other hits and misses are those of its tickers, where one database alone uses the cache; its
//   ticker of additions leaves out some.
//
// CAPACITY
//   SetCapacity lowers it by entries of no use, which stand for what isn't to be used, and erases
//   others, slot by slot, until the usage is below or all that is left is held. Where a strict
//   cache has too much held, it lowers by less. Above the capacity that the cache was made with it
//   isn't raised, and GetCapacity says so. Whether it is strict stays as it was made.
#ifndef FERRETGOLD_ROCKSDB_HPP
#define FERRETGOLD_ROCKSDB_HPP

#include "ferretgold_object.h"

#include <rocksdb/cache.h>
#include <rocksdb/version.h>

#include <algorithm>
#include <array>
#include <atomic>
#include <cstddef>
#include <cstdint>
#include <cstring>
#include <functional>
#include <memory>
#include <mutex>
#include <new>
#include <string>
#include <thread>
#include <utility>
#include <vector>

// From RocksDB 8.0 on an insertion gives a CacheItemHelper where it gave a deleter, which handles
// then show: that would stand in the table of deleters. Handles can be had of values that aren't
// cached (CreateStandalone), as those that stand alone here, and look-ups can be begun and ended
// apart. No class here has these calls.
#if ROCKSDB_MAJOR != 7 || ROCKSDB_MINOR != 8
#error "ferretgold_rocksdb.hpp is for RocksDB 7.8"
#endif

namespace ferretgold {

// ---- RocksDB's deleters ------------------------------------------------------------------------

// The kinds of a cache's objects: each deleter's is its place in a table, which is found by its
// address. Places are filled under a lock, and never change.
class deleter_kinds {
  public:
    using deleter = rocksdb::Cache::DeleterFn;
    static constexpr std::uint16_t BALLAST = 0; // what SetCapacity inserts
    static constexpr std::uint16_t NOTHING = 1; // what has no deleter
    static constexpr std::uint16_t UNKNOWN = UINT16_MAX;

    deleter_kinds() noexcept {
        table_[BALLAST].store(delete_nothing);
        table_[NOTHING].store(delete_nothing);
    }

    // The kind of a deleter where it is looked for first; else UNKNOWN.
    std::uint16_t at_once(deleter it) const noexcept {
        if (it == nullptr) {
            return NOTHING;
        }
        const std::uint16_t kind = first_of(it);
        return called(kind) == it ? kind : UNKNOWN;
    }

    // The kind of any, which gets one if it has none; UNKNOWN where all are taken.
    std::uint16_t of(deleter it) noexcept {
        const std::uint16_t kind = place_of(it);
        return kind != UNKNOWN && called(kind) == it ? kind : added(it);
    }

    // The deleter of a kind, or null.
    deleter operator[](std::uint16_t kind) const noexcept {
        return kind < FIRST ? nullptr : called(kind);
    }

    // What is called for an object of a kind.
    deleter called(std::uint16_t kind) const noexcept {
        return table_[kind].load(std::memory_order_acquire);
    }

  private:
    static constexpr std::uint16_t FIRST = 2;
    static constexpr std::uint16_t MOST = 4096;

    static void delete_nothing(const rocksdb::Slice &, void *) {}

    // Where a deleter is looked for first.
    static std::uint16_t first_of(deleter it) noexcept {
        const auto address = static_cast<std::uint64_t>(reinterpret_cast<std::uintptr_t>(it));
        return static_cast<std::uint16_t>(FIRST + (address * UINT64_C(0x9e3779b97f4a7c15) >> 52));
    }

    // Where it is, or could be; UNKNOWN if it is nowhere, and all places are taken.
    std::uint16_t place_of(deleter it) const noexcept {
        for (std::uint32_t n = 0; n < MOST; n++) {
            const auto kind = static_cast<std::uint16_t>(FIRST + (first_of(it) - FIRST + n) % MOST);
            const deleter there = called(kind);
            if (there == it || there == nullptr) {
                return kind;
            }
        }
        return UNKNOWN;
    }

    std::uint16_t added(deleter it) noexcept {
        const std::lock_guard<std::mutex> lock(filling_);
        const std::uint16_t kind = place_of(it);
        if (kind != UNKNOWN) {
            table_[kind].store(it, std::memory_order_release);
        }
        return kind;
    }

    std::array<std::atomic<deleter>, FIRST + MOST> table_{};
    std::mutex filling_;
};

// ---- Sizes -------------------------------------------------------------------------------------

// How a cache is made for what RocksDB says of it.
class rocksdb_sizes {
  public:
    // For a cache whose object takes so many bytes.
    rocksdb_sizes(const rocksdb::HyperClockCacheOptions &options, std::uint64_t object) noexcept
        : capacity_(options.capacity), object_(object),
          is_charged_(options.metadata_charge_policy == rocksdb::kFullChargeCacheMetadata) {
        config.strict = options.strict_capacity_limit;
        config.clients = 64;
        config.gone = 128;
        choose_slots(std::max<std::uint64_t>(options.estimated_entry_charge, 1),
                     options.num_shard_bits);
        choose_handles();
        if (is_charged_) {
            const std::uint64_t all = ferretgold_object_memory(&config) + object_;
            charged = std::max(slots_size(), std::min(all, capacity_ / 2));
            charged = std::min(charged, most_slots_size());
        }
        config.capacity = std::max<std::uint64_t>(capacity_ - charged, 1);
    }

    static constexpr std::uint64_t SLOT = 64;

    ferretgold_object_config config = FERRETGOLD_OBJECT_CONFIG;
    std::uint64_t charged = 0; // of the table and the rest, which counts with the usage

  private:
    static constexpr std::uint32_t FEWEST_SLOTS = 8, MOST_SLOTS = 65536, MOST_SHARDS = 64;
    static constexpr std::uint32_t FEWEST_HANDLES = 32, MOST_HANDLES = 16384;
    static constexpr std::uint64_t MEBIBYTE = 1 << 20;

    std::uint64_t slots_size() const noexcept { return SLOT * config.slots * config.shards; }

    // Slots that are charged leave a quarter of the capacity to entries.
    std::uint64_t most_slots_size() const noexcept { return capacity_ - (capacity_ + 3) / 4; }

    // Shards of 32 MiB or more, unless there are too many slots for so few; ten slots for seven
    // entries.
    void choose_slots(std::uint64_t entry, int bits) noexcept {
        const std::uint64_t each = 7 * entry + (is_charged_ ? 10 * SLOT : 0);
        const std::uint64_t wanted = std::min(capacity_, UINT64_MAX / 10) * 10 / each;
        std::uint32_t shards = bits < 0 ? 1 : 1U << std::min(bits, 6);
        while (shards < MOST_SHARDS
               && ((bits < 0 && capacity_ / shards >= 64 * MEBIBYTE)
                   || wanted / shards > MOST_SLOTS)) {
            shards *= 2;
        }
        config.shards = shards;
        config.slots = FEWEST_SLOTS;
        while (config.slots < MOST_SLOTS && config.slots * std::uint64_t{shards} < wanted
               && (!is_charged_ || 2 * slots_size() <= most_slots_size())) {
            config.slots *= 2;
        }
    }

    // As many handles as fit in what may be taken beside the slots.
    void choose_handles() noexcept {
        const std::uint64_t most = std::max(capacity_ / 50, std::min(capacity_ / 20, 3 * MEBIBYTE));
        config.handles = 1;
        const std::uint64_t with_one = ferretgold_object_memory(&config);
        config.handles = 2;
        const std::uint64_t one_more = ferretgold_object_memory(&config) - with_one;
        const std::uint64_t others = with_one + object_ - slots_size();
        const std::uint64_t fits = most < others ? 0 : (most - others) / one_more;
        config.handles = static_cast<std::uint32_t>(
            std::min<std::uint64_t>(std::max<std::uint64_t>(fits, FEWEST_HANDLES), MOST_HANDLES));
    }

    std::uint64_t capacity_, object_;
    bool is_charged_;
};

// ---- The cache ---------------------------------------------------------------------------------

class rocksdb_cache final : public rocksdb::Cache {
  public:
    using rocksdb::Cache::Insert;
    using rocksdb::Cache::Lookup;

    // Null where the sizes are refused, or memory is.
    static std::unique_ptr<rocksdb_cache> made(const rocksdb::HyperClockCacheOptions &options) {
        std::unique_ptr<rocksdb_cache> it(new (std::nothrow) rocksdb_cache(options));
        return it == nullptr || it->cache_ == nullptr ? nullptr : std::move(it);
    }

    // Handles that are still out leave the table where it is.
    ~rocksdb_cache() override {
        if (cache_ != nullptr && !is_disowned_.load()) {
            give_back_ballast();
            (void)ferretgold_object_close(cache_);
        }
    }

    static constexpr const char *NAME = "FerretgoldCache";
    const char *Name() const override { return NAME; }

    // ---- Entries and handles ----

    rocksdb::Status Insert(const rocksdb::Slice &key, void *value, std::size_t charge,
                           DeleterFn deleter, Handle **handle = nullptr,
                           Priority priority = Priority::LOW) override {
        if (handle != nullptr) {
            *handle = nullptr;
        }
        if (is_unfit(key, value, charge)) {
            return refusal(key, value, charge);
        }
        const std::uint16_t kind = deleters_.at_once(deleter);
        return kind == deleter_kinds::UNKNOWN
                   ? inserted_slowly(key, value, charge, deleter, handle, priority)
                   : inserted(key, value, charge, deleter, kind, handle, priority);
    }

    Handle *Lookup(const rocksdb::Slice &key, rocksdb::Statistics * = nullptr) override {
        return key.size() == sizeof(ferretgold_key)
                   ? handle_of(ferretgold_object_find(cache_, key_of(key)))
                   : nullptr;
    }

    bool Ref(Handle *handle) override {
        return handle != nullptr && ferretgold_object_ref(cache_, shown(handle)) == FERRETGOLD_OK;
    }

    // Of null it does nothing.
    bool Release(Handle *handle, bool useful, bool erase_if_last_ref) override {
        return is_of_insertion(handle) ? given_back(shown(handle), false, erase_if_last_ref)
                                       : given_back(unmarked(handle), useful, erase_if_last_ref);
    }

    bool Release(Handle *handle, bool erase_if_last_ref = false) override {
        return Release(handle, true, erase_if_last_ref);
    }

    void *Value(Handle *handle) override { return shown(handle)->object; }
    std::size_t GetCharge(Handle *handle) const override { return shown(handle)->charge; }
    std::size_t GetUsage(Handle *handle) const override { return shown(handle)->charge; }
    DeleterFn GetDeleter(Handle *handle) const override { return deleters_[shown(handle)->kind]; }

    // Where no client is to be had for long, the entry stays.
    void Erase(const rocksdb::Slice &key) override {
        if (key.size() == sizeof(ferretgold_key)) {
            const ferretgold_key wanted = key_of(key);
            (void)patiently([&] { return ferretgold_object_erase(cache_, &wanted, nullptr); });
        }
    }

    // ---- All entries ----

    void EraseUnRefEntries() override {
        (void)ferretgold_object_collect(cache_);
        for_each([this](const ferretgold_object_handle *it) { (void)has_freed(it); });
    }

    // The callback is called while no call of the cache is under way, and the entry is held.
    void ApplyToAllEntries(
        const std::function<void(const rocksdb::Slice &, void *, std::size_t, DeleterFn)> &callback,
        const ApplyToAllEntriesOptions &) override {
        (void)ferretgold_object_collect(cache_);
        for_each([&](const ferretgold_object_handle *it) {
            if (it->kind != deleter_kinds::BALLAST) {
                callback(slice_of(it->key), it->object, it->charge, deleters_[it->kind]);
            }
            give_back(it);
        });
    }

    std::size_t GetUsage() const override {
        return metadata_ + total(ferretgold_object_usage, ballast_charge_);
    }

    std::size_t GetPinnedUsage() const override {
        (void)ferretgold_object_collect(cache_);
        const std::size_t pinned = total(ferretgold_object_pinned_usage, ballast_charge_);
        const std::size_t entries = pinned / entry_charge_ + (pinned % entry_charge_ != 0);
        return pinned + std::min(entries, metadata_ / rocksdb_sizes::SLOT) * rocksdb_sizes::SLOT;
    }

    std::size_t GetOccupancyCount() const override {
        return total(ferretgold_object_occupancy, ballast_entries_);
    }

    std::size_t GetTableAddressCount() const override {
        return std::size_t{config_.shards} * config_.slots;
    }

    // What calls came to so far.
    ferretgold_counts counts() const noexcept {
        ferretgold_counts counts{};
        (void)ferretgold_object_cache_counts(cache_, &counts);
        return counts;
    }

    // ---- The capacity ----

    void SetCapacity(std::size_t capacity) override {
        const std::lock_guard<std::mutex> lock(changing_);
        capacity_.store(std::min(capacity, made_capacity_));
        give_back_ballast();
        (void)ferretgold_object_collect(cache_);
        const std::size_t wanted = capacity_.load();
        const std::uint64_t limit = shard_part(wanted - std::min(wanted, metadata_));
        const std::uint64_t most = shard_part(config_.capacity);
        if (limit >= most || !has_ballast_keys()) {
            return;
        }
        for (std::uint32_t shard = 0; shard < config_.shards; shard++) {
            lower_usage(shard, limit);
            insert_ballast(ballast_keys_[shard], most - limit);
            lower_usage(shard, limit);
        }
    }

    std::size_t GetCapacity() const override { return capacity_.load(); }
    void SetStrictCapacityLimit(bool) override {}
    bool HasStrictCapacityLimit() const override { return config_.strict; }

    // ---- The rest ----

    std::uint64_t NewId() override { return ids_.fetch_add(1, std::memory_order_relaxed) + 1; }
    void DisownData() override { is_disowned_.store(true); }

    std::string GetPrintableOptions() const override {
        const rocksdb::MemoryAllocator *allocator = memory_allocator();
        return "    capacity : " + std::to_string(GetCapacity())
               + "\n    num_shards : " + std::to_string(config_.shards)
               + "\n    slots of a shard : " + std::to_string(config_.slots)
               + "\n    strict_capacity_limit : " + std::to_string(config_.strict)
               + "\n    memory_allocator : " + (allocator == nullptr ? "None" : allocator->Name())
               + "\n";
    }

  private:
    // What goes to its deleter if it isn't placed. It is in memory, as the key has to be, so that a call
    // keeps little else.
    struct offer {
        DeleterFn deleter;
        void *value;
        ferretgold_key key;
    };

    explicit rocksdb_cache(const rocksdb::HyperClockCacheOptions &options)
        : rocksdb::Cache(options.memory_allocator), made_capacity_(options.capacity),
          capacity_(options.capacity),
          entry_charge_(std::max<std::size_t>(options.estimated_entry_charge, 1)) {
        const rocksdb_sizes sizes(options, sizeof *this);
        metadata_ = static_cast<std::size_t>(sizes.charged);
        config_ = sizes.config;
        ballast_keys_.resize(config_.shards);
        const std::uint64_t pieces = PIECES + shard_part(config_.capacity) / UINT32_MAX;
        ballast_.reserve(config_.shards * pieces);
        (void)ferretgold_object_open(&config_, deleted, this, &cache_);
    }

    static void deleted(void *context, const ferretgold_key *key, void *value,
                        std::uint16_t kind) noexcept {
        static_cast<rocksdb_cache *>(context)->deleters_.called(kind)(slice_of(*key), value);
    }

    // ---- Keys and handles ----

    static ferretgold_key key_of(const rocksdb::Slice &key) noexcept {
        ferretgold_key it{};
        std::memcpy(&it, key.data(), sizeof it);
        return it;
    }

    static rocksdb::Slice slice_of(const ferretgold_key &key) noexcept {
        return rocksdb::Slice(reinterpret_cast<const char *>(&key), sizeof key);
    }

    // What of a handle's address says that its insertion gave it.
    static constexpr std::uintptr_t INSERTION = 1;
    static_assert(alignof(ferretgold_object_handle) > INSERTION);

    static Handle *handle_of(const ferretgold_object_handle *it, std::uintptr_t mark = 0) noexcept {
        return reinterpret_cast<Handle *>(reinterpret_cast<std::uintptr_t>(it) | mark);
    }

    static const ferretgold_object_handle *shown(const Handle *handle) noexcept {
        return reinterpret_cast<const ferretgold_object_handle *>(
            reinterpret_cast<std::uintptr_t>(handle) & ~INSERTION);
    }

    static bool is_of_insertion(const Handle *handle) noexcept {
        return (reinterpret_cast<std::uintptr_t>(handle) & INSERTION) != 0;
    }

    // The same as `shown` of one that is of none.
    static const ferretgold_object_handle *unmarked(const Handle *handle) noexcept {
        return reinterpret_cast<const ferretgold_object_handle *>(handle);
    }

    bool given_back(const ferretgold_object_handle *it, bool useful, bool erase) {
        return ferretgold_object_give_back(cache_, it, useful, erase);
    }

    // ---- Insertions ----

    // Whether an insertion isn't tried: of another key, a charge from 2^32 on, a value from 2^48 on.
    static bool is_unfit(const rocksdb::Slice &key, const void *value, std::size_t charge) noexcept {
        const std::uint64_t address = reinterpret_cast<std::uintptr_t>(value);
        return key.size() != sizeof(ferretgold_key) || (address >> 16 | charge) >> 32 != 0;
    }

    // Why it isn't.
    [[gnu::noinline, gnu::cold]] static rocksdb::Status
    refusal(const rocksdb::Slice &key, const void *value, std::size_t charge) {
        return rocksdb::Status::NotSupported(!is_unfit(key, value, charge)
                                                 ? "a cache knows 4,096 deleters"
                                             : key.size() != sizeof(ferretgold_key)
                                                 ? "keys have 16 bytes"
                                             : charge > UINT32_MAX ? "a charge is below 2^32"
                                                                   : "a value lies below 2^48");
    }

    // Where the handle is given back as no use, a new entry begins one below this rank.
    static ferretgold_priority rank_of(Priority priority) noexcept {
        return priority == Priority::HIGH ? FERRETGOLD_LOW : FERRETGOLD_BOTTOM;
    }

    // Where the deleter's kind isn't found at once, so that others keep nothing for that.
    [[gnu::noinline, gnu::cold]] rocksdb::Status
    inserted_slowly(const rocksdb::Slice &key, void *value, std::size_t charge, DeleterFn deleter,
                    Handle **handle, Priority priority) {
        const std::uint16_t kind = deleters_.of(deleter);
        return kind == deleter_kinds::UNKNOWN
                   ? refusal(key, value, charge)
                   : inserted(key, value, charge, deleter, kind, handle, priority);
    }

    rocksdb::Status inserted(const rocksdb::Slice &key, void *value, std::size_t charge,
                             DeleterFn deleter, std::uint16_t kind, Handle **handle,
                             Priority priority) {
        const offer it{deleter, value, key_of(key)};
        const auto charged = static_cast<std::uint32_t>(charge + (charge == 0));
        return handle != nullptr ? inserted_with(it, kind, charged, priority, handle)
                                 : inserted_without(it, kind, charged, priority);
    }

    rocksdb::Status inserted_with(const offer &it, std::uint16_t kind, std::uint32_t charge,
                                  Priority priority, Handle **handle) {
        ferretgold_inserted inserted = FERRETGOLD_PLACED;
        const ferretgold_object_handle *held = nullptr;
        if (ferretgold_object_insert_pinned(cache_, &it.key, it.value, kind, charge,
                                            rank_of(priority), &inserted, &held)
            != FERRETGOLD_OK) {
            return rocksdb::Status::MemoryLimit("the cache is full, or all its handles are out");
        }
        *handle = handle_of(held, INSERTION);
        return inserted == FERRETGOLD_PLACED ? rocksdb::Status::OK()
                                             : rocksdb::Status::OkOverwritten();
    }

    // Also what finds no place, or is refused, is the cache's, which deletes it.
    rocksdb::Status inserted_without(const offer &it, std::uint16_t kind, std::uint32_t charge,
                                     Priority priority) {
        if (!ferretgold_object_put(cache_, &it.key, it.value, kind, charge, rank_of(priority))) {
            drop(it);
        }
        return rocksdb::Status::OK();
    }

    [[gnu::noinline, gnu::cold]] static void drop(const offer &it) {
        if (it.deleter != nullptr) {
            it.deleter(slice_of(it.key), it.value);
        }
    }

    // ---- Walks ----

    // Makes a call until there is a client for it, some times at most.
    template <typename Call> static ferretgold_status patiently(Call call) {
        ferretgold_status why = call();
        for (int tries = 0; why == FERRETGOLD_NO_CLIENT && tries < 64; tries++) {
            std::this_thread::yield();
            why = call();
        }
        return why;
    }

    void give_back(const ferretgold_object_handle *it) const noexcept {
        (void)ferretgold_object_release(cache_, it, false, false, nullptr);
    }

    // Gives a handle back, and frees the entry if nobody else holds it. Whether it did.
    bool has_freed(const ferretgold_object_handle *it) const noexcept {
        bool freed = false;
        (void)ferretgold_object_release(cache_, it, false, true, &freed);
        return freed;
    }

    // Holds each entry of a shard in turn for `visit`, which gives it back.
    template <typename Visit> void for_each_in(std::uint32_t shard, Visit &&visit) const {
        for (std::uint32_t slot = 0; slot < config_.slots; slot++) {
            const ferretgold_object_handle *it = nullptr;
            if (patiently([&] { return ferretgold_object_pin_at(cache_, shard, slot, &it); })
                == FERRETGOLD_OK) {
                visit(it);
            }
        }
    }

    template <typename Visit> void for_each(Visit &&visit) const {
        for (std::uint32_t shard = 0; shard < config_.shards; shard++) {
            for_each_in(shard, visit);
        }
    }

    // ---- Totals ----

    // A total without what the ballast has of it. Where no client is to be had for long it is 0.
    template <typename Total>
    std::size_t total(Total tell, const std::atomic<std::uint64_t> &ballast) const {
        std::uint64_t all = 0;
        (void)patiently([&] { return tell(cache_, &all); });
        return static_cast<std::size_t>(all - std::min(all, ballast.load()));
    }

    // The charges of a shard's entries that a look-up could find.
    std::uint64_t usage_of(std::uint32_t shard) const {
        std::uint64_t usage = 0;
        for_each_in(shard, [&](const ferretgold_object_handle *it) {
            usage += it->kind == deleter_kinds::BALLAST ? 0 : it->charge;
            give_back(it);
        });
        return usage;
    }

    // ---- Ballast ----

    static constexpr std::uint64_t PIECES = 8; // of the ballast in a shard, if none is very large

    std::uint64_t shard_part(std::uint64_t charge) const noexcept {
        return (charge + config_.shards - 1) / config_.shards;
    }

    void give_back_ballast() noexcept {
        for (const ferretgold_object_handle *it : ballast_) {
            (void)has_freed(it);
        }
        ballast_.clear();
        ballast_charge_.store(0);
        ballast_entries_.store(0);
    }

    // Erases entries of a shard that nobody holds while its usage is above a limit.
    void lower_usage(std::uint32_t shard, std::uint64_t limit) const {
        std::uint64_t usage = usage_of(shard);
        for_each_in(shard, [&](const ferretgold_object_handle *it) {
            const std::uint64_t charge = it->charge;
            if (it->kind == deleter_kinds::BALLAST || usage <= limit) {
                give_back(it);
            } else if (has_freed(it)) {
                usage -= std::min(usage, charge);
            }
        });
    }

    // Inserts entries of no use with so much charge: the first takes a slot, and what else has the
    // key stands alone. Where too much is held for one so large, it is tried with half of it.
    void insert_ballast(const ferretgold_key &key, std::uint64_t charge) {
        std::uint64_t piece = std::min<std::uint64_t>(charge, UINT32_MAX);
        while (piece > 0 && ballast_.size() < ballast_.capacity()) {
            const ferretgold_object_handle *held = nullptr;
            ferretgold_inserted inserted = FERRETGOLD_PLACED;
            const ferretgold_status why = ferretgold_object_insert_pinned(
                cache_, &key, nullptr, deleter_kinds::BALLAST, static_cast<std::uint32_t>(piece),
                FERRETGOLD_HIGH, &inserted, &held);
            if (why != FERRETGOLD_OK) {
                piece /= 2;
                continue;
            }
            ballast_.push_back(held);
            ballast_charge_ += piece;
            ballast_entries_ += inserted == FERRETGOLD_PLACED;
            charge -= piece;
            piece = std::min(piece, charge);
        }
    }

    // Finds a key of each shard, once: which shard a key has is seen where its entry stands. Keys
    // that no block has, whose files and offsets are small numbers.
    bool has_ballast_keys() {
        for (int tries = 0; tries < 16 && keys_found_ < config_.shards; tries++) {
            for (std::uint32_t k = 0; k < 8 * config_.shards; k++) {
                const ferretgold_key key{UINT64_C(0xfee7601dba11a57), ~next_key_++};
                (void)ferretgold_object_insert(cache_, &key, nullptr, deleter_kinds::BALLAST, 1,
                                               FERRETGOLD_HIGH, nullptr);
            }
            for (std::uint32_t shard = 0; shard < config_.shards; shard++) {
                for_each_in(shard, [&](auto *it) { note_key(shard, it); });
            }
        }
        return keys_found_ == config_.shards;
    }

    void note_key(std::uint32_t shard, const ferretgold_object_handle *it) {
        if (it->kind != deleter_kinds::BALLAST) {
            give_back(it);
            return;
        }
        ferretgold_key &key = ballast_keys_[shard];
        keys_found_ += key.w0 == 0;
        key = it->key;
        (void)has_freed(it);
    }

    ferretgold_object_cache *cache_ = nullptr;
    ferretgold_object_config config_{};
    deleter_kinds deleters_;
    const std::size_t made_capacity_;
    std::atomic<std::size_t> capacity_;
    const std::size_t entry_charge_; // as estimated
    std::size_t metadata_ = 0;
    std::atomic<std::uint64_t> ids_{0};
    std::atomic<bool> is_disowned_{false};
    std::atomic<std::uint64_t> ballast_charge_{0}, ballast_entries_{0};

    std::mutex changing_; // the capacity, with what is below
    std::vector<const ferretgold_object_handle *> ballast_;
    std::vector<ferretgold_key> ballast_keys_; // of each shard one, if its first word isn't 0
    std::uint64_t next_key_ = 0;
    std::uint32_t keys_found_ = 0;
};

// A block cache of this capacity and estimated charge of an entry, of so many shards, strict or
// not. Null where it can't be made: the capacity is above 2^40, or memory is refused.
inline std::shared_ptr<rocksdb::Cache>
NewFerretgoldCache(const rocksdb::HyperClockCacheOptions &options) {
#ifdef __cpp_exceptions
    try {
        return rocksdb_cache::made(options);
    } catch (const std::bad_alloc &) {
        return nullptr;
    }
#else
    return rocksdb_cache::made(options);
#endif
}

// What the calls of such a cache came to so far; of another one nothing.
inline ferretgold_counts counts_of(const rocksdb::Cache &cache) noexcept {
    return std::strcmp(cache.Name(), rocksdb_cache::NAME) == 0
               ? static_cast<const rocksdb_cache &>(cache).counts()
               : ferretgold_counts{};
}

} // namespace ferretgold

#endif

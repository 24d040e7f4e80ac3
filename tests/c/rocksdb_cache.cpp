// A test of ferretgold_rocksdb.hpp: rows of each function's answers, a database that reads what it
// wrote through a cache of a tenth of it, and threads whose objects look after themselves.
// Usage: rocksdb_cache FOLDER [OPERATIONS]     of the threads: 1,000,000 by default
#include "ferretgold_rocksdb.hpp"

#include <rocksdb/db.h>
#include <rocksdb/filter_policy.h>
#include <rocksdb/statistics.h>
#include <rocksdb/table.h>

#include <cstdio>
#include <cstdlib>
#include <random>
#include <set>

#ifdef __SANITIZE_ADDRESS__
#include <sanitizer/lsan_interface.h>
#endif

namespace {

using rocksdb::Cache;
using rocksdb::Slice;
using rocksdb::Status;
using cache_pointer = std::shared_ptr<Cache>;
using handle = Cache::Handle *;
using options = rocksdb::HyperClockCacheOptions;

std::atomic<unsigned long> faults{0};

template <typename Is, typename Wanted>
void expect(int line, const char *what, const Is &is, const Wanted &wanted) {
    if (!(is == static_cast<Is>(wanted)) && faults++ < 30) {
        std::printf("rocksdb_cache.cpp:%d: %s is another\n", line, what);
    }
}
#define EXPECT(what, wanted) expect(__LINE__, #what, what, wanted)

// ---- Keys, values that stand for nothing, and caches -------------------------------------------

std::string key_of(std::uint64_t number) {
    std::string key(16, 'k');
    std::memcpy(&key[0], &number, sizeof number);
    return key;
}

void *value_of(std::uint64_t number) {
    return reinterpret_cast<void *>(static_cast<std::uintptr_t>(number));
}

std::atomic<int> deleted{0};
void count_deleted(const Slice &key, void *) { deleted += key.size() == 16; }

// A cache of so many shards whose charges count, and nothing else.
cache_pointer small(std::size_t capacity, bool strict = false, int bits = 0) {
    return ferretgold::NewFerretgoldCache(
        {capacity, 1, bits, strict, nullptr, rocksdb::kDontChargeCacheMetadata});
}

// Inserts a number as its own key and value; with a charge of 1 if nothing else is said.
Status put(Cache &cache, std::uint64_t number, handle *held = nullptr, std::size_t charge = 1,
           Cache::Priority priority = Cache::Priority::LOW) {
    return cache.Insert(key_of(number), value_of(number), charge, count_deleted, held, priority);
}

bool has(Cache &cache, std::uint64_t number) {
    const handle found = cache.Lookup(key_of(number));
    if (found != nullptr) {
        EXPECT(cache.Value(found), value_of(number));
        cache.Release(found);
    }
    return found != nullptr;
}

// How many of some numbers are there.
int count_of(Cache &cache, std::uint64_t first, std::uint64_t end) {
    int count = 0;
    for (std::uint64_t number = first; number < end; number++) {
        count += has(cache, number);
    }
    return count;
}

// ---- Answers -----------------------------------------------------------------------------------

struct insertion {
    std::size_t length, charge;
    std::uint64_t value;
    bool is_held, is_strict;
    Status::Code code;
    Status::SubCode subcode;
    int deleted;
};

const insertion INSERTIONS[] = {
    {16, 1, 8, false, false, Status::kOk, Status::kNone, 0},
    {16, 1, 8, true, true, Status::kOk, Status::kNone, 0},
    {16, 0, 0, true, false, Status::kOk, Status::kNone, 0},
    {16, 100, 8, true, true, Status::kOk, Status::kNone, 0},
    {15, 1, 8, true, false, Status::kNotSupported, Status::kNone, 0},
    {17, 1, 8, false, false, Status::kNotSupported, Status::kNone, 0},
    {16, 1UL << 32, 8, false, false, Status::kNotSupported, Status::kNone, 0},
    {16, 1, 1UL << 48, true, false, Status::kNotSupported, Status::kNone, 0},
    {16, 101, 8, true, true, Status::kAborted, Status::kMemoryLimit, 0},
    {16, 101, 8, false, true, Status::kOk, Status::kNone, 1},
};

// What insertions answer, whose the value is then, and what their handles show.
void answers_insertions() {
    for (const insertion &it : INSERTIONS) {
        const cache_pointer cache = small(100, it.is_strict);
        handle held = reinterpret_cast<handle>(&deleted);
        deleted = 0;
        const std::string key(it.length, 'k');
        const Status status = cache->Insert(key, value_of(it.value), it.charge, count_deleted,
                                            it.is_held ? &held : nullptr);
        EXPECT(status.code(), it.code);
        EXPECT(status.subcode(), it.subcode);
        EXPECT(deleted.load(), it.deleted);
        if (it.is_held) {
            EXPECT(held != nullptr, status.ok());
        }
        if (it.is_held && status.ok()) {
            EXPECT(cache->Value(held), value_of(it.value));
            EXPECT(cache->GetCharge(held), it.charge == 0 ? 1 : it.charge);
            EXPECT(cache->GetUsage(held), it.charge == 0 ? 1 : it.charge);
            EXPECT(cache->GetDeleter(held) == count_deleted, true);
            EXPECT(cache->Release(held, true), true);
            EXPECT(deleted.load(), 1);
        }
    }
}

// A key that is there keeps its value; what else has it goes with its handle, or at once.
void keeps_the_first() {
    const cache_pointer cache = small(100);
    handle held = nullptr;
    deleted = 0;
    EXPECT(put(*cache, 1).ok(), true);
    EXPECT(cache->Insert(key_of(1), value_of(2), 1, count_deleted).ok(), true);
    EXPECT(deleted.load(), 1);
    EXPECT(cache->Insert(key_of(1), value_of(3), 1, count_deleted, &held).IsOkOverwritten(), true);
    EXPECT(cache->Value(held), value_of(3));
    EXPECT(has(*cache, 1), true);
    EXPECT(cache->Release(held), true);
    EXPECT(deleted.load(), 2);
    EXPECT(cache->Lookup(Slice("short")) == nullptr, true);
    cache->Erase(Slice("short"));
    cache->Erase(key_of(1));
    EXPECT(deleted.load(), 3);
    EXPECT(has(*cache, 1), false);
    EXPECT(cache->Ref(nullptr) || cache->Release(nullptr, true, true), false);
}

// References, and what was erased while it was held; a handle goes to another thread and is given
// back there.
void counts_references() {
    const cache_pointer cache = small(100);
    handle held = nullptr;
    deleted = 0;
    EXPECT(put(*cache, 1, &held).ok(), true);
    EXPECT(cache->Ref(held), true);
    EXPECT(cache->Release(held, true), false);
    EXPECT(deleted.load(), 0);
    const handle other = cache->Lookup(key_of(1));
    cache->Erase(key_of(1));
    EXPECT(has(*cache, 1), false);
    EXPECT(cache->Release(held, true), false);
    EXPECT(deleted.load(), 0);
    std::thread([&] {
        EXPECT(cache->Value(other), value_of(1));
        EXPECT(cache->Release(other), false);
    }).join();
    EXPECT(has(*cache, 2), false);
    EXPECT(deleted.load(), 1);
}

// Fills a cache of 32 with entries, of which 16 are looked up three times, and then scans. All 16
// stay if each of the scan goes at the first visit.
bool outlives_a_scan(bool is_held, bool says_useful, Cache::Priority priority) {
    const cache_pointer cache = small(32);
    for (std::uint64_t number = 0; number < 80; number++) {
        handle held = nullptr;
        EXPECT(put(*cache, number, is_held ? &held : nullptr, 1, priority).ok(), true);
        if (says_useful) {
            cache->Release(held, true, false);
        } else if (is_held) {
            cache->Release(held);
        }
        for (int times = 0; number < 16 && times < 3; times++) {
            EXPECT(has(*cache, number), true);
        }
    }
    return count_of(*cache, 0, 16) == 16;
}

void begins_at_nothing() {
    const bool ways[][2] = {{false, false}, {true, false}, {true, true}};
    for (const auto &[is_held, says_useful] : ways) {
        EXPECT(outlives_a_scan(is_held, says_useful, Cache::Priority::BOTTOM), true);
        EXPECT(outlives_a_scan(is_held, says_useful, Cache::Priority::LOW), true);
        EXPECT(outlives_a_scan(is_held, says_useful, Cache::Priority::HIGH), false);
    }
}

// Index blocks, of priority high, outlive as many others as come in one turn of the clock.
void keeps_what_is_high() {
    const cache_pointer cache = small(32);
    for (std::uint64_t number = 0; number < 32; number++) {
        EXPECT(put(*cache, number, nullptr, 1,
                   number % 2 == 0 ? Cache::Priority::HIGH : Cache::Priority::LOW).ok(), true);
    }
    for (std::uint64_t number = 32; number < 44; number++) {
        EXPECT(put(*cache, number).ok(), true);
    }
    int high = 0;
    for (std::uint64_t number = 0; number < 32; number += 2) {
        high += has(*cache, number);
    }
    EXPECT(high, 16);
}

// ---- Deleters ----------------------------------------------------------------------------------

constexpr std::size_t DELETERS = 4097;
std::array<int, DELETERS> runs;
template <std::size_t N> void delete_by(const Slice &, void *) { runs[N] += 1; }

template <std::size_t... N>
constexpr std::array<Cache::DeleterFn, sizeof...(N)> all_deleters(std::index_sequence<N...>) {
    return {delete_by<N>...};
}
const auto DELETERS_BY = all_deleters(std::make_index_sequence<DELETERS>());

// A cache knows 4,096 deleters, and each gets its own values, at the end, too; none is one as well.
void knows_deleters() {
    cache_pointer cache = small(10000);
    handle held = nullptr;
    for (std::size_t n = 0; n < DELETERS; n++) {
        const Status status = cache->Insert(key_of(n), value_of(n), 1, DELETERS_BY[n]);
        EXPECT(status.IsNotSupported(), n == DELETERS - 1);
    }
    EXPECT(cache->Insert(key_of(DELETERS), value_of(1), 1, nullptr, &held).ok(), true);
    EXPECT(cache->GetDeleter(held) == nullptr, true);
    cache->Release(held);
    held = cache->Lookup(key_of(5));
    EXPECT(cache->GetDeleter(held) == DELETERS_BY[5], true);
    cache->Release(held);
    EXPECT(cache->Insert(key_of(DELETERS + 1), value_of(1), 1, DELETERS_BY[5]).ok(), true);
    cache.reset();
    for (std::size_t n = 0; n < DELETERS; n++) {
        EXPECT(runs[n], n == 5 ? 2 : n < DELETERS - 1);
    }
}

// A deleter calls its cache.
Cache *called = nullptr;
void delete_and_call(const Slice &, void *) {
    EXPECT(has(*called, 7), true);
    called->Erase(key_of(7));
    EXPECT(put(*called, 8).ok(), true);
}

void lets_deleters_call() {
    const cache_pointer cache = small(100);
    called = cache.get();
    deleted = 0;
    EXPECT(put(*cache, 7).ok(), true);
    EXPECT(cache->Insert(key_of(6), nullptr, 1, delete_and_call).ok(), true);
    cache->Erase(key_of(6));
    EXPECT(deleted.load(), 1);
    EXPECT(has(*cache, 8), true);
}

// ---- Walks and totals --------------------------------------------------------------------------

void walks() {
    const cache_pointer cache = small(1000, false, 2);
    std::set<std::string> keys;
    std::size_t usage = 0, occupancy = 0;
    handle held = nullptr;
    deleted = 0;
    for (std::uint64_t number = 0; number < 100; number++) {
        EXPECT(put(*cache, number, number == 50 ? &held : nullptr, number % 5 + 1).ok(), true);
    }
    cache->ApplyToAllEntries(
        [&](const Slice &key, void *value, std::size_t charge, Cache::DeleterFn deleter) {
            const auto number = static_cast<std::uint64_t>(reinterpret_cast<std::uintptr_t>(value));
            EXPECT(key == key_of(number) && deleter == count_deleted, true);
            EXPECT(charge, number % 5 + 1);
            EXPECT(has(*cache, number), true);
            keys.insert(key.ToString());
            usage += charge;
            occupancy += 1;
        },
        {});
    EXPECT(keys.size(), 100);
    EXPECT(occupancy, 100);
    EXPECT(cache->GetOccupancyCount(), 100);
    EXPECT(cache->GetUsage(), usage);
    EXPECT(usage, 300);
    cache->ApplyToAllCacheEntries([](void *, std::size_t charge) { runs[charge] = 9; }, true);
    EXPECT(runs[1] + runs[5], 18);
    cache->EraseUnRefEntries();
    EXPECT(deleted.load(), 99);
    EXPECT(cache->GetUsage(), cache->GetCharge(held));
    EXPECT(cache->Release(held, true), true);
    EXPECT(cache->GetOccupancyCount(), 0);
}

// What another thread gave back isn't held by a walk.
void walks_after_other_threads() {
    const cache_pointer cache = small(100);
    handle held = nullptr;
    deleted = 0;
    EXPECT(put(*cache, 1, &held).ok(), true);
    std::thread([&] { cache->Release(held); }).join();
    cache->EraseUnRefEntries();
    EXPECT(deleted.load(), 1);
}

void expect_totals(const Cache &cache, std::size_t usage, std::size_t pinned, std::size_t entries) {
    EXPECT(cache.GetUsage(), usage);
    EXPECT(cache.GetPinnedUsage(), pinned);
    EXPECT(cache.GetOccupancyCount(), entries);
}

// Totals count what is held, was erased or goes with its handle, too, and no ballast.
void tells_totals() {
    const cache_pointer cache = small(1000, false, 1);
    handle held = nullptr, alone = nullptr;
    EXPECT(put(*cache, 1, nullptr, 30).ok(), true);
    EXPECT(put(*cache, 2, &held, 5).ok(), true);
    EXPECT(put(*cache, 2, &alone, 7).IsOkOverwritten(), true);
    expect_totals(*cache, 42, 12, 2);
    for (std::size_t capacity : {500, 300, 1000}) {
        cache->SetCapacity(capacity);
        expect_totals(*cache, 42, 12, 2);
    }
    cache->Erase(key_of(2));
    expect_totals(*cache, 42, 12, 2);
    EXPECT(cache->Release(held), true);
    expect_totals(*cache, 37, 7, 1);
    EXPECT(cache->Release(alone), true);
    expect_totals(*cache, 30, 0, 1);
}

// Where metadata is charged, an entry that is pinned has a slot of it, by its estimated charge.
void pins_metadata() {
    const cache_pointer cache = ferretgold::NewFerretgoldCache({1 << 20, 4096, 0});
    const std::size_t slots = cache->GetUsage();
    handle held = nullptr;
    expect_totals(*cache, slots, 0, 0);
    EXPECT(put(*cache, 1, &held, 3 * 4096 - 1).ok(), true);
    expect_totals(*cache, slots + 3 * 4096 - 1, 3 * 4096 - 1 + 3 * 64, 1);
    cache->Release(held);
    expect_totals(*cache, slots + 3 * 4096 - 1, 0, 1);
}

// ---- Capacities --------------------------------------------------------------------------------

void fill(Cache &cache, std::uint64_t first, std::uint64_t count) {
    for (std::uint64_t number = first; number < first + count; number++) {
        EXPECT(put(cache, number).ok(), true);
    }
}

// A capacity is lowered and raised again; what is held stays.
void sets_capacities(bool is_strict) {
    const cache_pointer cache = small(4000, is_strict, 1);
    std::vector<handle> held;
    fill(*cache, 0, 4000);
    EXPECT(cache->GetUsage() > 3500, true);
    for (std::uint64_t number = 0; number < 4000 && held.size() < 200; number++) {
        if (handle it = cache->Lookup(key_of(number))) {
            held.push_back(it);
        }
    }
    for (std::size_t capacity : {2000, 5000, 1000, 600}) {
        cache->SetCapacity(capacity);
        const std::size_t most = std::min<std::size_t>(capacity, 4000);
        EXPECT(cache->GetCapacity(), most);
        EXPECT(cache->GetUsage() <= most, true);
        EXPECT(cache->GetUsage() > most * 3 / 4 || capacity > 4000, true);
        fill(*cache, 10000 + capacity, 5000);
        EXPECT(cache->GetUsage() <= most && cache->GetUsage() > most * 3 / 4, true);
    }
    cache->SetCapacity(100);
    fill(*cache, 20000, 5000);
    EXPECT(cache->GetUsage() >= 200 && cache->GetUsage() < 300, true);
    for (handle it : held) {
        cache->Release(it);
    }
    cache->SetCapacity(0);
    EXPECT(cache->GetUsage(), 0);
    handle none = nullptr;
    EXPECT(put(*cache, 1, &none).ok(), !is_strict);
    EXPECT(is_strict ? none == nullptr : cache->Release(none, true), true);
    EXPECT(cache->GetOccupancyCount(), 0);
}

// How caches are made.
void makes_caches() {
    const std::size_t gibibyte = std::size_t{1} << 30;
    for (std::size_t capacity : {gibibyte / 16, gibibyte}) {
        const options sizes(capacity, 4096);
        const cache_pointer cache = ferretgold::NewFerretgoldCache(sizes);
        const std::size_t slots = cache->GetTableAddressCount() * 64;
        const std::size_t most = capacity / (capacity == gibibyte ? 50 : 20);
        EXPECT(cache->GetUsage() >= slots && cache->GetUsage() <= slots + most, true);
        EXPECT(cache->GetTableAddressCount() * 7 / 10 >= capacity / 4096, true);
        EXPECT(cache->HasStrictCapacityLimit(), false);
        EXPECT(cache->GetPrintableOptions().find(std::to_string(capacity)) != std::string::npos,
               true);
        EXPECT(cache->NewId() != cache->NewId(), true);
        EXPECT(std::string(cache->Name()), "FerretgoldCache");
    }
    EXPECT(small((std::size_t{1} << 40) + 1) == nullptr, true);
    const cache_pointer strict = small(100, true);
    strict->SetStrictCapacityLimit(false);
    EXPECT(strict->HasStrictCapacityLimit(), true);
}

// Nothing is deleted of a cache that was disowned.
void disowns() {
#ifdef __SANITIZE_ADDRESS__
    const __lsan::ScopedDisabler leaks;
#endif
    cache_pointer cache = small(100);
    deleted = 0;
    fill(*cache, 0, 10);
    cache->DisownData();
    cache.reset();
    EXPECT(deleted.load(), 0);
}

// ---- Threads whose objects look after themselves -----------------------------------------------

std::atomic<long> alive{0};

struct object {
    static constexpr std::uint64_t CANARY = 0x5eed5eed5eed5eed;

    explicit object(std::uint64_t of_number) : number(of_number) { alive += 1; }
    ~object() {
        EXPECT(canary, CANARY);
        EXPECT(holders.load(), 0);
        canary = 0;
        alive -= 1;
    }

    std::uint64_t canary = CANARY;
    std::atomic<int> holders{0};
    const std::uint64_t number;
};

void delete_object(const Slice &key, void *value) {
    auto *it = static_cast<object *>(value);
    EXPECT(key == key_of(it->number), true);
    delete it;
}

// What a thread does: it holds a few handles, gives some to a neighbour, and gives back others'.
class worker {
  public:
    worker(Cache &cache, std::atomic<handle> &from, std::atomic<handle> &to, unsigned seed)
        : cache_(cache), from_(from), to_(to), random_(seed) {}

    void work(unsigned long operations) {
        for (unsigned long n = 0; n < operations; n++) {
            step(random_());
        }
        for (handle it : held_) {
            release(it, 0);
        }
        release(from_.exchange(nullptr), 0);
    }

  private:
    void step(unsigned chance) {
        const std::uint64_t number = random_() % 5000;
        if (chance % 8 < 5) {
            handle found = cache_.Lookup(key_of(number));
            found == nullptr ? insert(number, chance) : look_at(found, number);
        } else if (chance % 8 == 5) {
            cache_.Erase(key_of(number));
        } else if (chance % 8 == 6 && !held_.empty()) {
            release(to_.exchange(take()), chance);
        } else {
            release(from_.exchange(nullptr), chance);
        }
        if (held_.size() > 20) {
            release(take(), chance);
        }
    }

    void insert(std::uint64_t number, unsigned chance) {
        auto *made = new object(number);
        handle held = nullptr;
        const bool wants = chance / 8 % 2 == 0;
        made->holders += wants;
        const Status status =
            cache_.Insert(key_of(number), made, 1 + chance % 3, delete_object,
                          wants ? &held : nullptr,
                          chance / 16 % 2 == 0 ? Cache::Priority::HIGH : Cache::Priority::LOW);
        if (!status.ok()) {
            EXPECT(wants && status.IsMemoryLimit(), true);
            made->holders = 0;
            delete made;
        } else if (wants) {
            held_.push_back(held);
        }
    }

    void look_at(handle found, std::uint64_t number) {
        auto *it = static_cast<object *>(cache_.Value(found));
        it->holders += 1;
        EXPECT(it->canary, object::CANARY);
        EXPECT(it->number, number);
        held_.push_back(found);
    }

    handle take() {
        const handle it = held_.back();
        held_.pop_back();
        return it;
    }

    void release(handle it, unsigned chance) {
        if (it == nullptr) {
            return;
        }
        auto *shown = static_cast<object *>(cache_.Value(it));
        EXPECT(shown->canary, object::CANARY);
        shown->holders -= 1;
        cache_.Release(it, chance / 32 % 2 == 0, chance / 64 % 8 == 0);
    }

    Cache &cache_;
    std::atomic<handle> &from_, &to_;
    std::mt19937 random_;
    std::vector<handle> held_;
};

void threads(unsigned long operations, bool is_strict) {
    constexpr unsigned THREADS = 8;
    cache_pointer cache = small(3000, is_strict, 2);
    std::array<std::atomic<handle>, THREADS> given{};
    std::vector<std::thread> all;
    for (unsigned n = 0; n < THREADS; n++) {
        all.emplace_back([&, n] {
            worker(*cache, given[n], given[(n + 1) % THREADS], n).work(operations / THREADS);
        });
    }
    cache->SetCapacity(1500);
    for (std::thread &it : all) {
        it.join();
    }
    for (std::atomic<handle> &it : given) {
        if (it.load() != nullptr) {
            static_cast<object *>(cache->Value(it))->holders -= 1;
            cache->Release(it);
        }
    }
    EXPECT(cache->GetUsage() <= 1500, true);
    EXPECT(alive.load() > 0, true);
    cache.reset();
    EXPECT(alive.load(), 0);
}

// ---- A database --------------------------------------------------------------------------------

// ThreadSanitizer sees none of RocksDB's own steps.
#ifdef __SANITIZE_THREAD__
constexpr bool READS = false;
#else
constexpr bool READS = true;
#endif

constexpr std::uint32_t KEYS = 20000;

std::string row_of(std::uint32_t number) {
    char text[16];
    std::snprintf(text, sizeof text, "key%08u", number);
    return text;
}

std::string content_of(std::uint32_t number) {
    std::mt19937 random(number);
    std::string content(100 + number % 200, '\0');
    for (char &it : content) {
        it = static_cast<char>(random());
    }
    return content;
}

void read_some(rocksdb::DB &db, unsigned seed) {
    std::mt19937 random(seed);
    std::string value;
    for (int n = 0; n < 5000; n++) {
        const std::uint32_t number = random() % (KEYS + 100);
        const Status status = db.Get(rocksdb::ReadOptions(), row_of(number), &value);
        EXPECT(status.ok() ? value == content_of(number) : status.IsNotFound() && number >= KEYS,
               true);
    }
    const std::unique_ptr<rocksdb::Iterator> all(db.NewIterator(rocksdb::ReadOptions()));
    std::uint32_t number = 0;
    for (all->SeekToFirst(); all->Valid(); all->Next()) {
        EXPECT(all->key() == row_of(number) && all->value() == content_of(number), true);
        number += 1;
    }
    EXPECT(number, KEYS);
}

// Four threads read while all is compacted again and again.
void read_while_compacting(rocksdb::DB &db) {
    std::atomic<int> reading{4};
    std::vector<std::thread> readers;
    for (unsigned n = 0; n < 4; n++) {
        readers.emplace_back([&, n] {
            read_some(db, n);
            reading--;
        });
    }
    rocksdb::CompactRangeOptions whole;
    whole.bottommost_level_compaction = rocksdb::BottommostLevelCompaction::kForce;
    do {
        EXPECT(db.CompactRange(whole, nullptr, nullptr).ok(), true);
    } while (reading > 0);
    for (std::thread &it : readers) {
        it.join();
    }
}

// Since the database was opened the cache counted what RocksDB did itself. RocksDB's ticker of additions
// leaves out some.
void counts_as(const rocksdb::Statistics &tickers, const ferretgold_counts &before,
               const ferretgold_counts &it) {
    EXPECT(it.hits - before.hits, tickers.getTickerCount(rocksdb::BLOCK_CACHE_HIT));
    EXPECT(it.misses - before.misses, tickers.getTickerCount(rocksdb::BLOCK_CACHE_MISS));
    EXPECT(it.placed + it.there + it.dropped + it.standalone
               >= tickers.getTickerCount(rocksdb::BLOCK_CACHE_ADD),
           true);
    EXPECT(it.evicted > 0 && it.evicted < it.placed && it.turns > 0, true);
    EXPECT(it.refused, tickers.getTickerCount(rocksdb::BLOCK_CACHE_ADD_FAILURES));
    EXPECT(it.hits > 0 && it.misses > 0 && it.placed > 0, true);
}

// Some 4 MB are read through a cache of a tenth of that, with index and filter blocks.
void database(const std::string &folder, bool is_strict) {
    rocksdb::BlockBasedTableOptions table;
    const options sizes(400 << 10, 4096, 0, is_strict, nullptr, rocksdb::kDontChargeCacheMetadata);
    const cache_pointer cache = ferretgold::NewFerretgoldCache(sizes);
    table.block_cache = cache;
    table.cache_index_and_filter_blocks = true;
    table.filter_policy.reset(rocksdb::NewBloomFilterPolicy(10));
    rocksdb::Options all;
    all.create_if_missing = true;
    all.write_buffer_size = 1 << 20;
    all.table_factory.reset(rocksdb::NewBlockBasedTableFactory(table));
    all.statistics = rocksdb::CreateDBStatistics();
    rocksdb::DB *opened = nullptr;
    EXPECT(rocksdb::DestroyDB(folder, all).ok(), true);
    if (!rocksdb::DB::Open(all, folder, &opened).ok()) {
        EXPECT(false, true);
        return;
    }
    std::unique_ptr<rocksdb::DB> db(opened);
    const ferretgold_counts before = ferretgold::counts_of(*cache);
    for (std::uint32_t number = 0; number < KEYS; number++) {
        EXPECT(db->Put(rocksdb::WriteOptions(), row_of(number), content_of(number)).ok(), true);
    }
    EXPECT(db->Flush(rocksdb::FlushOptions()).ok(), true);
    read_while_compacting(*db);
    EXPECT(cache->GetOccupancyCount() > 30 && cache->GetUsage() <= 400 << 10, true);
    db.reset();
    counts_as(*all.statistics, before, ferretgold::counts_of(*cache));
    cache->EraseUnRefEntries();
    EXPECT(cache->GetOccupancyCount(), 0);
}

} // namespace

int main(int count, char **words) {
    if (count < 2) {
        std::puts("usage: rocksdb_cache FOLDER [OPERATIONS]");
        return 2;
    }
    answers_insertions();
    keeps_the_first();
    counts_references();
    begins_at_nothing();
    keeps_what_is_high();
    knows_deleters();
    lets_deleters_call();
    walks();
    walks_after_other_threads();
    tells_totals();
    pins_metadata();
    sets_capacities(false);
    sets_capacities(true);
    makes_caches();
    disowns();
    const unsigned long operations = count > 2 ? std::strtoul(words[2], nullptr, 10) : 1000000;
    threads(operations, false);
    threads(operations, true);
    if (READS) {
        database(words[1], false);
    }
    std::printf("%lu operations of each kind of cache, %lu faults\n", operations, faults.load());
    return faults > 0;
}

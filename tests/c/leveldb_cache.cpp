// ferretgold_leveldb.hpp by rows of calls, by keys of all lengths, where handles run out, by
// deleters that call the cache, by threads that replace, erase, hold and give back values, and by a
// database.
// usage: leveldb_cache [OPERATIONS]    of eight threads: 1,000,000 by default
#include "ferretgold_leveldb.hpp"

#include <leveldb/db.h>
#include <leveldb/env.h>
#include <leveldb/helpers/memenv.h>

#include <cstdio>
#include <map>
#include <memory>
#include <random>
#include <string>
#include <vector>

namespace {

using leveldb::Cache;
using leveldb::Slice;

constexpr std::uint64_t ALIVE = 0x616c697665, DEAD = 0x64656164;

std::atomic<long> faults{0}, lives{0}, deleted{0};

template <typename Is, typename Wanted>
void expect(int line, const char *what, const Is &is, const Wanted &wanted) {
    if (is == static_cast<Is>(wanted)) {
        return;
    }
    if (faults.fetch_add(1) < 20) {
        std::printf("leveldb_cache.cpp:%d: %s isn't as wanted: %lld, %lld\n", line, what,
                    static_cast<long long>(is), static_cast<long long>(wanted));
    }
}
#define EXPECT(what, wanted) expect(__LINE__, #what, what, wanted)

// What knows whether it lives, and who holds it.
struct object {
    object(const Slice &key, long number) : key(key.ToString()), number(number) { lives++; }
    std::uint64_t canary = ALIVE;
    std::string key;
    long number;
    std::atomic<int> held{0};
    Cache *erases = nullptr; // by its deleter: the next number
};

std::string key_of(long number, std::size_t size = 16) {
    std::string key(size, static_cast<char>('a' + number % 26));
    const std::string text = std::to_string(number);
    return key.replace(0, std::min(size, text.size()), text, 0, std::min(size, text.size()));
}

void delete_object(const Slice &key, void *value) {
    std::unique_ptr<object> it(static_cast<object *>(value));
    EXPECT(it->canary, ALIVE);
    EXPECT(it->held.load(), 0);
    EXPECT(key == Slice(it->key), true);
    it->canary = DEAD;
    lives--;
    deleted++;
    if (it->erases != nullptr) {
        it->erases->Erase(key_of(it->number + 1));
    }
}

// Notes that a handle's value is held, and which that is.
long begun(Cache &cache, Cache::Handle *handle, const Slice &key) {
    object *it = static_cast<object *>(cache.Value(handle));
    EXPECT(it->canary, ALIVE);
    EXPECT(key == Slice(it->key), true);
    it->held++;
    return it->number;
}

void end(Cache &cache, Cache::Handle *handle) {
    object *it = static_cast<object *>(cache.Value(handle));
    EXPECT(it->canary, ALIVE);
    it->held--;
    cache.Release(handle);
}

Cache::Handle *inserted(Cache &cache, const Slice &key, long number, std::size_t charge = 1) {
    Cache::Handle *handle = cache.Insert(key, new object(key, number), charge, delete_object);
    EXPECT(begun(cache, handle, key), number);
    return handle;
}

void insert(Cache &cache, const Slice &key, long number, std::size_t charge = 1) {
    end(cache, inserted(cache, key, number, charge));
}

// The number of what a key finds, or -1.
long found(Cache &cache, const Slice &key) {
    Cache::Handle *handle = cache.Lookup(key);
    if (handle == nullptr) {
        return -1;
    }
    const long number = begun(cache, handle, key);
    end(cache, handle);
    return number;
}

// ---- Rows --------------------------------------------------------------------------------------

// i inserts, I holds it; l looks up, L holds it; r gives back what is held of a key; e erases; p
// prunes. Insertions have the numbers from 1 on.
struct row {
    char call;
    int key;
    std::size_t charge;
    long found, deleted;
    std::size_t total;
};

constexpr std::size_t HUGE_CHARGE = std::size_t{1} << 33;

const row OF_HUNDRED[] = {
    {'l', 1, 0, -1, 0, 0},           {'i', 1, 5, 0, 0, 5},
    {'l', 1, 0, 1, 0, 5},            {'l', 2, 0, -1, 0, 5},
    {'i', 1, 7, 0, 1, 7}, // replaces
    {'l', 1, 0, 2, 1, 7},            {'e', 1, 0, 0, 2, 0},
    {'l', 1, 0, -1, 2, 0},           {'e', 1, 0, 0, 2, 0},
    {'I', 2, 3, 0, 2, 3},            {'l', 2, 0, 3, 2, 3},
    {'e', 2, 0, 0, 2, 3}, // held, so it isn't deleted yet
    {'l', 2, 0, -1, 2, 3},           {'r', 2, 0, 0, 3, 0},
    {'I', 3, 1, 0, 3, 1},            {'i', 3, 2, 0, 3, 3},
    {'l', 3, 0, 5, 3, 3},            {'r', 3, 0, 0, 4, 2},
    {'L', 3, 0, 5, 4, 2},            {'p', 0, 0, 0, 4, 2},
    {'r', 3, 0, 0, 4, 2},            {'l', 3, 0, 5, 4, 2},
    {'p', 0, 0, 0, 5, 0},            {'l', 3, 0, -1, 5, 0},
    {'i', 4, 0, 0, 5, 0}, // of no charge
    {'l', 4, 0, 6, 5, 0},            {'e', 4, 0, 0, 6, 0},
    {'i', 5, 100, 0, 6, 100},        {'l', 5, 0, 7, 6, 100},
    {'i', 6, 1, 0, 7, 1}, // evicts it
    {'l', 5, 0, -1, 7, 1},           {'l', 6, 0, 8, 7, 1},
    {'I', 6, 101, 0, 8, 0}, // above the capacity
    {'l', 6, 0, -1, 8, 0},           {'r', 6, 0, 0, 9, 0},
};

const row OF_MUCH[] = {
    {'i', 1, HUGE_CHARGE, 0, 0, HUGE_CHARGE}, {'l', 1, 0, 1, 0, HUGE_CHARGE},
    {'i', 2, 1, 0, 0, HUGE_CHARGE + 1},       {'e', 1, 0, 0, 1, 1},
    {'p', 0, 0, 0, 2, 0},
};

const row OF_NOTHING[] = {
    {'i', 1, 5, 0, 1, 0}, {'l', 1, 0, -1, 1, 0}, {'I', 1, 5, 0, 1, 0}, {'l', 1, 0, -1, 1, 0},
    {'e', 1, 0, 0, 1, 0}, {'p', 0, 0, 0, 1, 0},  {'r', 1, 0, 0, 2, 0},
};

struct player {
    Cache &cache;
    std::map<int, Cache::Handle *> held;
    long number;

    // What a look-up finds; 0 for other calls.
    long play(const row &it) {
        const std::string key = key_of(it.key);
        switch (it.call) {
        case 'i': insert(cache, key, ++number, it.charge); return 0;
        case 'I': held[it.key] = inserted(cache, key, ++number, it.charge); return 0;
        case 'l': return found(cache, key);
        case 'L': held[it.key] = cache.Lookup(key); return begun(cache, held[it.key], key);
        case 'r': end(cache, held[it.key]); return 0;
        case 'e': cache.Erase(key); return 0;
        default: cache.Prune(); return 0;
        }
    }
};

template <std::size_t COUNT>
void play(std::size_t capacity, std::size_t usual, const row (&rows)[COUNT]) {
    std::unique_ptr<Cache> cache(ferretgold::new_leveldb_cache(capacity, usual));
    player it{*cache, {}, 0};
    deleted = 0;
    for (std::size_t k = 0; k < COUNT; k++) {
        const row &wanted = rows[k];
        const long found = it.play(wanted);
        if (found != wanted.found || deleted != wanted.deleted
            || cache->TotalCharge() != wanted.total) {
            std::printf("row %zu of %zu, %c %d: found %ld, deleted %ld, total %zu\n", k, capacity,
                        wanted.call, wanted.key, found, deleted.load(), cache->TotalCharge());
            faults++;
        }
    }
}

// ---- Sizes, keys and handles -------------------------------------------------------------------

// What isn't slots is little beside the capacity; what can't be made is null.
void sizes() {
    const struct { std::size_t capacity, most_percent; } rows[] = {
        {std::size_t{64} << 20, 5}, {std::size_t{1} << 30, 2}, {std::size_t{8} << 30, 2}};
    for (const auto &it : rows) {
        const auto config = ferretgold::leveldb_cache::config_for(it.capacity, 4096);
        const std::uint64_t slots = std::uint64_t{config.slots} * config.shards;
        const std::uint64_t besides = ferretgold_object_memory(&config) - slots * 64;
        EXPECT(besides <= it.capacity / 100 * it.most_percent, true);
        EXPECT(slots * 7 / 10 >= it.capacity / 4096, true);
        std::printf("%zu MiB: slots %.1f %%, besides %.1f %%\n", it.capacity >> 20,
                    6400.0 * slots / it.capacity, 100.0 * besides / it.capacity);
    }
    const struct { std::size_t capacity, usual; bool is_made; } made[] = {
        {0, 1, true},         {1, 1, true},         {1, 4096, true},
        {1, 0, false},        {2936012, 1, true},   {2936013, 1, false},
        {SIZE_MAX, 1, false}, {SIZE_MAX, SIZE_MAX, false}};
    for (const auto &it : made) {
        std::unique_ptr<Cache> cache(ferretgold::new_leveldb_cache(it.capacity, it.usual));
        EXPECT(cache != nullptr, it.is_made);
    }
}

// Where the usual charge isn't named it is 4,096: so many entries of less are kept as that has slots for.
void usual_charge() {
    const std::unique_ptr<Cache> cache(ferretgold::new_leveldb_cache(std::size_t{1} << 20));
    long kept = 0;
    for (long number = 0; number < 1000; number++) {
        insert(*cache, key_of(number), number);
    }
    for (long number = 0; number < 1000; number++) {
        kept += found(*cache, key_of(number)) == number;
    }
    EXPECT(kept > 256 * 84 / 100 && kept <= 512 * 84 / 100, true);
}

// Keys of each length, all at once; unlike ones aren't found, also if they are found alike.
void keys() {
    std::unique_ptr<Cache> cache(ferretgold::new_leveldb_cache(1000, 1));
    const std::size_t lengths[] = {0, 1, 15, 16, 17, 300};
    for (std::size_t length : lengths) {
        insert(*cache, key_of(1, length), static_cast<long>(length));
    }
    for (std::size_t length : lengths) {
        std::string key = key_of(1, length);
        EXPECT(found(*cache, key), length);
        EXPECT(found(*cache, key + '\0'), -1);
        if (length > 0) {
            key.back() ^= 1;
            EXPECT(found(*cache, key), -1);
        }
    }
    const ferretgold_key at = ferretgold::leveldb_cache::found_by("b");
    const Slice alike(reinterpret_cast<const char *>(&at), sizeof at);
    insert(*cache, "b", 2);
    EXPECT(found(*cache, alike), -1);
    EXPECT(found(*cache, "b"), 2);
    insert(*cache, alike, 3);
    EXPECT(found(*cache, "b"), -1);
    EXPECT(found(*cache, alike), 3);
    for (std::size_t length : lengths) {
        cache->Erase(key_of(1, length));
        EXPECT(found(*cache, key_of(1, length)), -1);
    }
    EXPECT(cache->TotalCharge(), 1);
    EXPECT(cache->NewId() != cache->NewId(), true);
}

// What was looked up stays, and what wasn't goes; the total keeps to the capacity.
void evictions() {
    std::unique_ptr<Cache> cache(ferretgold::new_leveldb_cache(1000, 1));
    long kept = 0;
    for (long number = 0; number < 1000; number++) {
        insert(*cache, key_of(number), number);
        EXPECT(found(*cache, key_of(number % 2 * number)), number % 2 * number);
    }
    for (long number = 1000; number < 1400; number++) {
        insert(*cache, key_of(number), number);
        EXPECT(cache->TotalCharge() <= 1000, true);
    }
    for (long number = 1; number < 1000; number += 2) {
        kept += found(*cache, key_of(number)) == number;
    }
    EXPECT(kept, 500);
}

// A scan passes through: what it inserts goes at the clock's first visit, what is used at the
// fourth. Did the insertion's handle count as a use, the clock would come by more often.
void scans() {
    std::unique_ptr<Cache> cache(ferretgold::new_leveldb_cache(1000, 1));
    for (long number = 0; number < 4500; number++) {
        insert(*cache, key_of(number), number);
        for (int uses = 0; number < 10 && uses < 3; uses++) {
            EXPECT(found(*cache, key_of(number)), number);
        }
    }
    for (long number = 0; number < 10; number++) {
        EXPECT(found(*cache, key_of(number)), number);
    }
}

// More handles than there are: insertions are uncached, look-ups miss, and no value is lost.
void handles() {
    std::unique_ptr<Cache> cache(ferretgold::new_leveldb_cache(10000, 1));
    std::vector<Cache::Handle *> held;
    const long most = 64 * ferretgold::leveldb_cache::config_for(10000, 1).handles;
    for (long number = 0; number < most + 100; number++) {
        held.push_back(inserted(*cache, key_of(number), number));
    }
    EXPECT(cache->TotalCharge(), most);
    EXPECT(found(*cache, key_of(0)), -1);
    while (!held.empty()) {
        end(*cache, held.back());
        held.pop_back();
    }
    EXPECT(found(*cache, key_of(0)), 0);
    EXPECT(found(*cache, key_of(most)), -1);
    cache->Prune();
    EXPECT(lives.load(), 0);
}

// Deleters that erase the next: while the cache is used, and when it is closed, where they can't.
void deleters() {
    std::unique_ptr<Cache> cache(ferretgold::new_leveldb_cache(1000, 1));
    for (int round = 0; round < 2; round++) {
        for (long number = 0; number < 500; number++) {
            Cache::Handle *handle = inserted(*cache, key_of(number), number);
            static_cast<object *>(cache->Value(handle))->erases = cache.get();
            end(*cache, handle);
        }
        EXPECT(lives.load(), 500);
        if (round == 0) {
            cache->Erase(key_of(0));
            EXPECT(lives.load(), 0);
        }
    }
    delete cache.release();
    EXPECT(lives.load(), 0);
}

// ---- Threads -----------------------------------------------------------------------------------

constexpr long KEYS = 300, CAPACITY = 200, HELD = 4, MAIL = 16;

std::atomic<Cache::Handle *> mail[MAIL];

// A thread: its own key only it inserts and erases, so that it knows what that finds.
class worker {
  public:
    worker(Cache &cache, long number)
        : cache_(cache), random_(number), own_(key_of(KEYS + number, 9)) {}

    void work(long operations) {
        for (long k = 0; k < operations; k++) {
            operate();
        }
        for (Cache::Handle *&it : held_) {
            give_back(it, nullptr);
        }
    }

  private:
    void operate() {
        const std::string key = key_of(static_cast<long>(random_() % KEYS));
        const unsigned what = random_() % 100;
        if (what < 40) {
            look_up(key);
        } else if (what < 60) {
            give_back(held_[random_() % HELD], inserted(cache_, key, 1));
        } else if (what < 70) {
            cache_.Erase(key);
        } else if (what < 80) {
            insert(cache_, own_, ++version_);
        } else if (what < 90) {
            const long version = found(cache_, own_);
            EXPECT(version == -1 || version == version_, true);
        } else if (what < 95) {
            cache_.Erase(own_);
            EXPECT(found(cache_, own_), -1);
        } else if (what < 99) {
            give_back(held_[random_() % HELD], nullptr);
        } else {
            EXPECT(cache_.TotalCharge() < 10 * CAPACITY, true);
        }
        if (random_() % 10000 == 0) {
            cache_.Prune();
        }
    }

    void look_up(const std::string &key) {
        Cache::Handle *handle = cache_.Lookup(key);
        if (handle != nullptr) {
            begun(cache_, handle, key);
            give_back(held_[random_() % HELD], handle);
        }
    }

    // Gives back what is in a place, or leaves it to another thread, and holds another one there.
    void give_back(Cache::Handle *&place, Cache::Handle *next) {
        Cache::Handle *it = random_() % 4 == 0 ? mail[random_() % MAIL].exchange(place) : place;
        place = next;
        if (it != nullptr) {
            end(cache_, it);
        }
    }

    Cache &cache_;
    std::minstd_rand random_;
    std::string own_;
    long version_ = 0;
    Cache::Handle *held_[HELD] = {};
};

void threads(long count, long operations) {
    std::unique_ptr<Cache> cache(ferretgold::new_leveldb_cache(CAPACITY, 1));
    std::vector<std::thread> running;
    deleted = 0;
    for (long number = 0; number < count; number++) {
        running.emplace_back([&cache, number, count, operations] {
            worker(*cache, number + 1).work(operations / count);
        });
    }
    for (std::thread &it : running) {
        it.join();
    }
    for (std::atomic<Cache::Handle *> &it : mail) {
        Cache::Handle *handle = it.exchange(nullptr);
        if (handle != nullptr) {
            end(*cache, handle);
        }
    }
    EXPECT(cache->TotalCharge() <= static_cast<std::size_t>(lives.load()), true);
    cache->Prune();
    EXPECT(lives.load(), 0);
    EXPECT(cache->TotalCharge(), 0);
    std::printf("%ld threads: %ld operations, %ld values\n", count, operations, deleted.load());
}

// ---- A database --------------------------------------------------------------------------------

// ThreadSanitizer sees none of LevelDB's own steps.
#ifdef __SANITIZE_THREAD__
constexpr bool READS = false;
#else
constexpr bool READS = true;
#endif

constexpr int ROWS = 20000, READERS = 4;

std::string content_of(int number) {
    std::minstd_rand random(static_cast<unsigned>(number) + 1);
    std::string content(100 + static_cast<std::size_t>(number) % 100, ' ');
    for (char &it : content) {
        it = static_cast<char>(random());
    }
    return content;
}

// Reads all in order, and then as many at random.
void read_rows(leveldb::DB &from, unsigned seed) {
    std::minstd_rand random(seed);
    std::string value;
    for (int n = 0; n < 2 * ROWS; n++) {
        const int number = n < ROWS ? n : static_cast<int>(random() % ROWS);
        const leveldb::Status status = from.Get(leveldb::ReadOptions(), key_of(number), &value);
        EXPECT(status.ok() && value == content_of(number), true);
    }
}

// Four threads read some 3 MB through a cache of a tenth of that, while all is compacted.
void database() {
    const std::unique_ptr<leveldb::Env> memory(leveldb::NewMemEnv(leveldb::Env::Default()));
    const std::unique_ptr<Cache> cache(ferretgold::new_leveldb_cache(300000));
    leveldb::Options options;
    options.create_if_missing = true;
    options.env = memory.get();
    options.block_cache = cache.get();
    options.write_buffer_size = 1 << 20;
    leveldb::DB *opened = nullptr;
    EXPECT(leveldb::DB::Open(options, "/database", &opened).ok(), true);
    const std::unique_ptr<leveldb::DB> it(opened);
    for (int number = 0; number < ROWS; number++) {
        const leveldb::WriteOptions how;
        EXPECT(it->Put(how, key_of(number), content_of(number)).ok(), true);
    }
    std::vector<std::thread> readers;
    for (unsigned seed = 1; seed <= READERS; seed++) {
        readers.emplace_back([&, seed] { read_rows(*it, seed); });
    }
    it->CompactRange(nullptr, nullptr);
    for (std::thread &reader : readers) {
        reader.join();
    }
    EXPECT(cache->TotalCharge() > 100000 && cache->TotalCharge() <= 300000, true);
    const ferretgold_counts counts = ferretgold::counts_of(*cache);
    EXPECT(counts.hits > counts.misses && counts.placed > 0, true);
    EXPECT(counts.misses >= counts.placed + counts.there + counts.dropped + counts.standalone
                                + counts.refused,
           true);
}

} // namespace

int main(int count, char **words) {
    const long operations = count > 1 ? std::atol(words[1]) : 1000000;
    play(100, 1, OF_HUNDRED);
    play(32 * HUGE_CHARGE, HUGE_CHARGE, OF_MUCH);
    play(0, 1, OF_NOTHING);
    sizes();
    usual_charge();
    keys();
    evictions();
    scans();
    EXPECT(lives.load(), 0);
    handles();
    deleters();
    threads(8, operations);
    threads(100, operations / 4);
    EXPECT(lives.load(), 0);
    if (READS) {
        database();
    }
    std::printf("leveldb: %ld faults\n", faults.load());
    return faults.load() != 0;
}

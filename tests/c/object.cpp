// ferretgold_object.hpp: whose an object is after each answer, by objects that count their lives;
// pointers and caches that go in any order; destructors that call the cache; and eight threads that
// pass pointers on. With exceptions or without. Linked with heap.c.
// Usage: object [OPERATIONS]           of eight threads: 1,000,000 by default
//        object threads OPERATIONS     these alone
//        object owned                  ends by the checking library's line
#include "ferretgold_object.hpp"
#include "heap.h"

#include <cstdio>
#include <cstdlib>
#include <cstring>
#include <random>
#include <thread>
#include <vector>

// What is a use of an entry: how many faults (object_uses.cpp).
long object_uses();

namespace {

constexpr std::uint64_t ALIVE = 0x616c697665, DEAD = 0x64656164;

std::atomic<long> faults{0}, lives{0};

template <typename Is, typename Wanted>
void expect(int line, const char *what, const Is &is, const Wanted &wanted) {
    if (is != static_cast<Is>(wanted) && faults.fetch_add(1) < 20) {
        std::printf("object.cpp:%d: %s is %lld and not %lld\n", line, what,
                    static_cast<long long>(is), static_cast<long long>(wanted));
    }
}
#define EXPECT(what, wanted) expect(__LINE__, #what, what, wanted)

// What counts its lives, and may do something at its end.
struct block {
    explicit block(std::uint64_t number, void (*ends)(block &) = nullptr)
        : number(number), ends(ends) {
        lives++;
    }
    block(const block &) = delete;
    block &operator=(const block &) = delete;
    ~block() {
        EXPECT(canary, ALIVE);
        EXPECT(held.load(), 0);
        canary = DEAD;
        lives--;
        if (ends != nullptr) {
            ends(*this);
        }
    }
    std::uint64_t canary = ALIVE;
    std::uint64_t number;
    void (*ends)(block &);
    std::atomic<int> held{0};
};

using blocks = ferretgold::object_cache<block>;
using holding = ferretgold::pinned<block>;

ferretgold_key key_of(std::uint64_t number) { return {number, 5}; }

// Room for six entries, a capacity of 100, and a client with seven handles.
ferretgold_object_config small_cache(bool strict = false,
                                     std::uint64_t serials = FERRETGOLD_MOST_SERIALS) {
    ferretgold_object_config it = FERRETGOLD_OBJECT_CONFIG;
    it.slots = 8;
    it.clients = 1;
    it.handles = 7;
    it.gone = 16;
    it.shards = 1;
    it.strict = strict;
    it.capacity = 100;
    it.serials = serials;
    it.seed = 7;
    return it;
}

blocks opened(const ferretgold_object_config &config) {
    ferretgold_status why = FERRETGOLD_NULL;
    blocks it(config, why);
    EXPECT(why, FERRETGOLD_OK);
    return it;
}

// What an insertion of a new block comes to, which is deleted if it isn't taken.
int insert(blocks &cache, std::uint64_t number, std::uint32_t charge = 10) {
    ferretgold_inserted inserted = FERRETGOLD_DROPPED;
    const ferretgold_status why = cache.insert(key_of(number), std::make_unique<block>(number),
                                               charge, FERRETGOLD_LOW, &inserted);
    return why == FERRETGOLD_OK ? inserted : -static_cast<int>(why);
}

holding found(blocks &cache, std::uint64_t number) {
    ferretgold_status why = FERRETGOLD_NULL;
    holding it = cache.lookup(key_of(number), why);
    EXPECT(why, it ? FERRETGOLD_OK : FERRETGOLD_MISS);
    EXPECT(!it || (it->canary == ALIVE && it->number == number && it.key().w0 == number), true);
    return it;
}

holding pinned_in(blocks &cache, std::uint64_t number, std::uint32_t charge = 10) {
    ferretgold_status why = FERRETGOLD_NULL;
    holding it = cache.insert_pinned(key_of(number), std::make_unique<block>(number), charge,
                                     FERRETGOLD_LOW, nullptr, why);
    EXPECT(why, FERRETGOLD_OK);
    return it;
}

std::uint32_t erase(blocks &cache, std::uint64_t number) {
    ferretgold_status why = FERRETGOLD_NULL;
    const std::uint32_t hidden = cache.erase(key_of(number), why);
    EXPECT(why, FERRETGOLD_OK);
    return hidden;
}

// ---- Whose the object is -----------------------------------------------------------------------

// Before the insertion: blocks of charge 10 with numbers from 0 on, and so many handles on them in
// turns.
struct row {
    const char *name;
    bool strict;
    std::uint64_t serials;
    int before, held;
    std::uint64_t number; // of the key
    std::uint32_t charge;
    int priority;
    // What insert and insert_pinned come to: a ferretgold_inserted, or a status less than 0.
    int insert, insert_pinned;
};

constexpr int not_so(ferretgold_status why) { return -static_cast<int>(why); }

constexpr std::uint64_t ALL = FERRETGOLD_MOST_SERIALS;

const row ROWS[] = {
    {"placed", false, ALL, 0, 0, 9, 10, 1, FERRETGOLD_PLACED, FERRETGOLD_PLACED},
    {"its key is there", false, ALL, 1, 0, 0, 10, 1, FERRETGOLD_DROPPED, FERRETGOLD_STANDALONE},
    {"all is held", false, ALL, 5, 5, 9, 200, 1, FERRETGOLD_PLACED, FERRETGOLD_PLACED},
    {"no place", false, ALL, 6, 6, 9, 10, 1, FERRETGOLD_DROPPED, FERRETGOLD_STANDALONE},
    {"no handle is left", false, ALL, 6, 7, 0, 10, 1, FERRETGOLD_DROPPED,
     not_so(FERRETGOLD_HANDLES_FULL)},
    {"no serial is left", false, 2, 2, 0, 9, 10, 1, not_so(FERRETGOLD_SPENT),
     not_so(FERRETGOLD_SPENT)},
    {"no priority", false, ALL, 0, 0, 9, 0, 3, not_so(FERRETGOLD_BAD_PRIORITY),
     not_so(FERRETGOLD_BAD_PRIORITY)},
    {"no charge", true, ALL, 0, 0, 9, 0, 1, not_so(FERRETGOLD_NO_CHARGE),
     not_so(FERRETGOLD_NO_CHARGE)},
    {"above the capacity", true, ALL, 0, 0, 9, 101, 1, not_so(FERRETGOLD_TOO_LARGE),
     not_so(FERRETGOLD_TOO_LARGE)},
    {"no room, strict", true, ALL, 4, 4, 9, 90, 1, not_so(FERRETGOLD_CAPACITY_FULL),
     not_so(FERRETGOLD_CAPACITY_FULL)},
    {"no place, strict", true, ALL, 6, 6, 9, 10, 1, not_so(FERRETGOLD_OCCUPANCY_FULL),
     not_so(FERRETGOLD_OCCUPANCY_FULL)},
    {"evicts", true, ALL, 4, 1, 9, 90, 1, FERRETGOLD_PLACED, FERRETGOLD_PLACED},
};

// Makes the insertion of a row, by one call or by the other: what it comes to.
int insert_row(blocks &cache, const row &it, bool pins, std::unique_ptr<block> &&object,
               holding &given) {
    ferretgold_inserted inserted = FERRETGOLD_THERE; // and so after a refusal
    ferretgold_status why = FERRETGOLD_NULL;
    const auto priority = static_cast<ferretgold_priority>(it.priority);
    if (pins) {
        given = cache.insert_pinned(key_of(it.number), std::move(object), it.charge, priority,
                                    &inserted, why);
    } else {
        why = cache.insert(key_of(it.number), std::move(object), it.charge, priority, &inserted);
    }
    EXPECT(inserted == FERRETGOLD_THERE, why != FERRETGOLD_OK);
    return why == FERRETGOLD_OK ? inserted : not_so(why);
}

// Sees whose the block of a row is after its insertion. What was evicted for it is gone.
void try_row(const row &it, bool pins) {
    const long before = lives;
    blocks cache = opened(small_cache(it.strict, it.serials));
    std::vector<holding> held;
    for (int number = 0; number < it.before; number++) {
        EXPECT(insert(cache, number), FERRETGOLD_PLACED);
    }
    while (held.size() < static_cast<std::size_t>(it.held)) {
        held.push_back(found(cache, held.size() % it.before));
    }
    const long stood = lives;
    auto object = std::make_unique<block>(it.number);
    const block *is = object.get();
    holding given;
    const int came = insert_row(cache, it, pins, std::move(object), given);
    const int wanted = pins ? it.insert_pinned : it.insert;
    const bool is_taken = wanted == FERRETGOLD_PLACED || wanted == FERRETGOLD_STANDALONE;
    if (came != wanted || (object == nullptr) != is_taken || (object && object.get() != is)) {
        std::printf("%s%s: came to %d\n", it.name, pins ? ", pinned" : "", came);
        faults++;
    }
    EXPECT(given.get() == (pins && is_taken ? is : nullptr), true);
    EXPECT(!pins || static_cast<bool>(given) == is_taken, true);
    EXPECT(lives <= stood + 1 && lives > before, true);
    given.release();
    held.clear();
    ferretgold_status why = FERRETGOLD_NULL;
    EXPECT(cache.lookup(key_of(it.number), why).get() == is, came == FERRETGOLD_PLACED);
    EXPECT(cache.close(), FERRETGOLD_OK);
    EXPECT(lives.load(), before + !is_taken);
    EXPECT(is_taken || object->canary == ALIVE, true);
}

// A temporary that isn't taken is deleted at once.
void temporaries() {
    blocks cache = opened(small_cache());
    EXPECT(insert(cache, 1), FERRETGOLD_PLACED);
    EXPECT(insert(cache, 1), FERRETGOLD_DROPPED);
    EXPECT(lives.load(), 1);
    EXPECT(insert(cache, 1, 0), not_so(FERRETGOLD_NO_CHARGE));
    EXPECT(lives.load(), 1);
    holding alone = pinned_in(cache, 1);
    EXPECT(lives.load(), 2);
    alone.release();
    EXPECT(lives.load(), 1);
    EXPECT(erase(cache, 1), 1);
    EXPECT(lives.load(), 0);
    EXPECT(insert(cache, 2), FERRETGOLD_PLACED);
    EXPECT(lives.load(), 1);
}

// What a function of the key means is erased.
void meant() {
    blocks cache = opened(small_cache());
    ferretgold_status why = FERRETGOLD_NULL;
    unsigned asked = 0;
    const auto is_odd = [&](const ferretgold_key &key) {
        asked++;
        return key.w0 % 2 == 1;
    };
    EXPECT(insert(cache, 1) + insert(cache, 2) + insert(cache, 3), FERRETGOLD_PLACED);
    EXPECT(cache.erase_where(is_odd, why), 2);
    EXPECT(why, FERRETGOLD_OK);
    EXPECT(asked == 3 && lives == 1 && found(cache, 2)->number == 2, true);
}

// What is charged, what of it is held, and how many entries there are.
void totals() {
    blocks cache = opened(small_cache());
    EXPECT(insert(cache, 1, 7), FERRETGOLD_PLACED);
    const holding held = pinned_in(cache, 2, 5);
    ferretgold_status why = FERRETGOLD_NULL;
    EXPECT(cache.usage(why), 12);
    EXPECT(cache.pinned_usage(why), 5);
    EXPECT(cache.occupancy(why), 2);
    EXPECT(why, FERRETGOLD_OK);
    const std::uint32_t clients = cache.config().clients;
    std::uint64_t placed = 0;
    for (std::uint32_t number = 0; number <= clients; number++) {
        placed += cache.counts(number, why).placed;
        EXPECT(why, FERRETGOLD_OK);
    }
    EXPECT(placed == 2 && cache.counts().placed == 2 && cache.counts().refused == 0, true);
    (void)cache.counts(clients + 1, why);
    EXPECT(why, FERRETGOLD_OUT_OF_RANGE);
}

// A cache that is none or was closed; one that can't be opened; null in place of an object.
void none() {
    ferretgold_status why = FERRETGOLD_OK;
    blocks cache, bad(ferretgold_object_config{}, why);
    EXPECT(why, FERRETGOLD_BAD_SLOTS);
    EXPECT(bad || cache, false);
    auto object = std::make_unique<block>(1);
    EXPECT(cache.insert(key_of(1), std::move(object), 1), FERRETGOLD_NULL);
    EXPECT(!cache.insert_pinned(key_of(1), std::move(object), 1, FERRETGOLD_LOW, nullptr, why), 1);
    EXPECT(why == FERRETGOLD_NULL && object != nullptr, true);
    EXPECT(!cache.lookup(key_of(1), why) && why == FERRETGOLD_NULL, true);
    EXPECT(!holding().ref(why) && why == FERRETGOLD_NULL, true);
    EXPECT(cache.close(), FERRETGOLD_NULL);
    cache = opened(small_cache());
    EXPECT(cache.config().slots, 8);
    EXPECT(ferretgold::check(cache.config()), FERRETGOLD_OK);
    EXPECT(ferretgold::check(ferretgold_object_config{}), FERRETGOLD_BAD_SLOTS);
    EXPECT(ferretgold::memory(cache.config()) > 8 * 64, true);
    EXPECT(cache.insert(key_of(1), nullptr, 1), FERRETGOLD_OK);
    {
        const holding nothing = cache.lookup(key_of(1), why);
        EXPECT(nothing && nothing.get() == nullptr, true);
        EXPECT(cache.close(), FERRETGOLD_HANDLES_OUT);
    }
    EXPECT(cache.close(), FERRETGOLD_OK);
    EXPECT(!cache && !cache.lookup(key_of(1), why) && why == FERRETGOLD_NULL, true);
}

// The seed that a cache has opens another one so; where the system gives none, opening is refused.
void seeded() {
    ferretgold_object_config config = small_cache();
    ferretgold_status why = FERRETGOLD_OK;
    config.seed = 0;
    const ferretgold_object_config is = opened(config).config();
    EXPECT(is.seed != 0 && is.seed != FERRETGOLD_UNSEEDED, true);
    EXPECT(opened(is).config().seed == is.seed, true);
    draws_left = 0;
    EXPECT(ferretgold::check(config), FERRETGOLD_OK);
    EXPECT(!blocks(config, why) && why == FERRETGOLD_NO_SEED, true);
    draws_left = -1;
}

void no_memory() {
    const std::size_t was = heap_blocks;
    for (std::size_t left = 0; left < 4; left++) {
        ferretgold_status why = FERRETGOLD_OK;
        heap_left = left;
        const blocks cache(small_cache(), why);
        heap_left = SIZE_MAX;
        EXPECT(why, FERRETGOLD_OUT_OF_MEMORY);
    }
    EXPECT(heap_blocks, was);
}

#ifdef __cpp_exceptions
// What throws leaves the object where it was.
void thrown() {
    const auto why = [](auto call) {
        try {
            call();
        } catch (const ferretgold::refused &it) {
            return it.status;
        }
        return FERRETGOLD_OK;
    };
    blocks cache(small_cache(true));
    auto object = std::make_unique<block>(1);
    EXPECT(why([] { blocks bad{ferretgold_object_config{}}; }), FERRETGOLD_BAD_SLOTS);
    draws_left = 0;
    EXPECT(why([] { blocks none{ferretgold_object_config FERRETGOLD_OBJECT_CONFIG}; }),
           FERRETGOLD_NO_SEED);
    draws_left = -1;
    EXPECT(why([&] { cache.insert_pinned(key_of(1), std::move(object), 101); }),
           FERRETGOLD_TOO_LARGE);
    EXPECT(object != nullptr, true);
    const holding it = cache.insert_pinned(key_of(1), std::move(object), 100);
    EXPECT(object == nullptr && it->number == 1 && it.charge() == 100, true);
    EXPECT(cache.lookup(key_of(1)).ref().get() == it.get(), true);
    EXPECT(!cache.lookup(key_of(2)), true);
    EXPECT(cache.erase(key_of(1)), 1);
    EXPECT(cache.erase_where([](const ferretgold_key &) { return true; }), 0);
    EXPECT(!cache.pin_at(0, 8), true);
    EXPECT(why([] { (void)holding().ref(); }), FERRETGOLD_NULL);
}
#endif

// ---- In any order ------------------------------------------------------------------------------

// Pointers that are moved, doubled and let go, and those that live longer than their cache.
void orders() {
    holding kept;
    {
        blocks first = opened(small_cache()), second = opened(small_cache());
        ferretgold_status why = FERRETGOLD_NULL;
        EXPECT(insert(first, 1) + insert(first, 2) + insert(second, 3), FERRETGOLD_PLACED);
        holding one = found(first, 1), more = one.ref(why);
        EXPECT(erase(first, 1), 1);
        bool freed = true;
        one.release(true, false, &freed);
        EXPECT(!freed && !one && lives == 3, true);
        one = std::move(more);
        EXPECT(one->number == 1 && !more, true);
        one = found(first, 2);
        EXPECT(lives.load(), 2);
        one.release(false, true, &freed);
        EXPECT(freed && lives == 1, true);
        std::swap(first, second);
        EXPECT(found(first, 3)->number, 3);
        kept = found(first, 3);
        first = opened(small_cache());
        EXPECT(insert(first, 4), FERRETGOLD_PLACED);
        EXPECT(lives.load(), 2);
    }
    EXPECT(lives.load(), 1);
    EXPECT(kept->number, 3);
    std::thread([&] { kept.release(); }).join();
    EXPECT(lives.load(), 0);
}

// A walk finds each entry, and gives its place away.
void walk() {
    blocks cache = opened(small_cache());
    std::uint64_t sum = 0;
    for (std::uint64_t number = 1; number <= 4; number++) {
        EXPECT(insert(cache, number), FERRETGOLD_PLACED);
    }
    for (std::uint32_t slot = 0; slot < 8; slot++) {
        ferretgold_status why = FERRETGOLD_NULL;
        holding it = cache.pin_at(0, slot, why);
        EXPECT(why, it ? FERRETGOLD_OK : FERRETGOLD_MISS);
        sum += it ? it->number : 0;
        it.release(false, true);
    }
    EXPECT(sum, 10);
    EXPECT(lives.load(), 0);
}

// A pointer that another thread lets go goes to its client by `collect`.
void collected() {
    blocks cache = opened(small_cache());
    EXPECT(insert(cache, 1), FERRETGOLD_PLACED);
    holding it = found(cache, 1);
    EXPECT(erase(cache, 1), 1);
    std::thread([&] { it.release(); }).join();
    EXPECT(lives.load(), 1);
    cache.collect();
    EXPECT(lives.load(), 0);
}

// ---- Destructors that call the cache -----------------------------------------------------------

blocks *used = nullptr;
std::vector<int> came;

// Each erases the next.
void erase_next(block &it) { (void)erase(*used, it.number + 1); }

void chain() {
    blocks cache = opened(small_cache());
    used = &cache;
    for (std::uint64_t number = 0; number < 5; number++) {
        EXPECT(cache.insert(key_of(number), std::make_unique<block>(number, erase_next), 10),
               FERRETGOLD_OK);
    }
    EXPECT(erase(cache, 0), 1);
    EXPECT(lives.load(), 0);
    EXPECT(insert(cache, 1), FERRETGOLD_PLACED);
}

// Puts another one in under its key, which stays if the cache goes on, and one that goes at once.
void put_again(block &it) {
    ferretgold_status why = FERRETGOLD_NULL;
    came.push_back(insert(*used, it.number));
    (void)used->insert_pinned(key_of(it.number), std::make_unique<block>(it.number), 10,
                              FERRETGOLD_LOW, nullptr, why);
    came.push_back(why);
    came.push_back(used->close());
}

void coming_back() {
    const int wanted[] = {FERRETGOLD_PLACED,  FERRETGOLD_OK,        FERRETGOLD_CLIENTS_OUT,
                          FERRETGOLD_DROPPED, FERRETGOLD_NO_CLIENT, FERRETGOLD_CLIENTS_OUT};
    blocks cache = opened(small_cache());
    used = &cache;
    for (std::uint64_t number = 1; number <= 2; number++) {
        EXPECT(cache.insert(key_of(number), std::make_unique<block>(number, put_again), 10),
               FERRETGOLD_OK);
    }
    EXPECT(erase(cache, 1), 1);
    EXPECT(lives.load(), 2);
    EXPECT(found(cache, 1)->ends == nullptr, true);
    EXPECT(cache.close(), FERRETGOLD_OK); // which the second block can't prevent
    EXPECT(came == std::vector<int>(std::begin(wanted), std::end(wanted)), true);
    EXPECT(lives.load(), 0);
}

// A block that holds another one of its cache lets that go, and the cache with it.
struct parent {
    holding child;
};

void parents() {
    ferretgold_status why = FERRETGOLD_NULL;
    ferretgold::object_cache<parent> cache(small_cache(), why);
    {
        blocks children = opened(small_cache());
        EXPECT(cache.insert(key_of(1), std::unique_ptr<parent>(new parent{pinned_in(children, 2)}),
                            1), FERRETGOLD_OK);
    }
    EXPECT(lives.load(), 1);
    EXPECT(cache.lookup(key_of(1), why)->child->number, 2);
    EXPECT(cache.erase(key_of(1), why), 1);
    EXPECT(lives.load(), 0);
}

// ---- Threads -----------------------------------------------------------------------------------

constexpr unsigned THREADS = 8, MAIL = 16, HELD = 4, KEYS = 200;

// Pointers on their way from one thread to another, by their addresses.
std::atomic<holding *> mail[MAIL];

void let_go(holding it) {
    if (it) {
        EXPECT(it->canary, ALIVE);
        it->held--;
        it.release(it->number % 2 == 0, it->number % 7 == 0);
    }
}

class worker {
  public:
    worker(blocks &cache, unsigned seed) : cache_(cache), random_(seed) {}

    void work(unsigned long operations) {
        for (unsigned long k = 0; k < operations; k++) {
            operate(random_() % 100);
        }
        for (holding &it : held_) {
            let_go(std::move(it));
        }
    }

  private:
    void operate(unsigned what) {
        const std::uint64_t number = random_() % KEYS;
        ferretgold_status why = FERRETGOLD_NULL;
        if (what < 50) {
            hold(cache_.lookup(key_of(number), why), number);
        } else if (what < 70) {
            hold(cache_.insert_pinned(key_of(number), std::make_unique<block>(number), 1,
                                      FERRETGOLD_LOW, nullptr, why), number);
        } else if (what < 85) {
            (void)cache_.insert(key_of(number), std::make_unique<block>(number), 1);
        } else if (what < 95) {
            (void)cache_.erase(key_of(number), why);
        } else if (held_[0]) {
            hold(held_[0].ref(why), held_[0]->number);
        }
        EXPECT(why == FERRETGOLD_NULL || why <= FERRETGOLD_MISS || why == FERRETGOLD_NO_CLIENT
                   || why == FERRETGOLD_HANDLES_FULL, true);
    }

    // Holds one in place of another, which this thread lets go, or whoever finds it.
    void hold(holding it, std::uint64_t number) {
        if (it) {
            EXPECT(it->canary == ALIVE && it->number == number, true);
            it->held++;
        }
        std::swap(held_[random_() % HELD], it);
        if (it && random_() % 4 == 0) {
            holding *sent = new holding(std::move(it));
            const std::unique_ptr<holding> other(mail[random_() % MAIL].exchange(sent));
            it = other ? std::move(*other) : holding();
        }
        let_go(std::move(it));
    }

    blocks &cache_;
    std::minstd_rand random_;
    holding held_[HELD];
};

// The cache goes while pointers are out, and the last one closes it.
void threads(unsigned long operations) {
    {
        ferretgold_object_config config = FERRETGOLD_OBJECT_CONFIG;
        config.slots = 256;
        config.shards = 1;
        config.clients = 6;
        config.handles = 16;
        config.capacity = 100;
        blocks cache = opened(config);
        std::vector<std::thread> running;
        for (unsigned seed = 1; seed <= THREADS; seed++) {
            running.emplace_back([&, seed] { worker(cache, seed).work(operations / THREADS); });
        }
        for (std::thread &it : running) {
            it.join();
        }
    }
    std::vector<std::thread> running;
    for (std::atomic<holding *> &it : mail) {
        running.emplace_back([&] {
            const std::unique_ptr<holding> last(it.exchange(nullptr));
            EXPECT(last != nullptr, operations > 10000);
            let_go(last ? std::move(*last) : holding());
        });
    }
    for (std::thread &it : running) {
        it.join();
    }
    EXPECT(lives.load(), 0);
}

// The checking library ends the program at the second insertion of an object that stands.
void owned() {
    blocks cache = opened(small_cache());
    block *one = new block(1);
    for (std::uint64_t number = 1; number <= 2; number++) {
        (void)cache.insert(key_of(number), std::unique_ptr<block>(one), 10);
    }
}

void rows() {
    for (const row &it : ROWS) {
        try_row(it, false);
        try_row(it, true);
    }
    temporaries();
    meant();
    totals();
    none();
    seeded();
    no_memory();
#ifdef __cpp_exceptions
    thrown();
#endif
    EXPECT(lives.load(), 0);
    orders();
    walk();
    collected();
    chain();
    coming_back();
    parents();
    EXPECT(lives.load(), 0);
    EXPECT(object_uses(), 0);
}

} // namespace

int main(int count, char **words) {
    if (count > 1 && std::strcmp(words[1], "owned") == 0) {
        owned();
        return 1;
    }
    if (count < 3) {
        rows();
    }
    threads(count > 1 ? std::strtoul(words[count - 1], nullptr, 10) : 1000000);
    std::printf("object.cpp: %ld faults\n", faults.load());
    return faults != 0;
}

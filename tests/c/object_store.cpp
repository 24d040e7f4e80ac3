// The raw calls of a cache of objects once more, by plain C++: the same protocol, unproved, so that a
// sanitizer sees each of its steps. It stands before the library where a program is linked, and the C
// for objects, which is to be looked through, calls it in place of what is proved.
#include "ferretgold_object.h"
#include "ferretgold_raw.h"

#include <algorithm>
#include <array>
#include <atomic>
#include <cstddef>
#include <cstdint>
#include <memory>
#include <utility>
#include <vector>

namespace {

using std::uint32_t;
using std::uint64_t;

// ---- The meta word -----------------------------------------------------------------------------

constexpr uint64_t RELEASE = uint64_t{1} << 30, COUNTER = RELEASE - 1, COUNTERS = (uint64_t{1} << 60) - 1;
constexpr uint64_t OCCUPIED = uint64_t{4} << 61, HIDES = ~(uint64_t{1} << 61);
constexpr uint64_t EMPTY = 0, INVISIBLE = 6, VISIBLE = 7;

uint64_t state(uint64_t word) { return word >> 61; }
bool has_entry(uint64_t word) { return state(word) >= INVISIBLE; }
uint64_t acquires(uint64_t word) { return word & COUNTER; }
uint64_t references(uint64_t word) { return (word - (word >> 30)) & COUNTER; }

// ---- A shard -----------------------------------------------------------------------------------

struct object {
    ferretgold_key key;
    ferretgold_object_value value;
    uint32_t charge;
};

struct slot {
    std::atomic<uint64_t> meta{0}, displacement{0}, w0{0}, w1{0}, charge{0}, word{0};
};

// What a client's calls freed, and how much of what isn't its own it takes; and what they did.
struct gone_list {
    std::vector<object> gone;
    std::size_t most;
    ferretgold_stats done{};
    bool has_room(std::size_t count) const { return gone.size() + count <= most; }
};

enum class placing { PLACED, MATCHED, NO_SLOT };

class shard {
  public:
    shard(uint32_t count, uint64_t most, bool is_strict)
        : slots_(count), capacity_(most), is_strict_(is_strict) {}

    uint64_t capacity() const { return capacity_; }
    uint64_t usage() const { return usage_; }
    uint64_t occupancy() const { return occupancy_; }
    uint64_t standing() const { return standing_; }
    std::size_t size() const { return slots_.size(); }

    // The entry of a slot that somebody holds or owns, or of a closed cache.
    object entry(std::size_t at) const {
        const slot &it = slots_[at];
        const uint64_t word = it.word;
        return {{it.w0, it.w1},
                {word & ((uint64_t{1} << 48) - 1), static_cast<std::uint16_t>(word >> 48)},
                static_cast<uint32_t>(it.charge)};
    }

    bool has_entry_at(std::size_t at) const { return has_entry(slots_[at].meta); }
    uint64_t pinned_charge(std::size_t at) const {
        return has_entry_at(at) && references(slots_[at].meta) > 0 ? slots_[at].charge.load() : 0;
    }

    // Holds the entry of a key: where; the number of slots if there is none.
    std::size_t find(const ferretgold_key &key) {
        for (std::size_t n = 0; n < slots_.size(); n++) {
            const std::size_t at = probe(key, n);
            if (hold(at) && has_key_or_gives_back(at, key)) {
                return at;
            }
            if (slots_[at].displacement == 0) {
                break;
            }
        }
        return slots_.size();
    }

    // Holds what is visible in a slot; tries to free what is hidden there, and nobody holds.
    bool pin_at(std::size_t at, gone_list &list) {
        const uint64_t word = slots_[at].meta;
        if (state(word) == INVISIBLE && references(word) == 0 && list.has_room(1)) {
            settle(take(at, word, list));
        }
        return hold(at);
    }

    // Gives a reference back, and frees the entry where it may. Whether it did.
    bool release(std::size_t at, bool useful, bool erase_if_last, gone_list &list) {
        std::atomic<uint64_t> &meta = slots_[at].meta;
        const uint64_t word = useful ? meta.fetch_add(RELEASE) + RELEASE : meta.fetch_sub(1) - 1;
        if (!has_entry(word) || references(word) > 0 || (state(word) == VISIBLE && !erase_if_last)
            || !list.has_room(1)) {
            return false;
        }
        return settle(take(at, word, list));
    }

    uint32_t erase(const ferretgold_key &key, gone_list &list) {
        uint32_t hidden = 0;
        for (std::size_t n = 0; n < slots_.size(); n++) {
            const std::size_t at = probe(key, n);
            if (hold(at) && has_key_or_gives_back(at, key)) {
                hidden += has_hidden(at, list);
            }
            if (slots_[at].displacement == 0) {
                break;
            }
        }
        return hidden;
    }

    // Reserves a charge and a place: OK, DROPPED where there is no place, or why not.
    uint32_t reserve(uint32_t charge, gone_list &list) {
        if (is_strict_ && charge > capacity_) {
            return FERRETGOLD_TOO_LARGE;
        }
        const bool is_full = occupancy_.fetch_add(1) >= slots_.size() * 84 / 100;
        const uint64_t needed = is_strict_ ? needed_of(charge, usage_.fetch_add(charge)) : 0;
        uint64_t asked = is_strict_ ? needed : wanted_of(charge, usage_);
        if (is_full && asked == 0) {
            asked = 1;
        }
        const auto [slots, freed] = asked > 0 ? evict(asked, list) : freed_slots{0, 0};
        if (freed < needed || (is_full && slots == 0)) {
            occupancy_ -= 1 + slots;
            usage_ -= freed + (is_strict_ ? charge : 0);
            if (!is_strict_) {
                return MISSED;
            }
            return freed < needed ? FERRETGOLD_CAPACITY_FULL : FERRETGOLD_OCCUPANCY_FULL;
        }
        occupancy_ -= slots;
        usage_ += is_strict_ ? 0 : charge;
        usage_ -= freed;
        return FERRETGOLD_OK;
    }
    static constexpr uint32_t MISSED = UINT32_MAX; // not strict, and no place

    placing place(const object &it, uint64_t countdown, bool keeps, std::size_t &at) {
        for (std::size_t n = 0; n < slots_.size(); n++) {
            at = probe(it.key, n);
            const uint64_t found = slots_[at].meta.fetch_or(OCCUPIED);
            if (state(found) == EMPTY) {
                write(at, it);
                slots_[at].meta = VISIBLE << 61 | (countdown - keeps) << 30 | countdown;
                return placing::PLACED;
            }
            if (state(found) == VISIBLE && hold(at) && has_key_or_gives_back(at, it.key)) {
                slots_[at].meta += RELEASE;
                take_back(it.key, n);
                return placing::MATCHED;
            }
            slots_[at].displacement += 1;
        }
        take_back(it.key, slots_.size());
        return placing::NO_SLOT;
    }

    void give_up(uint64_t charge) { occupancy_ -= 1, usage_ -= charge; }
    void stand(uint64_t charge) { standing_ += charge; }
    void keep_charge() { occupancy_ -= 1; }
    void charge_more(uint64_t charge) { usage_ += charge; }
    void fall(uint64_t charge) { standing_ -= charge, usage_ -= charge; }

  private:
    using freed_slots = std::pair<uint64_t, uint64_t>; // how many, and their charges

    static uint64_t mixed(uint64_t word) {
        word *= UINT64_C(0x9e3779b97f4a7c15);
        return word ^ word >> 32;
    }

    std::size_t probe(const ferretgold_key &key, uint64_t n) const {
        const uint64_t home = mixed(key.w0 + mixed(key.w1));
        return (home + n * (mixed(home) | 1)) & (slots_.size() - 1);
    }

    bool hold(std::size_t at) {
        std::atomic<uint64_t> &meta = slots_[at].meta;
        if (state(meta) != VISIBLE) {
            return false;
        }
        const uint64_t found = meta.fetch_add(1);
        if (has_entry(found) && state(found) != VISIBLE) {
            meta -= 1;
        }
        return state(found) == VISIBLE;
    }

    bool has_key_or_gives_back(std::size_t at, const ferretgold_key &key) {
        const bool has = slots_[at].w0 == key.w0 && slots_[at].w1 == key.w1;
        slots_[at].meta -= has ? 0 : 1;
        return has;
    }

    // Hides an entry that is held for it, and frees it if nobody else holds it. Whether it was visible.
    bool has_hidden(std::size_t at, gone_list &list) {
        const uint64_t before = slots_[at].meta.fetch_and(HIDES), word = before & HIDES;
        if (references(word) > 1 || !list.has_room(1) || !settle(take(at, word, list))) {
            slots_[at].meta -= 1;
        }
        return state(before) == VISIBLE;
    }

    // Frees the entry of a slot that has this word: how many, and their charges.
    freed_slots take(std::size_t at, uint64_t word, gone_list &list) {
        if (!slots_[at].meta.compare_exchange_strong(word, OCCUPIED)) {
            list.done.lost += 1;
            return {0, 0};
        }
        list.gone.push_back(entry(at));
        const object it = list.gone.back();
        for (uint64_t n = 0; probe(it.key, n) != at; n++) {
            slots_[probe(it.key, n)].displacement -= 1;
        }
        slots_[at].meta = EMPTY;
        return {1, it.charge};
    }

    bool settle(const freed_slots &freed) {
        occupancy_ -= freed.first;
        usage_ -= freed.second;
        return freed.first > 0;
    }

    void take_back(const ferretgold_key &key, uint64_t count) {
        for (uint64_t n = 0; n < count; n++) {
            slots_[probe(key, n)].displacement -= 1;
        }
    }

    void write(std::size_t at, const object &it) {
        slot &to = slots_[at];
        to.w0 = it.key.w0;
        to.w1 = it.key.w1;
        to.charge = it.charge;
        to.word = it.value.address | static_cast<uint64_t>(it.value.kind) << 48;
    }

    uint64_t needed_of(uint64_t charge, uint64_t used) const {
        return charge - std::min(charge, capacity_ - std::min(used, capacity_));
    }

    uint64_t wanted_of(uint64_t charge, uint64_t used) const {
        if (used + charge <= capacity_ || charge > used) {
            return 0;
        }
        return charge + (used > capacity_ ? std::min(capacity_ / 1024, charge) + 1 : 0);
    }

    freed_slots evict(uint64_t asked, gone_list &list) {
        freed_slots freed{0, 0};
        uint64_t pinned = 0;
        for (std::size_t turn = 0; turn < 3 * slots_.size() / 4 + 1 && list.has_room(4); turn++) {
            const uint64_t from = hand_.fetch_add(4);
            list.done.turns += 1;
            for (uint64_t k = 0; k < 4; k++) {
                const auto [slots, charge] = visit((from + k) & (slots_.size() - 1), list, pinned);
                freed.first += slots;
                freed.second += charge;
            }
            if (freed.second >= asked || (freed.first + 1) * 30 <= pinned) {
                break;
            }
        }
        list.done.evicted += freed.first;
        list.done.freed += freed.second;
        return freed;
    }

    freed_slots visit(std::size_t at, gone_list &list, uint64_t &pinned) {
        uint64_t word = slots_[at].meta;
        if (!has_entry(word) || references(word) > 0) {
            pinned += has_entry(word);
            return {0, 0};
        }
        if (state(word) != VISIBLE || acquires(word) == 0) {
            return take(at, word, list);
        }
        const uint64_t left = std::min<uint64_t>(acquires(word) - 1, 2);
        (void)slots_[at].meta.compare_exchange_strong(word, (word & ~COUNTERS) | left << 30 | left);
        return {0, 0};
    }

    std::vector<slot> slots_;
    uint64_t capacity_;
    bool is_strict_;
    std::atomic<uint64_t> usage_{0}, occupancy_{0}, standing_{0}, hand_{0};
};

// ---- A cache and its clients -------------------------------------------------------------------

struct store {
    std::vector<std::unique_ptr<shard>> shards;
    shard &of(const ferretgold_key &key) {
        return *shards[(key.w0 ^ key.w1 >> 7) & (shards.size() - 1)];
    }
    std::size_t next_shard = 0, next_slot = 0; // of the walk over what is left
};

// A handle's place: on a slot, or on an object that stands alone.
struct held {
    uint64_t serial = 0; // 0 if it is vacant
    shard *at = nullptr;
    std::size_t slot = 0;
    bool is_alone = false;
    object it{};
};

struct client {
    store *cache;
    uint32_t cache_number, number;
    uint64_t serials, serial;
    std::vector<held> places;
    std::vector<uint32_t> vacant;
    gone_list list;
    std::size_t alone;

    uint32_t refuses() const {
        if (vacant.empty()) {
            return FERRETGOLD_HANDLES_FULL;
        }
        return serial >= serials ? FERRETGOLD_SPENT : FERRETGOLD_OK;
    }

    ferretgold_handle keep(held it) {
        const uint32_t index = vacant.back();
        vacant.pop_back();
        it.serial = ++serial;
        places[index] = it;
        ferretgold_handle handle{};
        handle.index = index;
        handle.serial = it.serial;
        handle.client = number;
        handle.cache = cache_number;
        return handle;
    }
};

client &client_of(ferretgold_object *it) { return *static_cast<client *>(it->at); }

uint64_t sum(ferretgold_object *it, uint64_t (shard::*number)() const) {
    uint64_t all = 0;
    for (const auto &one : client_of(it).cache->shards) {
        all += (one.get()->*number)();
    }
    return all;
}

constexpr std::array<uint64_t, 3> COUNTDOWNS = {3, 2, 1}; // by priority

// Why an insertion is refused before any step, if it is.
uint32_t judged(const client &by, const object &it, uint32_t priority, bool is_pinned) {
    if (priority >= COUNTDOWNS.size()) {
        return FERRETGOLD_BAD_PRIORITY;
    }
    if (it.charge == 0) {
        return FERRETGOLD_NO_CHARGE;
    }
    if (is_pinned && by.vacant.empty()) {
        return FERRETGOLD_HANDLES_FULL;
    }
    if (by.serial >= by.serials) {
        return FERRETGOLD_SPENT;
    }
    if (is_pinned && by.list.gone.size() + by.alone >= by.list.most + by.places.size()) {
        return FERRETGOLD_GONE_FULL;
    }
    return it.value.address >> 48 == 0 ? uint32_t{FERRETGOLD_OK} : uint32_t{FERRETGOLD_TOO_HIGH};
}

// Inserts an object. Where it is pinned, and isn't placed, it stands alone.
uint32_t insert(client &by, const object &it, uint32_t priority, bool is_pinned, uint32_t *answer,
                bool *list_full, ferretgold_handle *handle) {
    if (const uint32_t why = judged(by, it, priority, is_pinned); why != FERRETGOLD_OK) {
        return why;
    }
    shard &to = by.cache->of(it.key);
    held kept{0, &to, 0, false, it};
    by.serial += 1;
    const uint32_t why = to.reserve(it.charge, by.list);
    *list_full = !by.list.has_room(4);
    if (why != FERRETGOLD_OK && why != shard::MISSED) {
        return why;
    }
    const bool has_place = why == FERRETGOLD_OK;
    const placing where = has_place ? to.place(it, COUNTDOWNS[priority], is_pinned, kept.slot)
                                    : placing::NO_SLOT;
    const bool is_placed = where == placing::PLACED;
    by.list.done.boosts += where == placing::MATCHED;
    *list_full &= !is_placed;
    *answer = is_placed ? FERRETGOLD_PLACED : is_pinned ? FERRETGOLD_STANDALONE : FERRETGOLD_DROPPED;
    if (!is_placed && is_pinned) {
        has_place ? to.keep_charge() : to.charge_more(it.charge);
        to.stand(it.charge);
        kept.is_alone = true;
        by.alone += 1;
    } else if (!is_placed && has_place) {
        to.give_up(it.charge);
    }
    if (is_pinned) {
        *handle = by.keep(kept);
    }
    return FERRETGOLD_OK;
}

} // namespace

// ---- The calls ---------------------------------------------------------------------------------

extern "C" {

uint32_t ferretgold_raw_objects_open(ferretgold_object *left) {
    left->at = new store *(nullptr);
    return FERRETGOLD_OK;
}

uint32_t ferretgold_raw_object_open(const ferretgold_object_config *config, uint32_t number,
                                    ferretgold_object *clients, size_t count, ferretgold_object *cache) {
    auto it = std::make_unique<store>();
    for (uint32_t k = 0; k < config->shards; k++) {
        it->shards.push_back(std::make_unique<shard>(
            config->slots, (config->capacity + config->shards - 1) / config->shards, config->strict));
    }
    for (uint32_t k = 0; k < count; k++) {
        auto *one = new client{it.get(), number, k, config->serials, 0, {}, {}, {{}, config->gone}, 0};
        one->places.resize(config->handles);
        one->list.gone.reserve(config->gone + config->handles);
        for (uint32_t index = config->handles; index > 0; index--) {
            one->vacant.push_back(index - 1);
        }
        clients[k].at = one;
    }
    cache->at = it.release();
    return FERRETGOLD_OK;
}

uint32_t ferretgold_raw_object_close(ferretgold_object cache, ferretgold_object *clients, size_t count,
                                     ferretgold_object *left, ferretgold_object *kept) {
    for (size_t k = 0; k < count; k++) {
        const client &it = client_of(&clients[k]);
        if (it.vacant.size() < it.places.size() || !it.list.gone.empty()) {
            *kept = cache;
            return FERRETGOLD_HANDLES_OUT;
        }
    }
    for (size_t k = 0; k < count; k++) {
        delete static_cast<client *>(clients[k].at);
    }
    *static_cast<store **>(left->at) = static_cast<store *>(cache.at);
    return FERRETGOLD_OK;
}

uint32_t ferretgold_raw_objects_next(ferretgold_object *left, ferretgold_key *key,
                                     ferretgold_object_value *value) {
    store &it = **static_cast<store **>(left->at);
    for (; it.next_shard < it.shards.size(); it.next_shard++, it.next_slot = 0) {
        shard &from = *it.shards[it.next_shard];
        while (it.next_slot < from.size()) {
            const std::size_t at = it.next_slot++;
            if (from.has_entry_at(at)) {
                *key = from.entry(at).key;
                *value = from.entry(at).value;
                return FERRETGOLD_OK;
            }
        }
    }
    return FERRETGOLD_MISS;
}

uint32_t ferretgold_raw_objects_end(ferretgold_object left, ferretgold_object *) {
    delete *static_cast<store **>(left.at);
    delete static_cast<store **>(left.at);
    return FERRETGOLD_OK;
}

uint32_t ferretgold_raw_object_hold(ferretgold_object *it, ferretgold_held_object *held) {
    client &by = client_of(it);
    if (const uint32_t why = by.refuses(); why != FERRETGOLD_OK) {
        return why;
    }
    shard &in = by.cache->of(held->key);
    const std::size_t at = in.find(held->key);
    if (at == in.size()) {
        return FERRETGOLD_MISS;
    }
    const object entry = in.entry(at);
    *held = {by.keep({0, &in, at, false, entry}), entry.key, entry.value, entry.charge};
    return FERRETGOLD_OK;
}

uint32_t ferretgold_raw_object_pin_at(ferretgold_object *it, uint32_t number, uint32_t slot,
                                      ferretgold_held_object *held) {
    client &by = client_of(it);
    if (const uint32_t why = by.refuses(); why != FERRETGOLD_OK) {
        return why;
    }
    if (number >= by.cache->shards.size() || slot >= by.cache->shards[number]->size()) {
        return FERRETGOLD_MISS;
    }
    shard &in = *by.cache->shards[number];
    if (!in.pin_at(slot, by.list)) {
        return FERRETGOLD_MISS;
    }
    const object entry = in.entry(slot);
    *held = {by.keep({0, &in, slot, false, entry}), entry.key, entry.value, entry.charge};
    return FERRETGOLD_OK;
}

uint32_t ferretgold_raw_object_release(ferretgold_object *it, const ferretgold_handle *handle, bool useful,
                                       bool erase_if_last, bool *freed) {
    client &by = client_of(it);
    if (handle->index >= by.places.size() || by.places[handle->index].serial != handle->serial) {
        return FERRETGOLD_NO_HANDLE;
    }
    const held was = by.places[handle->index];
    by.places[handle->index].serial = 0;
    by.vacant.push_back(handle->index);
    *freed = true;
    if (was.is_alone) {
        was.at->fall(was.it.charge);
        by.list.gone.push_back(was.it);
        by.alone -= 1;
        return FERRETGOLD_OK;
    }
    *freed = was.at->release(was.slot, useful, erase_if_last, by.list);
    return FERRETGOLD_OK;
}

uint32_t ferretgold_raw_object_take_gone(ferretgold_object *it, ferretgold_key *key,
                                         ferretgold_object_value *value, std::size_t *left) {
    std::vector<object> &gone = client_of(it).list.gone;
    *left = 0;
    if (gone.empty()) {
        return FERRETGOLD_MISS;
    }
    *key = gone.back().key;
    *value = gone.back().value;
    gone.pop_back();
    *left = gone.size();
    return FERRETGOLD_OK;
}

uint32_t ferretgold_raw_object_erase(ferretgold_object *it, const ferretgold_key *key, uint32_t *hidden) {
    client &by = client_of(it);
    *hidden = by.cache->of(*key).erase(*key, by.list);
    return FERRETGOLD_OK;
}

uint32_t ferretgold_raw_object_insert(ferretgold_object *it, const ferretgold_key *key,
                                      const ferretgold_object_value *value, uint32_t charge,
                                      uint32_t priority, uint32_t *answer, bool *list_full) {
    return insert(client_of(it), {*key, *value, charge}, priority, false, answer, list_full, nullptr);
}

uint32_t ferretgold_raw_object_insert_pinned(ferretgold_object *it, const ferretgold_key *key,
                                             const ferretgold_object_value *value, uint32_t charge,
                                             uint32_t priority, uint32_t *answer, bool *list_full,
                                             ferretgold_handle *handle) {
    return insert(client_of(it), {*key, *value, charge}, priority, true, answer, list_full, handle);
}

// Of all shards: an insertion adds only to its own.
void ferretgold_raw_object_stats_at(ferretgold_object *it, const ferretgold_key *, ferretgold_stats *stats) {
    *stats = client_of(it).list.done;
}

uint64_t ferretgold_raw_object_usage(ferretgold_object *it) { return sum(it, &shard::usage); }
uint64_t ferretgold_raw_object_occupancy(ferretgold_object *it) { return sum(it, &shard::occupancy); }

uint64_t ferretgold_raw_object_pinned_usage(ferretgold_object *it) {
    uint64_t all = sum(it, &shard::standing);
    for (const auto &one : client_of(it).cache->shards) {
        for (std::size_t at = 0; at < one->size(); at++) {
            all += one->pinned_charge(at);
        }
    }
    return all;
}
}

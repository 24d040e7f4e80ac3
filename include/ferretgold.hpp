// ferretgold.hpp - a wrapper of ferretgold.h for C++17: objects that give themselves back.
//
// ferretgold.h, ferretgold_closed.h and ferretgold_image.h say what each call does. Here a call that
// may be refused has a last argument `why`, which gets its status, and throws nothing. Where exceptions
// are on, each has a form without that argument, too, which throws a refusal as ferretgold::refused; a
// miss is an empty handle or no entry, and is never thrown. client's insert and read, closed's value and
// image's add return their status. ferretgold_file.hpp has the calls of ferretgold_file.h, and
// ferretgold_object.hpp those of ferretgold_object.h.
//
// Objects may go in any order: a client goes back once it and all its handles are gone, and a cache is
// closed once it and all its clients are. A move assignment exchanges the two, unless they are handles.
#ifndef FERRETGOLD_HPP
#define FERRETGOLD_HPP

#include "ferretgold.h"
#include "ferretgold_closed.h"
#include "ferretgold_image.h"

#include <atomic>
#include <cstddef>
#include <cstdint>
#include <memory>
#include <new>
#include <optional>
#include <stdexcept>
#include <utility>

namespace ferretgold {

#ifdef __cpp_exceptions
// Why a call was refused.
class refused : public std::runtime_error {
  public:
    explicit refused(ferretgold_status why)
        : std::runtime_error(ferretgold_status_text(why)), status(why) {}
    const ferretgold_status status;
};

// What a call returns, which says why it is refused; a refusal is thrown.
template <typename Call> auto must(Call call) {
    ferretgold_status why{};
    auto it = call(why);
    if (why > FERRETGOLD_MISS) {
        throw refused(why);
    }
    return it;
}
#endif

// How many entries a call of C's erases, which asks a function of the key what is meant. Ends the program
// where that throws.
template <typename Meant, typename Erase>
std::uint64_t erased_where(Meant &meant, Erase erase) noexcept {
    std::uint64_t hidden = 0;
    const auto ask = [](void *it, const ferretgold_key *key) noexcept -> bool {
        return (*static_cast<Meant *>(it))(*key);
    };
    const void *it = std::addressof(meant);
    erase(ask, const_cast<void *>(it), &hidden);
    return hidden;
}

// The version of the library.
inline const char *version() noexcept { return ferretgold_version(); }

// How many bytes a cache of this configuration allocates; 0 where it is refused.
inline std::uint64_t memory(const ferretgold_config &config) noexcept {
    return ferretgold_memory(&config);
}

// A configuration of at most so many bytes, for values of at most so many and as many threads; `fit`
// gets what came of that, and may be null.
inline ferretgold_config config_for(std::uint64_t bytes, std::size_t value, std::uint32_t threads,
                                    ferretgold_status &why,
                                    ferretgold_fit *fit = nullptr) noexcept {
    ferretgold_config config{};
    why = ferretgold_config_for(bytes, value, threads, &config, fit);
    return config;
}

#ifdef __cpp_exceptions
inline ferretgold_config config_for(std::uint64_t bytes, std::size_t value, std::uint32_t threads,
                                    ferretgold_fit *fit = nullptr) {
    return must([&](auto &why) { return config_for(bytes, value, threads, why, fit); });
}
#endif

// What to think over in a configuration: bits of ferretgold_advice; and one of them as a sentence.
inline std::uint32_t advice(const ferretgold_config &config) noexcept {
    return ferretgold_config_advice(&config);
}
inline const char *advice_text(std::uint32_t bit) noexcept { return ferretgold_advice_text(bit); }

// With which status opening a cache of this configuration refuses it, whatever memory there is; else OK.
inline ferretgold_status check(const ferretgold_config &config) noexcept {
    return ferretgold_config_check(&config);
}

// What a cache shares with its clients, each of which uses it: the last of them that goes closes it.
class shared_cache {
  public:
    static shared_cache *open(const ferretgold_config &config, ferretgold_status &why) noexcept {
        why = FERRETGOLD_OUT_OF_MEMORY;
        return by([&](ferretgold_cache *&opened) { why = ferretgold_open(&config, &opened); });
    }

    // One whose cache a call opens, into a pointer that is null before; null if the call leaves it so.
    template <typename Call> static shared_cache *by(Call call) noexcept {
        shared_cache *it = new (std::nothrow) shared_cache;
        if (it == nullptr) {
            return nullptr;
        }
        call(it->raw);
        if (it->raw == nullptr) {
            delete it;
            return nullptr;
        }
        return it;
    }

    void join() noexcept { users_.fetch_add(1); }

    void leave() noexcept {
        if (users_.fetch_sub(1) == 1) {
            (void)ferretgold_close(raw, nullptr);
            delete this;
        }
    }

    ferretgold_cache *raw = nullptr;

  private:
    std::atomic<std::size_t> users_{1};
};

// What a client shares with its handles, all of which one thread uses at a time: the last of them that
// goes gives it back, with what handles ferretgold.h gave.
class shared_client {
  public:
    static shared_client *open(shared_cache *cache, ferretgold_status &why) noexcept {
        ferretgold_client *raw = nullptr;
        why = ferretgold_client_open(cache == nullptr ? nullptr : cache->raw, &raw);
        if (why != FERRETGOLD_OK) {
            return nullptr;
        }
        shared_client *it = new (std::nothrow) shared_client(cache, raw);
        if (it == nullptr) {
            (void)ferretgold_client_close(cache->raw, raw);
            why = FERRETGOLD_OUT_OF_MEMORY;
        }
        return it;
    }

    void join() noexcept { users_ += 1; }

    void leave() noexcept {
        users_ -= 1;
        if (users_ == 0) {
            (void)ferretgold_client_close_releasing(cache_->raw, raw);
            cache_->leave();
            delete this;
        }
    }

    ferretgold_client *const raw;

  private:
    shared_client(shared_cache *cache, ferretgold_client *client) noexcept
        : raw(client), cache_(cache) {
        cache_->join();
    }

    shared_cache *const cache_;
    std::size_t users_ = 1;
};

// A handle on an entry, or none, which calls refuse by NULL. It is used on its client's thread. It gives
// itself back as a use, unless client's pin_at gave it.
class handle {
  public:
    handle() = default;
    handle(shared_client *client, ferretgold_handle held, bool useful = true) noexcept
        : client_(client), held_(held), useful_(useful) {
        client_->join();
    }
    handle(handle &&other) noexcept
        : client_(std::exchange(other.client_, nullptr)), held_(other.held_),
          useful_(other.useful_) {}
    handle &operator=(handle &&other) noexcept {
        if (this != &other) {
            release(useful_);
            client_ = std::exchange(other.client_, nullptr);
            held_ = other.held_;
            useful_ = other.useful_;
        }
        return *this;
    }
    ~handle() { release(useful_); }

    // Whether it is on an entry.
    explicit operator bool() const noexcept { return client_ != nullptr; }

    ferretgold_key key(ferretgold_status &why) const noexcept {
        ferretgold_key key{};
        why = ferretgold_handle_key(raw(), held_, &key);
        return key;
    }

    std::size_t size(ferretgold_status &why) const noexcept {
        std::size_t length = 0;
        why = ferretgold_value_len(raw(), held_, &length);
        return length;
    }

    // Copies the value to a buffer that has room for it, and returns how many bytes it has.
    std::size_t read(void *buffer, std::size_t capacity, ferretgold_status &why) const noexcept {
        std::size_t length = 0;
        why = ferretgold_read_value(raw(), held_, buffer, capacity, &length);
        return length;
    }

    // Copies bytes from an offset on to a buffer, as many as there are and as it has room for, and
    // returns how many, and how many the whole value has.
    ferretgold_part read_part(std::size_t offset, void *buffer, std::size_t capacity,
                              ferretgold_status &why) const noexcept {
        ferretgold_part part{};
        why = ferretgold_read_part(raw(), held_, offset, buffer, capacity, &part);
        return part;
    }

    // One handle more on the same entry.
    handle reref(ferretgold_status &why) const noexcept {
        ferretgold_handle more{};
        why = ferretgold_reref(raw(), held_, &more);
        return why == FERRETGOLD_OK ? handle(client_, more) : handle();
    }

#ifdef __cpp_exceptions
    ferretgold_key key() const {
        return must([&](auto &why) { return key(why); });
    }
    std::size_t size() const {
        return must([&](auto &why) { return size(why); });
    }
    std::size_t read(void *buffer, std::size_t capacity) const {
        return must([&](auto &why) { return read(buffer, capacity, why); });
    }
    ferretgold_part read_part(std::size_t offset, void *buffer, std::size_t capacity) const {
        return must([&](auto &why) { return read_part(offset, buffer, capacity, why); });
    }
    handle reref() const {
        return must([&](auto &why) { return reref(why); });
    }
#endif

    // Gives it back, if it is on an entry. `freed` gets whether that was freed; it may be null.
    void release(bool useful = true, bool erase_if_last = false, bool *freed = nullptr) noexcept {
        if (freed != nullptr) {
            *freed = false;
        }
        if (client_ != nullptr) {
            (void)ferretgold_release(raw(), held_, useful, erase_if_last, freed);
            std::exchange(client_, nullptr)->leave();
        }
    }

    const ferretgold_handle &get() const noexcept { return held_; }

  private:
    ferretgold_client *raw() const noexcept {
        return client_ == nullptr ? nullptr : client_->raw;
    }

    shared_client *client_ = nullptr;
    ferretgold_handle held_{};
    bool useful_ = true;
};

// A client of a cache, for one thread at a time, or none, which calls refuse by NULL. Opening one
// allocates a few words here.
class client {
  public:
    client() = default;
    explicit client(shared_client *shared) noexcept : shared_(shared) {}
    client(client &&other) noexcept : shared_(std::exchange(other.shared_, nullptr)) {}
    client &operator=(client &&other) noexcept {
        std::swap(shared_, other.shared_);
        return *this;
    }
    ~client() {
        if (shared_ != nullptr) {
            shared_->leave();
        }
    }

    // Whether it is one.
    explicit operator bool() const noexcept { return shared_ != nullptr; }

    // A handle on an entry of the key; none if there is none.
    handle lookup(const ferretgold_key &key, ferretgold_status &why) noexcept {
        ferretgold_handle found{};
        why = ferretgold_lookup(get(), &key, &found);
        return why == FERRETGOLD_OK ? handle(shared_, found) : handle();
    }

    // The same of the entry of a slot, for walks over a cache; `held` gets what the entry's words say.
    handle pin_at(std::uint32_t shard, std::uint32_t slot, ferretgold_held_entry *held,
                  ferretgold_status &why) noexcept {
        why = ferretgold_pin_at(get(), shard, slot, held);
        return why == FERRETGOLD_OK ? handle(shared_, held->handle, false) : handle();
    }

    // Copies the value of an entry of the key to a buffer, with no handle: OK, MISS or TOO_SHORT.
    ferretgold_status get(const ferretgold_key &key, void *buffer, std::size_t capacity,
                          std::size_t *length, bool useful = true) noexcept {
        return ferretgold_get(get(), &key, buffer, capacity, useful, length);
    }

    // The same of bytes from an offset on, as handle's read_part does; `part` gets what that returns,
    // and may be null. It takes a handle for the time of the call: OK, MISS, HANDLES_FULL or SPENT.
    ferretgold_status get_part(const ferretgold_key &key, std::size_t offset, void *buffer,
                               std::size_t capacity, ferretgold_part *part,
                               bool useful = true) noexcept {
        return ferretgold_get_part(get(), &key, offset, buffer, capacity, useful, part);
    }

    // Inserts an entry; `inserted` gets what came of it, and may be null.
    ferretgold_status insert(const ferretgold_key &key, const void *value, std::size_t length,
                             std::uint32_t charge, ferretgold_priority priority = FERRETGOLD_LOW,
                             ferretgold_inserted *inserted = nullptr) noexcept {
        return ferretgold_insert(get(), &key, value, length, charge, priority, inserted);
    }

    // The same, and a handle on it.
    handle insert_pinned(const ferretgold_key &key, const void *value, std::size_t length,
                         std::uint32_t charge, ferretgold_priority priority,
                         ferretgold_inserted *inserted, ferretgold_status &why) noexcept {
        ferretgold_handle given{};
        why = ferretgold_insert_pinned(get(), &key, value, length, charge, priority, inserted,
                                       &given);
        return why == FERRETGOLD_OK ? handle(shared_, given) : handle();
    }

    // Hides each entry of the key, and returns how many.
    std::uint32_t erase(const ferretgold_key &key, ferretgold_status &why) noexcept {
        std::uint32_t hidden = 0;
        why = ferretgold_erase(get(), &key, &hidden);
        return hidden;
    }

    // Hides each entry whose key is meant, as ferretgold_erase_where does, and returns how many. Ends the
    // program where `meant` throws.
    template <typename Meant>
    std::uint64_t erase_where(Meant &&meant, ferretgold_status &why) noexcept {
        return erased_where(meant, [&](auto ask, void *it, std::uint64_t *hidden) {
            why = ferretgold_erase_where(get(), ask, it, hidden);
        });
    }

    std::uint64_t usage(ferretgold_status &why) const noexcept {
        std::uint64_t usage = 0;
        why = ferretgold_usage(get(), &usage);
        return usage;
    }

    std::uint64_t pinned_usage(ferretgold_status &why) const noexcept {
        std::uint64_t usage = 0;
        why = ferretgold_pinned_usage(get(), &usage);
        return usage;
    }

    std::uint64_t occupancy(ferretgold_status &why) const noexcept {
        std::uint64_t occupancy = 0;
        why = ferretgold_occupancy(get(), &occupancy);
        return occupancy;
    }

    std::uint64_t word(std::uint32_t shard, std::uint32_t slot,
                       ferretgold_status &why) const noexcept {
        std::uint64_t word = 0;
        why = ferretgold_word(get(), shard, slot, &word);
        return word;
    }

    std::uint64_t displacement(std::uint32_t shard, std::uint32_t slot,
                               ferretgold_status &why) const noexcept {
        std::uint64_t displacement = 0;
        why = ferretgold_displacement(get(), shard, slot, &displacement);
        return displacement;
    }

    ferretgold_stats stats(ferretgold_status &why) const noexcept {
        ferretgold_stats counts{};
        why = ferretgold_statistics(get(), &counts);
        return counts;
    }

#ifdef __cpp_exceptions
    handle lookup(const ferretgold_key &key) {
        return must([&](auto &why) { return lookup(key, why); });
    }
    handle pin_at(std::uint32_t shard, std::uint32_t slot, ferretgold_held_entry *held) {
        return must([&](auto &why) { return pin_at(shard, slot, held, why); });
    }
    handle insert_pinned(const ferretgold_key &key, const void *value, std::size_t length,
                         std::uint32_t charge, ferretgold_priority priority = FERRETGOLD_LOW,
                         ferretgold_inserted *inserted = nullptr) {
        return must([&](auto &why) {
            return insert_pinned(key, value, length, charge, priority, inserted, why);
        });
    }
    std::uint32_t erase(const ferretgold_key &key) {
        return must([&](auto &why) { return erase(key, why); });
    }
    template <typename Meant> std::uint64_t erase_where(Meant &&meant) {
        return must([&](auto &why) { return erase_where(meant, why); });
    }
    std::uint64_t usage() const {
        return must([&](auto &why) { return usage(why); });
    }
    std::uint64_t pinned_usage() const {
        return must([&](auto &why) { return pinned_usage(why); });
    }
    std::uint64_t occupancy() const {
        return must([&](auto &why) { return occupancy(why); });
    }
    std::uint64_t word(std::uint32_t shard, std::uint32_t slot) const {
        return must([&](auto &why) { return word(shard, slot, why); });
    }
    std::uint64_t displacement(std::uint32_t shard, std::uint32_t slot) const {
        return must([&](auto &why) { return displacement(shard, slot, why); });
    }
    ferretgold_stats stats() const {
        return must([&](auto &why) { return stats(why); });
    }
#endif

    std::uint32_t number() const noexcept { return ferretgold_client_number(get()); }
    std::uint32_t held() const noexcept { return ferretgold_held(get()); }
    std::uint64_t serials_left() const noexcept { return ferretgold_serials_left(get()); }
    bool holds(const handle &it) const noexcept { return it && ferretgold_holds(get(), it.get()); }

    ferretgold_client *get() const noexcept { return shared_ == nullptr ? nullptr : shared_->raw; }

  private:
    shared_client *shared_ = nullptr;
};

// What is left of a cache that was closed, or none, which calls refuse by NULL. It is read and goes on
// the thread that closed the cache.
class closed {
  public:
    closed() = default;
    explicit closed(ferretgold_closed *raw) noexcept : raw_(raw) {}
    closed(closed &&other) noexcept : raw_(std::exchange(other.raw_, nullptr)) {}
    closed &operator=(closed &&other) noexcept {
        std::swap(raw_, other.raw_);
        return *this;
    }
    ~closed() { ferretgold_closed_free(raw_); }

    // Whether it is of one.
    explicit operator bool() const noexcept { return raw_ != nullptr; }

    // What the cache was opened with.
    ferretgold_config config() const noexcept {
        ferretgold_config config{};
        (void)ferretgold_closed_config(raw_, &config);
        return config;
    }

    ferretgold_totals totals(ferretgold_status &why) const noexcept {
        ferretgold_totals totals{};
        why = ferretgold_closed_totals(raw_, &totals);
        return totals;
    }

    // The entry of a slot; none if it has none.
    std::optional<ferretgold_entry> entry(std::uint32_t shard, std::uint32_t slot,
                                          ferretgold_status &why) const noexcept {
        ferretgold_entry entry{};
        why = ferretgold_closed_entry(raw_, shard, slot, &entry);
        return why == FERRETGOLD_OK ? std::optional(entry) : std::nullopt;
    }

    // Copies the value of a slot's entry to a buffer: OK, MISS, TOO_SHORT or OUT_OF_RANGE.
    ferretgold_status value(std::uint32_t shard, std::uint32_t slot, void *buffer,
                            std::size_t capacity, std::size_t *length) const noexcept {
        return ferretgold_closed_value(raw_, shard, slot, buffer, capacity, length);
    }

    std::uint64_t word(std::uint32_t shard, std::uint32_t slot,
                       ferretgold_status &why) const noexcept {
        std::uint64_t word = 0;
        why = ferretgold_closed_word(raw_, shard, slot, &word);
        return word;
    }

    std::uint64_t displacement(std::uint32_t shard, std::uint32_t slot,
                               ferretgold_status &why) const noexcept {
        std::uint64_t displacement = 0;
        why = ferretgold_closed_displacement(raw_, shard, slot, &displacement);
        return displacement;
    }

    std::uint64_t hand(std::uint32_t shard, ferretgold_status &why) const noexcept {
        std::uint64_t hand = 0;
        why = ferretgold_closed_hand(raw_, shard, &hand);
        return hand;
    }

#ifdef __cpp_exceptions
    ferretgold_totals totals() const {
        return must([&](auto &why) { return totals(why); });
    }
    std::optional<ferretgold_entry> entry(std::uint32_t shard, std::uint32_t slot) const {
        return must([&](auto &why) { return entry(shard, slot, why); });
    }
    std::uint64_t word(std::uint32_t shard, std::uint32_t slot) const {
        return must([&](auto &why) { return word(shard, slot, why); });
    }
    std::uint64_t displacement(std::uint32_t shard, std::uint32_t slot) const {
        return must([&](auto &why) { return displacement(shard, slot, why); });
    }
    std::uint64_t hand(std::uint32_t shard) const {
        return must([&](auto &why) { return hand(shard, why); });
    }
#endif

    ferretgold_closed *get() const noexcept { return raw_; }

  private:
    ferretgold_closed *raw_ = nullptr;
};

// A cache, or none, which calls refuse by NULL. All threads may open clients of it at once.
class cache {
  public:
    cache() = default;
    explicit cache(shared_cache *shared) noexcept : shared_(shared) {}
    cache(const ferretgold_config &config, ferretgold_status &why) noexcept
        : shared_(shared_cache::open(config, why)) {}
    cache(cache &&other) noexcept : shared_(std::exchange(other.shared_, nullptr)) {}
    cache &operator=(cache &&other) noexcept {
        std::swap(shared_, other.shared_);
        return *this;
    }
    ~cache() {
        if (shared_ != nullptr) {
            shared_->leave();
        }
    }

    client open_client(ferretgold_status &why) const noexcept {
        return client(shared_client::open(shared_, why));
    }

    // What it was opened with.
    ferretgold_config config() const noexcept {
        ferretgold_config config{};
        (void)ferretgold_config_of(get(), &config);
        return config;
    }

    // The most bytes of a value.
    std::size_t value_limit() const noexcept { return ferretgold_value_limit(get()); }

    // What the calls of all clients came to, while they work, too; and of the client of this number.
    ferretgold_counts counts() const noexcept {
        ferretgold_counts counts{};
        (void)ferretgold_cache_counts(get(), &counts);
        return counts;
    }
    ferretgold_counts counts(std::uint32_t number, ferretgold_status &why) const noexcept {
        ferretgold_counts counts{};
        why = ferretgold_client_counts(get(), number, &counts);
        return counts;
    }

    // Ends the cache, once all its clients went.
    ferretgold_totals close(ferretgold_status &why) noexcept {
        ferretgold_totals totals{};
        why = ferretgold_close(get(), &totals);
        if (why == FERRETGOLD_OK) {
            shared_->raw = nullptr;
        }
        return totals;
    }

    // The same, and what is left of it can be read.
    closed close_keeping(ferretgold_status &why) noexcept {
        ferretgold_closed *left = nullptr;
        why = ferretgold_close_keeping(get(), &left);
        if (why == FERRETGOLD_OK) {
            shared_->raw = nullptr;
        }
        return closed(left);
    }

#ifdef __cpp_exceptions
    explicit cache(const ferretgold_config &config)
        : shared_(must([&](auto &why) { return shared_cache::open(config, why); })) {}
    client open_client() const {
        return must([&](auto &why) { return open_client(why); });
    }
    ferretgold_counts counts(std::uint32_t number) const {
        return must([&](auto &why) { return counts(number, why); });
    }
    ferretgold_totals close() {
        return must([&](auto &why) { return close(why); });
    }
    closed close_keeping() {
        return must([&](auto &why) { return close_keeping(why); });
    }
#endif

    ferretgold_cache *get() const noexcept { return shared_ == nullptr ? nullptr : shared_->raw; }

  private:
    shared_cache *shared_ = nullptr;
};

// Entries for a cache to begin with, in the order in which they are added: none at first. It stays on the
// thread that made it.
class image {
  public:
    image() = default;
    image(image &&other) noexcept : raw_(std::exchange(other.raw_, nullptr)) {}
    image &operator=(image &&other) noexcept {
        std::swap(raw_, other.raw_);
        return *this;
    }
    ~image() { ferretgold_image_free(raw_); }

    // Adds an entry, with a copy of its value: OK, NULL or OUT_OF_MEMORY, which leaves it as it was.
    ferretgold_status add(const ferretgold_key &key, const void *value, std::size_t length,
                          std::uint32_t charge, std::uint32_t uses) noexcept {
        const ferretgold_status why = open();
        return why != FERRETGOLD_OK ? why
                                    : ferretgold_image_add(raw_, &key, value, length, charge, uses);
    }

    // Opens a cache that begins with these entries, of which none remains here, whatever `why` says;
    // `left_out` gets how many the cache doesn't have, and may be null.
    cache reopen(const ferretgold_config &config, std::size_t *left_out,
                 ferretgold_status &why) noexcept {
        image from(std::move(*this));
        why = from.open();
        if (why != FERRETGOLD_OK) {
            return cache();
        }
        why = FERRETGOLD_OUT_OF_MEMORY;
        return cache(shared_cache::by([&](ferretgold_cache *&opened) {
            why = ferretgold_reopen(&config, std::exchange(from.raw_, nullptr), &opened, left_out);
        }));
    }

#ifdef __cpp_exceptions
    cache reopen(const ferretgold_config &config, std::size_t *left_out = nullptr) {
        return must([&](auto &why) { return reopen(config, left_out, why); });
    }
#endif

  private:
    ferretgold_status open() noexcept {
        return raw_ != nullptr ? FERRETGOLD_OK : ferretgold_image_open(&raw_);
    }

    ferretgold_image *raw_ = nullptr;
};

// A client for one operation, by the calls of ferretgold.h; null if no client is idle. It allocates
// and throws nothing, and goes before its cache. It gives back what handles are left.
class lease {
  public:
    explicit lease(const cache &from) noexcept : cache_(from.get()) {
        (void)ferretgold_client_open(cache_, &client_);
    }
    lease(const lease &) = delete;
    lease &operator=(const lease &) = delete;
    ~lease() { (void)ferretgold_client_close_releasing(cache_, client_); }

    ferretgold_client *get() const noexcept { return client_; }

  private:
    ferretgold_cache *cache_;
    ferretgold_client *client_ = nullptr;
};

} // namespace ferretgold

#endif

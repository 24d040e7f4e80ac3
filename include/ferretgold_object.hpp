// ferretgold_object.hpp - a wrapper of ferretgold_object.h for C++17: a cache that owns objects of
// one type, and pointers that keep them in place and give themselves back.
//
//     ferretgold::object_cache<block> cache(config);
//     ferretgold::pinned<block> it = cache.lookup(key);
//     if (!it) {
//         it = cache.insert_pinned(key, read_block(key), charge); // a std::unique_ptr<block>
//     }
//     use(*it);
//
// ferretgold_object.h says what each call does and what it costs. Refusals are told as in
// ferretgold.hpp: by a last argument `why`, or thrown where exceptions are on; a miss is an empty
// pointer, and is never thrown.
//
// OWNERSHIP
//   An insertion takes the object out of its unique_ptr where it answers PLACED or STANDALONE.
//   After DROPPED and after each refusal, also one that is thrown, the unique_ptr has it still: a
//   named one keeps it for the caller, a temporary one deletes it. What the cache has it deletes
//   once, when the entry goes and nobody holds it, on the thread whose call freed it, the last
//   pinned pointer's perhaps; that destructor may use the cache, but not end it. A null unique_ptr
//   may be put in, too. The checking library ends a program that puts an object in twice.
//
// LIFE
//   Caches and pinned pointers may go in any order and on any threads: the cache is closed, and
//   what is left deleted, once all are gone. For that each pointer costs an atomic addition and a
//   subtraction. So an object that holds a pinned pointer of its own cache keeps that open, until
//   its entry is erased.
#ifndef FERRETGOLD_OBJECT_HPP
#define FERRETGOLD_OBJECT_HPP

#include "ferretgold.hpp"
#include "ferretgold_object.h"

#include <atomic>
#include <cstddef>
#include <cstdint>
#include <memory>
#include <new>
#include <type_traits>
#include <utility>

namespace ferretgold {

// How many bytes a cache of this configuration allocates, beside some 4 KiB here.
inline std::uint64_t memory(const ferretgold_object_config &config) noexcept {
    return ferretgold_object_memory(&config);
}

// With which status opening a cache of this configuration refuses it, whatever memory there is;
// else OK.
inline ferretgold_status check(const ferretgold_object_config &config) noexcept {
    return ferretgold_object_config_check(&config);
}

// What a cache of objects shares with its pinned pointers: the last of them that goes closes it.
// They are counted in many parts, by where the handle lies, so that threads seldom meet at one. The
// cache itself counts in each part; a part that comes to 0 leaves the others, and the last part
// closes.
class shared_objects {
  public:
    static shared_objects *open(const ferretgold_object_config &config, ferretgold_deleter deleter,
                                ferretgold_status &why) noexcept {
        shared_objects *it = new (std::nothrow) shared_objects(config.handles);
        if (it == nullptr) {
            why = FERRETGOLD_OUT_OF_MEMORY;
            return nullptr;
        }
        why = ferretgold_object_open(&config, deleter, nullptr, &it->raw);
        if (why != FERRETGOLD_OK) {
            delete it;
            return nullptr;
        }
        (void)ferretgold_object_owns(it->raw, 0);
        return it;
    }

    void join(const ferretgold_object_handle *handle) noexcept {
        part_of(handle).fetch_add(1, std::memory_order_relaxed);
    }

    void leave(const ferretgold_object_handle *handle) noexcept { leave_part(part_of(handle)); }

    // The cache goes.
    void leave_all() noexcept {
        for (part &it : parts_) {
            leave_part(it.users);
        }
    }

    ferretgold_object_cache *raw = nullptr;

  private:
    enum : std::uintptr_t { PARTS = 64, LINE = 64 };

    // On a cache line of its own.
    struct alignas(LINE) part {
        std::atomic<std::size_t> users{1};
    };

    // The handles of a client, of which each has a line, lie side by side.
    explicit shared_objects(std::uint32_t handles) noexcept {
        while (handles > 1) {
            handles /= 2;
            bits_++;
        }
    }

    std::atomic<std::size_t> &part_of(const ferretgold_object_handle *handle) noexcept {
        return parts_[reinterpret_cast<std::uintptr_t>(handle) / LINE >> bits_ & (PARTS - 1)].users;
    }

    void leave_part(std::atomic<std::size_t> &users) noexcept {
        if (users.fetch_sub(1, std::memory_order_acq_rel) == 1
            && parts_left_.fetch_sub(1, std::memory_order_acq_rel) == 1) {
            (void)ferretgold_object_close(raw);
            delete this;
        }
    }

    part parts_[PARTS];
    std::atomic<std::size_t> parts_left_{PARTS};
    unsigned bits_ = 0;
};

// A pointer to an object of an entry, which keeps that in place, or none. Any thread may use it,
// and any may let it go, one at a time.
template <typename T> class pinned {
  public:
    pinned() = default;
    pinned(shared_objects *cache, const ferretgold_object_handle *held) noexcept
        : cache_(cache), held_(held) {
        cache_->join(held_);
    }
    pinned(pinned &&other) noexcept
        : cache_(other.cache_), held_(std::exchange(other.held_, nullptr)) {}
    pinned &operator=(pinned &&other) noexcept {
        if (this != &other) {
            release();
            cache_ = other.cache_;
            held_ = std::exchange(other.held_, nullptr);
        }
        return *this;
    }
    ~pinned() { release(); }

    // Whether it is on an entry. Its object may be null all the same, if that was put in.
    explicit operator bool() const noexcept { return held_ != nullptr; }

    T *get() const noexcept {
        return held_ == nullptr ? nullptr : static_cast<T *>(held_->object);
    }
    T &operator*() const noexcept { return *get(); }
    T *operator->() const noexcept { return get(); }

    // Of the insertion; only where it is on an entry.
    const ferretgold_key &key() const noexcept { return held_->key; }
    std::uint32_t charge() const noexcept { return held_->charge; }

    // One pointer more on the same entry.
    pinned ref(ferretgold_status &why) const noexcept {
        why = held_ == nullptr ? FERRETGOLD_NULL : ferretgold_object_ref(cache_->raw, held_);
        return why == FERRETGOLD_OK ? pinned(cache_, held_) : pinned();
    }

#ifdef __cpp_exceptions
    pinned ref() const {
        return must([&](auto &why) { return ref(why); });
    }
#endif

    // Lets the entry go, if it is on one. `freed` gets whether an entry was freed; it may be null.
    void release(bool useful = true, bool erase_if_last = false, bool *freed = nullptr) noexcept {
        if (freed != nullptr) {
            *freed = false;
        }
        const ferretgold_object_handle *was = std::exchange(held_, nullptr);
        if (was != nullptr) {
            shared_objects *cache = cache_; // an object's destructor may end this pointer
            (void)ferretgold_object_release(cache->raw, was, useful, erase_if_last, freed);
            cache->leave(was);
        }
    }

    const ferretgold_object_handle *handle() const noexcept { return held_; }

  private:
    shared_objects *cache_ = nullptr;
    const ferretgold_object_handle *held_ = nullptr;
};

// A cache of objects, or none, which calls refuse by NULL. All threads may make all its calls at
// once, but for moving, closing and ending it.
template <typename T> class object_cache {
    static_assert(std::is_object_v<T> && !std::is_array_v<T>, "ferretgold: an object of one type");

  public:
    object_cache() = default;
    object_cache(const ferretgold_object_config &config, ferretgold_status &why) noexcept
        : shared_(shared_objects::open(config, delete_object, why)) {}
    object_cache(object_cache &&other) noexcept : shared_(std::exchange(other.shared_, nullptr)) {}
    object_cache &operator=(object_cache &&other) noexcept {
        std::swap(shared_, other.shared_);
        return *this;
    }
    ~object_cache() {
        if (shared_ != nullptr) {
            shared_->leave_all();
        }
    }

    // Whether it is one, and wasn't closed.
    explicit operator bool() const noexcept { return get() != nullptr; }

    // What it was opened with.
    ferretgold_object_config config() const noexcept {
        ferretgold_object_config config{};
        (void)ferretgold_object_config_of(get(), &config);
        return config;
    }

    // A pointer to the object of the key; none if there is none.
    pinned<T> lookup(const ferretgold_key &key, ferretgold_status &why) noexcept {
        const ferretgold_object_handle *found = nullptr;
        why = ferretgold_object_lookup(get(), &key, &found);
        return held(why, found);
    }

    // The same of the entry of a slot, for walks over a cache.
    pinned<T> pin_at(std::uint32_t shard, std::uint32_t slot, ferretgold_status &why) noexcept {
        const ferretgold_object_handle *found = nullptr;
        why = ferretgold_object_pin_at(get(), shard, slot, &found);
        return held(why, found);
    }

    // Puts an object in: OK, or why not. `inserted` gets what came of it, and may be null. The
    // object is the cache's where that is PLACED, and else where it was.
    ferretgold_status insert(const ferretgold_key &key, std::unique_ptr<T> &&object,
                             std::uint32_t charge, ferretgold_priority priority = FERRETGOLD_LOW,
                             ferretgold_inserted *inserted = nullptr) noexcept {
        // Once it is placed another thread may have it deleted.
        taken it(object);
        ferretgold_inserted came = FERRETGOLD_DROPPED;
        const ferretgold_status why =
            ferretgold_object_insert(get(), &key, it.raw(), 0, charge, priority, &came);
        it.end(why == FERRETGOLD_OK && came == FERRETGOLD_PLACED);
        if (why == FERRETGOLD_OK && inserted != nullptr) {
            *inserted = came;
        }
        return why;
    }

    // The same, and a pointer to it. Where there is one the object is the cache's, or the pointer's
    // (STANDALONE); else it is where it was.
    pinned<T> insert_pinned(const ferretgold_key &key, std::unique_ptr<T> &&object,
                            std::uint32_t charge, ferretgold_priority priority,
                            ferretgold_inserted *inserted, ferretgold_status &why) noexcept {
        const ferretgold_object_handle *given = nullptr;
        taken it(object);
        why = ferretgold_object_insert_pinned(get(), &key, it.raw(), 0, charge, priority, inserted,
                                              &given);
        it.end(why == FERRETGOLD_OK);
        return held(why, given);
    }

    // Hides each entry of the key, and returns how many.
    std::uint32_t erase(const ferretgold_key &key, ferretgold_status &why) noexcept {
        std::uint32_t hidden = 0;
        why = ferretgold_object_erase(get(), &key, &hidden);
        return hidden;
    }

    // Hides each entry whose key is meant, as ferretgold_object_erase_where does, and returns how many.
    // Ends the program where `meant` throws.
    template <typename Meant>
    std::uint64_t erase_where(Meant &&meant, ferretgold_status &why) noexcept {
        return erased_where(meant, [&](auto ask, void *it, std::uint64_t *hidden) {
            why = ferretgold_object_erase_where(get(), ask, it, hidden);
        });
    }

    std::uint64_t usage(ferretgold_status &why) noexcept {
        std::uint64_t usage = 0;
        why = ferretgold_object_usage(get(), &usage);
        return usage;
    }
    std::uint64_t pinned_usage(ferretgold_status &why) noexcept {
        std::uint64_t usage = 0;
        why = ferretgold_object_pinned_usage(get(), &usage);
        return usage;
    }
    std::uint64_t occupancy(ferretgold_status &why) noexcept {
        std::uint64_t occupancy = 0;
        why = ferretgold_object_occupancy(get(), &occupancy);
        return occupancy;
    }

    // What the calls of all clients came to, while they work, too; and of the client of this number.
    ferretgold_counts counts() const noexcept {
        ferretgold_counts counts{};
        (void)ferretgold_object_cache_counts(get(), &counts);
        return counts;
    }
    ferretgold_counts counts(std::uint32_t number, ferretgold_status &why) const noexcept {
        ferretgold_counts counts{};
        why = ferretgold_object_client_counts(get(), number, &counts);
        return counts;
    }

    // Gives back what other threads let go, so that its entries can go.
    void collect() noexcept { (void)ferretgold_object_collect(get()); }

    // Ends the cache now, once nothing is pinned, and deletes what is left: OK, HANDLES_OUT, or,
    // where an object's destructor calls it, CLIENTS_OUT.
    ferretgold_status close() noexcept {
        const ferretgold_status why = ferretgold_object_close(get());
        if (why == FERRETGOLD_OK) {
            shared_->raw = nullptr;
        }
        return why;
    }

#ifdef __cpp_exceptions
    explicit object_cache(const ferretgold_object_config &config)
        : object_cache(must([&](auto &why) { return object_cache(config, why); })) {}
    pinned<T> lookup(const ferretgold_key &key) {
        return must([&](auto &why) { return lookup(key, why); });
    }
    pinned<T> pin_at(std::uint32_t shard, std::uint32_t slot) {
        return must([&](auto &why) { return pin_at(shard, slot, why); });
    }
    pinned<T> insert_pinned(const ferretgold_key &key, std::unique_ptr<T> &&object,
                            std::uint32_t charge, ferretgold_priority priority = FERRETGOLD_LOW,
                            ferretgold_inserted *inserted = nullptr) {
        return must([&](auto &why) {
            return insert_pinned(key, std::move(object), charge, priority, inserted, why);
        });
    }
    std::uint32_t erase(const ferretgold_key &key) {
        return must([&](auto &why) { return erase(key, why); });
    }
    template <typename Meant> std::uint64_t erase_where(Meant &&meant) {
        return must([&](auto &why) { return erase_where(meant, why); });
    }
    std::uint64_t usage() {
        return must([&](auto &why) { return usage(why); });
    }
    std::uint64_t pinned_usage() {
        return must([&](auto &why) { return pinned_usage(why); });
    }
    std::uint64_t occupancy() {
        return must([&](auto &why) { return occupancy(why); });
    }
    ferretgold_counts counts(std::uint32_t number) const {
        return must([&](auto &why) { return counts(number, why); });
    }
#endif

    ferretgold_object_cache *get() const noexcept {
        return shared_ == nullptr ? nullptr : shared_->raw;
    }

  private:
    // An object while it is inserted. It is out of its unique_ptr meanwhile: deleters that run in
    // the call may look there, and find none.
    class taken {
      public:
        explicit taken(std::unique_ptr<T> &from) noexcept : from_(from), object_(from.release()) {}
        void *raw() const noexcept { return const_cast<std::remove_cv_t<T> *>(object_); }
        void end(bool is_in) noexcept {
            if (!is_in) {
                from_.reset(object_);
            }
        }

      private:
        std::unique_ptr<T> &from_;
        T *object_;
    };

    // Nothing unwinds through C: a destructor that throws ends the program.
    static void delete_object(void *, const ferretgold_key *, void *object,
                              std::uint16_t) noexcept {
        std::default_delete<T>()(static_cast<T *>(object));
    }

    pinned<T> held(ferretgold_status why, const ferretgold_object_handle *found) noexcept {
        return why == FERRETGOLD_OK ? pinned<T>(shared_, found) : pinned<T>();
    }

    shared_objects *shared_ = nullptr;
};

} // namespace ferretgold

#endif

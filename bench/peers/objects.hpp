// objects.hpp - caches whose entries stand for blocks of the caller's, as RocksDB's do: this project's
// cache of objects, by its raw calls, and the twin with a word as value.
#ifndef PEERS_OBJECTS_HPP
#define PEERS_OBJECTS_HPP

#include "caches.hpp"
#include "ferretgold_object.h"
#include "ferretgold_raw.h"

namespace peers {

inline std::uint8_t *block_at(std::uint64_t address) {
    return reinterpret_cast<std::uint8_t *>(static_cast<std::uintptr_t>(address));
}

class ferret_objects {
  public:
    static std::string name() { return "ferretgold-objects"; }

    explicit ferret_objects(const sizes &sizes) : clients_(sizes.threads) {
        ferretgold_object_config config{};
        config.slots = sizes.slots / sizes.shards;
        config.clients = sizes.threads;
        config.handles = sizes.handles;
        config.gone = 256;
        config.shards = sizes.shards;
        config.capacity = sizes.capacity;
        config.serials = FERRETGOLD_MOST_SERIALS;
        config.seed = sizes.seed;
        must(ferretgold_raw_object_open(&config, 1, clients_.data(), clients_.size(), &cache_) ==
                     FERRETGOLD_OK &&
                 ferretgold_raw_objects_open(&left_) == FERRETGOLD_OK,
             "opening a cache of objects");
    }
    ~ferret_objects() {
        for (ferretgold_object &client : clients_) {
            forget(client);
        }
        ferretgold_object kept{};
        must(ferretgold_raw_object_close(cache_, clients_.data(), clients_.size(), &left_, &kept) ==
                 FERRETGOLD_OK,
             "closing a cache of objects");
        ferretgold_key key;
        ferretgold_object_value object;
        while (ferretgold_raw_objects_next(&left_, &key, &object) == FERRETGOLD_OK) {
            delete[] block_at(object.address);
        }
        must(ferretgold_raw_objects_end(left_, &kept) == FERRETGOLD_OK, "handing all out");
    }
    ferret_objects(const ferret_objects &) = delete;

    class reader {
      public:
        reader(ferret_objects &cache, const sizes &sizes)
            : client_(&cache.clients_[cache.next_++]), size_(sizes.value_size) {}
        ~reader() { unpin(); }
        reader(reader &&) = default;

        bool read(const ferretgold_key &key, std::uint8_t *buffer) {
            return look(key, buffer, size_);
        }
        bool get(const ferretgold_key &key, std::uint8_t *buffer) { return read(key, buffer); }
        bool touch(const ferretgold_key &key, std::uint8_t *buffer) { return look(key, buffer, 8); }

        void insert(const ferretgold_key &key, const std::uint8_t *value) {
            ferretgold_object_value object = block(value);
            std::uint32_t placing = 0;
            bool is_full = false;
            std::uint32_t status = ferretgold_raw_object_insert(
                client_, &key, &object, 1, FERRETGOLD_LOW, &placing, &is_full);
            if (status != FERRETGOLD_OK || placing == FERRETGOLD_DROPPED) {
                delete[] block_at(object.address);
            }
            forget(*client_);
        }

        void pin(const ferretgold_key &key, const std::uint8_t *value) {
            ferretgold_object_value object = block(value);
            std::uint32_t placing = 0;
            bool is_full = false;
            ferretgold_handle held;
            must(ferretgold_raw_object_insert_pinned(client_, &key, &object, 1, FERRETGOLD_LOW,
                                                     &placing, &is_full, &held) == FERRETGOLD_OK,
                 "a pinned insertion");
            held_.push_back(held);
            forget(*client_);
        }

        void unpin() {
            for (const ferretgold_handle &held : held_) {
                release(held);
            }
            held_.clear();
        }

      private:
        [[gnu::always_inline]] bool look(const ferretgold_key &key, std::uint8_t *buffer,
                                         std::uint32_t bytes) {
            ferretgold_held_object held;
            held.key = key;
            if (ferretgold_raw_object_hold(client_, &held) != FERRETGOLD_OK) {
                return false;
            }
            std::memcpy(buffer, block_at(held.object.address), bytes);
            release(held.handle);
            return true;
        }
        void release(const ferretgold_handle &held) {
            bool is_freed = false;
            (void)ferretgold_raw_object_release(client_, &held, true, false, &is_freed);
        }
        ferretgold_object_value block(const std::uint8_t *value) const {
            return {reinterpret_cast<std::uintptr_t>(new_block(value, size_)), 0};
        }

        ferretgold_object *client_;
        std::uint32_t size_;
        std::vector<ferretgold_handle> held_;
    };

  private:
    static void forget(ferretgold_object &client) {
        ferretgold_key key;
        ferretgold_object_value object;
        std::size_t left = 1;
        while (left != 0 && ferretgold_raw_object_take_gone(&client, &key, &object, &left) == FERRETGOLD_OK) {
            delete[] block_at(object.address);
        }
    }

    std::vector<ferretgold_object> clients_;
    ferretgold_object cache_{};
    ferretgold_object left_{};
    std::size_t next_ = 0;
};

// The twin hands nothing back: so its reader has the blocks, and only cases without evictions are its.
class twin_objects : public twin {
  public:
    static std::string name() { return "twin-objects"; }

    explicit twin_objects(const sizes &sizes) : twin(of_words(sizes)) {}

    class reader : public twin::reader {
      public:
        reader(twin_objects &cache, const sizes &sizes)
            : twin::reader(cache, of_words(sizes)), size_(sizes.value_size) {}

        bool read(const ferretgold_key &key, std::uint8_t *buffer) {
            return look(key, buffer, size_);
        }
        bool get(const ferretgold_key &key, std::uint8_t *buffer) { return read(key, buffer); }
        bool touch(const ferretgold_key &key, std::uint8_t *buffer) { return look(key, buffer, 8); }

        void insert(const ferretgold_key &key, const std::uint8_t *value) {
            blocks_.emplace_back(new_block(value, size_));
            const std::uint8_t *block = blocks_.back().get();
            twin::reader::insert(key, reinterpret_cast<const std::uint8_t *>(&block));
        }

      private:
        [[gnu::always_inline]] bool look(const ferretgold_key &key, std::uint8_t *buffer,
                                         std::uint32_t bytes) {
            ferretgold_handle held;
            std::uint64_t address, charge;
            if (!twin_lookup_word(cache_, client_, key.w0, key.w1, &held, &address, &charge)) {
                return false;
            }
            std::memcpy(buffer, block_at(address), bytes);
            return twin_release(cache_, client_, &held, true);
        }

        std::uint32_t size_;
        std::vector<std::unique_ptr<std::uint8_t[]>> blocks_;
    };

  private:
    static sizes of_words(sizes sizes) {
        sizes.value_size = 8;
        return sizes;
    }
};

} // namespace peers

#endif

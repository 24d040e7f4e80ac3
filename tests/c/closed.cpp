// What is left of a cache that was closed, through ferretgold.hpp: its readings, with and without
// exceptions; what is moved; one that is none. What was counted before. A cache that begins with it.
#include "ferretgold.hpp"
#include "heap.h"

#include <cstdio>
#include <cstring>
#include <utility>

int closed_caches();

namespace {

using ferretgold::cache;
using ferretgold::closed;
using ferretgold::image;

constexpr ferretgold_key KEY = {UINT64_C(0xfedcba9876543210), 2};
constexpr std::uint32_t CHARGE = 0x12345678, USES = 0x1a2b3c4d;
int faults = 0;

void expect(int line, const char *what, bool is) {
    if (!is) {
        std::printf("closed, line %d: not so: %s\n", line, what);
        faults++;
    }
}

#define EXPECT(what) expect(__LINE__, #what, static_cast<bool>(what))

// Whether what tells a status and what throws it say the same: nothing is thrown of one that is OK.
template <typename Told, typename Thrown> bool both(Told told, Thrown thrown, int status) {
    ferretgold_status why = FERRETGOLD_BAD_SIZE;
    (void)told(why);
    try {
        (void)thrown();
    } catch (const ferretgold::refused &refused) {
        return status > FERRETGOLD_MISS && why == status && refused.status == status;
    }
    return status <= FERRETGOLD_MISS && why == status;
}

// Each call on a slot ends by this status.
void refused(const closed &it, std::uint32_t shard, std::uint32_t slot, int status) {
    EXPECT(both([&](auto &why) { return it.entry(shard, slot, why); },
                [&] { return it.entry(shard, slot); }, status));
    EXPECT(both([&](auto &why) { return it.word(shard, slot, why); },
                [&] { return it.word(shard, slot); }, status));
    EXPECT(both([&](auto &why) { return it.displacement(shard, slot, why); },
                [&] { return it.displacement(shard, slot); }, status));
    EXPECT(it.value(shard, slot, nullptr, 0, nullptr) == status);
}

// One entry of four bytes in a cache of eight slots, displaced by none: the entry's slot says it all.
void reads(const closed &it, std::uint64_t seed, std::uint32_t uses = 3) {
    ferretgold_status why = FERRETGOLD_NULL;
    int found = 0;
    EXPECT(it && it.config().seed == seed && it.totals().usage == CHARGE);
    EXPECT(it.totals(why).slot_count == 1 && why == FERRETGOLD_OK);
    EXPECT(it.hand(0, why) == 0 && why == FERRETGOLD_OK && it.hand(0) == 0);
    for (std::uint32_t slot = 0; slot < 8; slot++) {
        char bytes[5] = "xxxx";
        std::size_t length = 7;
        const auto entry = it.entry(0, slot, why);
        EXPECT(entry.has_value() == (why == FERRETGOLD_OK) && entry.has_value() == it.entry(0, slot).has_value());
        EXPECT(entry || (why == FERRETGOLD_MISS && it.value(0, slot, bytes, 4, nullptr) == why));
        EXPECT((it.word(0, slot) != 0) == entry.has_value() && it.word(0, slot, why) == it.word(0, slot));
        EXPECT(it.displacement(0, slot) == 0 && it.displacement(0, slot, why) == 0 && why == FERRETGOLD_OK);
        if (entry) {
            found++;
            EXPECT(entry->key.w0 == KEY.w0 && entry->key.w1 == KEY.w1 && entry->charge == CHARGE);
            EXPECT(entry->length == 4 && entry->uses == uses && entry->visible && !entry->hit);
            EXPECT(it.value(0, slot, bytes, 3, &length) == FERRETGOLD_TOO_SHORT && length == 4);
            EXPECT(std::strcmp(bytes, "xxxx") == 0);
            EXPECT(it.value(0, slot, bytes, 4, &length) == FERRETGOLD_OK);
            EXPECT(std::strcmp(bytes, "kept") == 0);
        }
    }
    EXPECT(found == 1);
    refused(it, 0, 8, FERRETGOLD_OUT_OF_RANGE);
    refused(it, 1, 0, FERRETGOLD_OUT_OF_RANGE);
    EXPECT(both([&](auto &by) { return it.hand(1, by); }, [&] { return it.hand(1); }, FERRETGOLD_OUT_OF_RANGE));
}

// ---- Images --------------------------------------------------------------------------------------

// Adds the entry that `reads` wants, and one that no cache has.
void fill(image &it) {
    EXPECT(it.add(KEY, "kept", 4, CHARGE, USES) == FERRETGOLD_OK);
    EXPECT(it.add({3, 4}, nullptr, 0, 0, 1) == FERRETGOLD_OK);
}

// A cache opened with the two, as each form opens it, or the refusal; no entry remains in the image.
void opens(const ferretgold_config &config, int status) {
    image it;
    EXPECT(both([&](auto &by) { fill(it); return it.reopen(config, nullptr, by); },
                [&] { fill(it); return it.reopen(config); }, status));
}

// What a cache has that begins with an image, which is moved on its way.
void begins(const ferretgold_config &config) {
    ferretgold_status why = FERRETGOLD_NULL;
    std::size_t left_out = 77;
    image it, other;
    EXPECT(it.add(KEY, nullptr, 1, 1, 1) == FERRETGOLD_NULL);
    fill(it);
    fill(other);
    image moved(std::move(it));
    it = std::move(moved);
    reads(it.reopen(config, &left_out, why).close_keeping(), config.seed, USES);
    EXPECT(why == FERRETGOLD_OK && left_out == 1);
    EXPECT(it.reopen(config, &left_out).close().slot_count == 0 && left_out == 0);
    reads(other.reopen(config, &left_out).close_keeping(), config.seed, USES);
    EXPECT(left_out == 1);
}

// Memory that is refused: for the image, for a copy, for the cache.
void refuses_memory(const ferretgold_config &config) {
    const std::size_t blocks = heap_blocks;
    ferretgold_status why = FERRETGOLD_OUT_OF_MEMORY;
    std::size_t left_out = 77;
    image it;
    heap_left = 0;
    EXPECT(it.reopen(config, &left_out, why).get() == nullptr && why == FERRETGOLD_OUT_OF_MEMORY);
    for (std::size_t met = 0; why == FERRETGOLD_OUT_OF_MEMORY; met++) {
        heap_left = met;
        why = it.add(KEY, "kept", 4, 5, 3);
    }
    heap_left = 3;
    EXPECT(it.reopen(config, &left_out, why).get() == nullptr && why == FERRETGOLD_OUT_OF_MEMORY);
    heap_left = SIZE_MAX;
    EXPECT(heap_blocks == blocks && left_out == 77);
    EXPECT(it.reopen(config).close().slot_count == 0);
}

void images(ferretgold_config config) {
    const std::size_t blocks = heap_blocks;
    begins(config);
    refuses_memory(config);
    opens(config, FERRETGOLD_OK);
    config.slots = 33;
    opens(config, FERRETGOLD_BAD_SLOTS);
    EXPECT(heap_blocks == blocks);
}

} // namespace

int closed_caches() {
    ferretgold_status why = FERRETGOLD_NULL;
    ferretgold_config config = ferretgold::config_for(1000000, 4, 1);
    config.slots = 8;
    config.shards = 1;
    config.seed = 5;
    cache it(config), none;
    {
        ferretgold::client client = it.open_client();
        EXPECT(client.insert(KEY, "kept", 4, CHARGE, FERRETGOLD_HIGH) == 0);
        EXPECT(!it.close_keeping(why) && why == FERRETGOLD_CLIENTS_OUT && it.get() != nullptr);
        EXPECT(it.counts().placed == 1 && none.counts().placed == 0);
        EXPECT(it.counts(client.number()).placed == 1);
        EXPECT(both([&](auto &by) { return it.counts(it.config().clients, by); },
                    [&] { return it.counts(it.config().clients); }, FERRETGOLD_OUT_OF_RANGE));
    }
    EXPECT(it.counts().placed == 1 && it.counts().hits == 0);
    closed left = it.close_keeping(), empty;
    EXPECT(it.get() == nullptr && !it.close_keeping(why) && why == FERRETGOLD_NULL);
    reads(left, config.seed);
    closed moved = std::move(left);
    EXPECT(moved && !left);
    left = std::move(moved);
    reads(left, config.seed);
    refused(empty, 0, 0, FERRETGOLD_NULL);
    EXPECT(both([&](auto &by) { return empty.totals(by); }, [&] { return empty.totals(); }, FERRETGOLD_NULL));
    EXPECT(both([&](auto &by) { return empty.hand(0, by); }, [&] { return empty.hand(0); }, FERRETGOLD_NULL));
    EXPECT(both([&](auto &by) { return none.close_keeping(by); }, [&] { return none.close_keeping(); },
                FERRETGOLD_NULL));
    EXPECT(empty.config().slots == 0);
    images(left.config());
    return faults;
}

// Plays traces of calls through ferretgold.hpp, and compares each answer with the one recorded
// beside its call; then moves the wrapper's objects about. It is what tests/c/plant.py tries planted
// bugs by.
// Usage: play FILE.. where a file has cases as tests/program/calls has
#include "ferretgold.hpp"
#include "heap.h"

#include <cinttypes>
#include <cstdio>
#include <cstdlib>
#include <fstream>
#include <map>
#include <memory>
#include <new>
#include <sstream>
#include <string>
#include <type_traits>
#include <vector>

// What is left of a cache that was closed: how many faults (closed.cpp).
int closed_caches();

namespace {

using ferretgold::cache;
using ferretgold::client;
using ferretgold::handle;
using words = std::vector<std::string>;

int faults = 0;
bool refuses_new = false;

void expect(int line, const char *what, bool is) {
    if (!is) {
        std::printf("line %d: not so: %s\n", line, what);
        faults++;
    }
}

#define EXPECT(what) expect(__LINE__, #what, static_cast<bool>(what))

// Whether a call is refused by this status.
template <typename Call> bool refuses(Call call, int status) {
    try {
        call();
    } catch (const ferretgold::refused &why) {
        return why.status == status && std::string(why.what()) ==
                                           ferretgold_status_text(why.status);
    }
    return false;
}

} // namespace

// What objects allocate is counted, too; the wrapper's requests may be refused.
void *operator new(std::size_t bytes) {
    void *at = std::malloc(bytes);
    return at != nullptr ? at : throw std::bad_alloc();
}
void *operator new(std::size_t bytes, const std::nothrow_t &) noexcept {
    return refuses_new ? nullptr : std::malloc(bytes);
}
void operator delete(void *at) noexcept { std::free(at); }
void operator delete(void *at, std::size_t) noexcept { std::free(at); }

namespace {

// ---- Traces ------------------------------------------------------------------------------------

// A trace says of an insertion that met its key that it is dropped.
const char *const CAME[] = {"placed", "dropped", "standalone", "dropped"};

std::string refusal(int status) {
    static const char *const names[] = {"HandlesFull", "Spent", "TooLarge", "CapacityFull",
                                        "OccupancyFull"};
    return std::string("refused ") + (status >= 23 && status <= 27 ? names[status - 23] : "?");
}

std::uint64_t number(const std::string &word) { return std::strtoull(word.c_str(), nullptr, 10); }

std::vector<unsigned char> bytes_of(const std::string &word) {
    std::vector<unsigned char> bytes;
    for (std::size_t k = 0; word != "-" && k < word.size(); k += 2) {
        bytes.push_back(
            static_cast<unsigned char>(std::strtoul(word.substr(k, 2).c_str(), nullptr, 16)));
    }
    return bytes;
}

std::string value_text(const unsigned char *bytes, std::size_t length) {
    std::string text = length == 0 ? "value -" : "value ";
    char digits[3];
    for (std::size_t k = 0; k < length; k++) {
        std::snprintf(digits, sizeof digits, "%02x", bytes[k]);
        text += digits;
    }
    return text;
}

// A cache with its clients and their registers. What is declared later goes first.
struct stage {
    ferretgold_config config;
    cache it;
    std::vector<client> clients;
    std::vector<std::map<std::uint64_t, handle>> registers;

    explicit stage(const ferretgold_config &sizes)
        : config(sizes), it(sizes), registers(sizes.clients) {
        std::map<std::uint32_t, client> opened;
        for (std::uint32_t k = 0; k < sizes.clients; k++) {
            client one = it.open_client();
            const std::uint32_t at = one.number();
            opened.emplace(at, std::move(one));
        }
        for (auto &one : opened) {
            clients.push_back(std::move(one.second));
        }
    }

    std::uint32_t held(std::size_t c) const { return clients[c].held(); }

    std::string insert(std::size_t c, const words &w, std::size_t at, std::uint64_t into) {
        const ferretgold_key key = {number(w[at]), number(w[at + 1])};
        const auto charge = static_cast<std::uint32_t>(number(w[at + 2]));
        const ferretgold_priority priority = w[at + 3] == "H"   ? FERRETGOLD_HIGH
                                             : w[at + 3] == "L" ? FERRETGOLD_LOW
                                                                : FERRETGOLD_BOTTOM;
        const auto bytes = bytes_of(w[at + 4]);
        ferretgold_inserted came{};
        if (w[1] == "I") {
            const ferretgold_status status = clients[c].insert(key, bytes.data(), bytes.size(),
                                                               charge, priority, &came);
            return status == 0 ? CAME[came] : refusal(status);
        }
        try {
            handle given = clients[c].insert_pinned(key, bytes.data(), bytes.size(), charge,
                                                    priority, &came);
            EXPECT(given);
            registers[c][into] = std::move(given);
            EXPECT(!given);
        } catch (const ferretgold::refused &why) {
            return refusal(why.status);
        }
        return CAME[came];
    }

    std::string look(std::size_t c, const words &w, std::uint64_t into) {
        const std::uint32_t was = held(c);
        try {
            handle found = clients[c].lookup({number(w[3]), number(w[4])});
            if (!found) {
                return "miss";
            }
            EXPECT(held(c) == was + 1);
            registers[c].emplace(into, std::move(found));
        } catch (const ferretgold::refused &why) {
            return refusal(why.status);
        }
        EXPECT(held(c) == was + 1);
        return "hit";
    }

    std::string read(const handle &from) {
        unsigned char bytes[64];
        const std::size_t length = from.size();
        bytes[length] = 0x5a;
        EXPECT(length == 0 || refuses([&] { from.read(bytes, length - 1); }, 20));
        EXPECT(from.read(bytes, length + 1) == length);
        EXPECT(bytes[length] == 0x5a);
        return value_text(bytes, length);
    }

    std::string answer(const words &w) {
        const std::size_t c = number(w[0]);
        const char letter = w[1][0];
        std::uint64_t at = w.size() > 2 ? number(w[2]) : 0;
        if ((letter == 'P' || letter == 'G' || letter == 'F') && registers[c].count(at) != 0) {
            return "busy";
        }
        const std::uint64_t from = letter == 'F' ? number(w[3]) : at;
        if ((letter == 'F' || letter == 'R' || letter == 'V') && registers[c].count(from) == 0) {
            return "none";
        }
        const std::uint32_t was = held(c);
        switch (letter) {
        case 'I': return insert(c, w, 2, 0);
        case 'P': return insert(c, w, 3, at);
        case 'G': return look(c, w, at);
        case 'F':
            try {
                registers[c].emplace(at, registers[c].at(from).reref());
            } catch (const ferretgold::refused &why) {
                return refusal(why.status);
            }
            EXPECT(held(c) == was + 1);
            return "held";
        case 'R': {
            bool freed = false;
            registers[c].at(from).release(w[3] == "U", w[4] == "E", &freed);
            EXPECT(held(c) == was - 1);
            EXPECT(!registers[c].at(from));
            registers[c].erase(from);
            EXPECT(held(c) == was - 1);
            return freed ? "freed" : "kept";
        }
        case 'V': return read(registers[c].at(at));
        case 'E':
            return "erased " + std::to_string(clients[c].erase({number(w[2]), number(w[3])}));
        case 'T': return get(c, w);
        case 'Q': return get_part(c, w);
        default: return counts(clients[c], letter, w);
        }
    }

    std::string get(std::size_t c, const words &w) {
        unsigned char bytes[64];
        std::size_t length = 0;
        const int status = clients[c].get({number(w[2]), number(w[3])}, bytes, number(w[5]),
                                           &length, w[4] == "U");
        return status == 0    ? value_text(bytes, length)
               : status == 20 ? "short " + std::to_string(length)
                              : status == 1 ? "miss" : "?";
    }

    std::string get_part(std::size_t c, const words &w) {
        unsigned char bytes[64];
        ferretgold_part part{};
        const int status = clients[c].get_part({number(w[2]), number(w[3])}, number(w[5]), bytes,
                                               number(w[6]), &part, w[4] == "U");
        return status > 1    ? refusal(status)
               : status == 1 ? "miss"
                             : value_text(bytes, part.given) + " of " + std::to_string(part.length);
    }

    std::string counts(const client &of, char letter, const words &w) {
        char text[200];
        if (letter == 'U') {
            std::snprintf(text, sizeof text, "usage %" PRIu64 " pinned %" PRIu64
                          " occupancy %" PRIu64, of.usage(), of.pinned_usage(), of.occupancy());
        } else if (letter == 'W') {
            const auto shard = static_cast<std::uint32_t>(number(w[2]));
            const auto slot = static_cast<std::uint32_t>(number(w[3]));
            std::snprintf(text, sizeof text, "word %016" PRIx64 " displaced %" PRIu64,
                          of.word(shard, slot), of.displacement(shard, slot));
        } else {
            const ferretgold_stats s = of.stats();
            std::snprintf(text, sizeof text,
                          "stats probes %" PRIu64 " boosts %" PRIu64 " evicted %" PRIu64
                          " hit %" PRIu64 " freed %" PRIu64 " turns %" PRIu64
                          " corrections %" PRIu64 " lost %" PRIu64, s.probes, s.boosts, s.evicted,
                          s.evicted_hit, s.freed, s.turns, s.corrections, s.lost);
        }
        return text;
    }

    std::string end() {
        registers.clear();
        for (std::size_t c = 0; c < clients.size(); c++) {
            EXPECT(held(c) == 0);
        }
        clients.clear();
        const ferretgold_totals left = it.close();
        return "{\"charges\":" + std::to_string(left.slot_charges) +
               ",\"occupied\":" + std::to_string(left.occupied) +
               ",\"slots\":" + std::to_string(left.slot_count) +
               ",\"usage\":" + std::to_string(left.usage) + "}";
    }
};

words words_of(const std::string &text) {
    std::istringstream in(text);
    words all;
    for (std::string word; in >> word;) {
        all.push_back(word);
    }
    return all;
}

ferretgold_config config_of(const words &options) {
    ferretgold_config config{};
    config.slots = 8, config.room = 2, config.clients = 1, config.handles = 8, config.shards = 1;
    config.capacity = 600, config.serials = FERRETGOLD_MOST_SERIALS;
    for (std::size_t k = 0; k < options.size(); k++) {
        const std::string &name = options[k];
        const std::uint64_t wide = k + 1 < options.size() ? number(options[k + 1]) : 0;
        const auto narrow = static_cast<std::uint32_t>(wide);
        config.strict = config.strict || name == "--strict";
        config.marks = config.marks || name == "--marks";
        config.slots = name == "--slots" ? narrow : config.slots;
        config.clients = name == "--clients" ? narrow : config.clients;
        config.handles = name == "--handles" ? narrow : config.handles;
        config.shards = name == "--shards" ? narrow : config.shards;
        config.capacity = name == "--capacity" ? wide : config.capacity;
        config.serials = name == "--serials" ? wide : config.serials;
        config.seed = name == "--seed" ? wide : config.seed;
    }
    config.seed = config.seed != 0 ? config.seed : FERRETGOLD_UNSEEDED; // as traces have it
    return config;
}

// Plays the cases of a file.
void play_file(const char *path) {
    std::ifstream file(path);
    std::unique_ptr<stage> on;
    std::string name;
    EXPECT(file.good());
    for (std::string line; std::getline(file, line);) {
        const bool heads = line.compare(0, 2, "==") == 0;
        const std::size_t bar = line.find(heads ? " : " : " | ");
        const std::string rest = bar == std::string::npos ? "" : line.substr(bar + 3);
        std::string out;
        if (heads) {
            name = line;
            on = std::make_unique<stage>(config_of(words_of(rest)));
            continue;
        }
        if (line[0] != '{' && bar == std::string::npos) {
            continue;
        }
        const bool ends = line[0] == '{';
        out = ends ? on->end() : on->answer(words_of(line.substr(0, bar)));
        if (out != (ends ? line : rest)) {
            std::printf("%s: %s\n    gives %s\n", name.c_str(), line.c_str(), out.c_str());
            faults++;
        }
    }
}

// ---- What no trace shows -----------------------------------------------------------------------

constexpr ferretgold_key KEY = {1, 2};
constexpr ferretgold_key OTHER = {3, 4};

static_assert(!std::is_copy_constructible_v<handle> && !std::is_copy_assignable_v<handle>, "");
static_assert(!std::is_copy_constructible_v<client> && !std::is_copy_constructible_v<cache>, "");

ferretgold_config small() { return config_of({"--clients", "2", "--handles", "3"}); }

// Handles that are moved: each is given back once.
void moved_handles() {
    cache it(small());
    client one = it.open_client();
    const auto held = [&] { return one.held(); };
    handle none;
    EXPECT(!none);
    EXPECT(!one.lookup(KEY));
    handle first = one.insert_pinned(KEY, "ab", 2, 1);
    EXPECT(first && held() == 1);
    handle second = first.reref();
    handle third(std::move(first));
    EXPECT(!first && third && held() == 2);
    EXPECT(one.holds(third) && !one.holds(first) && !it.open_client().holds(third));
    EXPECT(third.key().w0 == KEY.w0 && third.key().w1 == KEY.w1);
    EXPECT(second.get().serial != third.get().serial);
    second = std::move(third);
    EXPECT(second && !third && held() == 1);
    handle &same = second;
    second = std::move(same);
    EXPECT(second && held() == 1 && second.size() == 2);
    none.release();
    first.release();
    EXPECT(held() == 1);
    first = one.insert_pinned(OTHER, nullptr, 0, 1, FERRETGOLD_HIGH);
    EXPECT(held() == 2 && first.size() == 0);
    first = handle();
    EXPECT(held() == 1);
    { const handle gone = one.lookup(KEY); EXPECT(gone && held() == 2); }
    EXPECT(held() == 1);
    bool freed = true;
    second.release(true, true, &freed);
    EXPECT(freed && held() == 0);
    EXPECT(refuses([&] { (void)handle().size(); }, 16));
    EXPECT(refuses([&] { (void)one.insert_pinned(KEY, "", 0, 0); }, 18));
    EXPECT(one.insert(KEY, "", 0, 0) == 18);
}

// Uses of an entry: what a release or a reading is without further words.
void defaults() {
    cache it(small());
    client one = it.open_client();
    const auto uses = [&] { return (one.word(0, 2) >> 30) & 0x3fffffff; };
    EXPECT(one.insert(KEY, "ab", 2, 1) == 0);
    EXPECT(uses() == 2);
    char bytes[8];
    std::size_t length = 0;
    EXPECT(one.get(KEY, bytes, sizeof bytes, &length) == 0 && length == 2);
    EXPECT(uses() == 3);
    EXPECT(one.get_part(KEY, 1, bytes, sizeof bytes, nullptr) == 0 && bytes[0] == 'b');
    EXPECT(uses() == 4);
    one.lookup(KEY).release();
    EXPECT(uses() == 5);
    (void)one.lookup(KEY);
    EXPECT(uses() == 6);
    one.lookup(KEY).release(false);
    EXPECT(uses() == 6);
    handle held = one.lookup(KEY);
    held = handle();
    EXPECT(uses() == 7);
    { const client gone = std::move(one); }
    {
        const ferretgold::lease given(it);
        ferretgold_handle left{};
        EXPECT(ferretgold_lookup(given.get(), &KEY, &left) == 0);
    }
    one = it.open_client();
    EXPECT(uses() == 7);
    EXPECT(one.erase(KEY) == 1 && one.erase(KEY) == 0);
    (void)one.insert_pinned(KEY, "", 0, 1);
    EXPECT(uses() == 2);
}

// What is held at its slot has the uses that it had, however the handle is moved; what is meant is erased.
void walked() {
    cache it(small());
    client one = it.open_client();
    ferretgold_status why{};
    ferretgold_held_entry held{};
    std::uint32_t at = 0;
    const auto uses = [&] { return one.pin_at(0, at, &held) ? held.uses : 0; };
    for (std::uint32_t number = 1; number <= 3; number++) {
        EXPECT(one.insert({number, 2}, "abc", number, 10 * number) == 0);
    }
    for (int found = 0, round = 0; round < 2; round++, found = 0) {
        for (std::uint32_t slot = 0; slot < 8; slot++) {
            handle first = one.pin_at(0, slot, &held, why), third;
            EXPECT(why == (first ? FERRETGOLD_OK : FERRETGOLD_MISS));
            if (first) {
                at = slot;
                found++;
                EXPECT(held.uses == 2 && held.charge == 10 * held.key.w0 && first.size() == held.key.w0);
                handle second(std::move(first));
                third = std::move(second);
                first = one.pin_at(0, slot, &held);
                first = handle();
            }
        }
        EXPECT(found == 3 && one.held() == 0);
    }
    handle last = one.pin_at(0, at, &held);
    last = one.lookup(held.key);
    last = handle();
    EXPECT(uses() == 3);
    one.pin_at(0, at, &held).release();
    EXPECT(uses() == 4);
    {
        const handle all[] = {one.lookup(held.key), one.lookup(held.key), one.lookup(held.key)};
        EXPECT(all[2] && !one.pin_at(0, at, &held, why) && why == FERRETGOLD_HANDLES_FULL);
        EXPECT(refuses([&] { (void)one.pin_at(0, at, &held); }, 23));
        EXPECT(refuses([&] { (void)one.erase_where([](const ferretgold_key &) { return true; }); }, 23));
    }
    int asked = 0;
    const auto is_odd = [&](const ferretgold_key &key) { return asked++, key.w0 % 2 == 1; };
    EXPECT(one.erase_where(is_odd, why) == 2 && why == FERRETGOLD_OK && asked == 3);
    EXPECT(one.erase_where([](const ferretgold_key &) { return true; }) == 1 && one.occupancy() == 0);
}

// Clients and caches that are moved, and those that aren't given or taken back.
void moved_caches() {
    cache first(small());
    cache it(std::move(first));
    EXPECT(first.get() == nullptr && it.get() != nullptr);
    EXPECT(first.value_limit() == 0 && first.config().slots == 0 && it.value_limit() == 8 * small().room);
    EXPECT(it.config().clients == 2 && it.config().handles == 3);
    client one = it.open_client();
    client two(std::move(one));
    EXPECT(one.get() == nullptr && two.get() != nullptr);
    EXPECT(one.insert(KEY, "", 0, 1) == 16);
    {
        client last = it.open_client();
        EXPECT(refuses([&] { (void)it.open_client(); }, 36));
        EXPECT(refuses([&] { (void)it.close(); }, 39));
        ferretgold_client *const was = two.get();
        two = std::move(last);
        EXPECT(two.get() != was && last.get() == was);
    }
    EXPECT(it.get() != nullptr);
    EXPECT(two.insert(KEY, "ab", 2, 3) == 0);
    EXPECT(two.stats().probes == 1);
    { const client gone = std::move(two); }
    const ferretgold_totals left = it.close();
    EXPECT(left.usage == 3 && left.slot_count == 1);
    EXPECT(it.get() == nullptr);
    EXPECT(refuses([&] { (void)it.close(); }, 16));
    ferretgold_config bad = small();
    EXPECT(ferretgold::check(bad) == FERRETGOLD_OK);
    bad.slots = 9;
    EXPECT(ferretgold::check(bad) == FERRETGOLD_BAD_SLOTS);
    EXPECT(refuses([&] { cache none(bad); }, 29));
    cache second(small());
    ferretgold_cache *const was = second.get();
    it = std::move(second);
    EXPECT(it.get() == was && second.get() == nullptr);
}

// The seed that a cache has opens another one so; where the system gives none, both forms refuse.
void seeded() {
    ferretgold_config config = small();
    config.seed = 0;
    const ferretgold_config is = cache(config).config();
    EXPECT(is.seed != 0 && is.seed != FERRETGOLD_UNSEEDED);
    EXPECT(cache(is).config().seed == is.seed);
    ferretgold_status why{};
    draws_left = 0;
    EXPECT(ferretgold::check(config) == FERRETGOLD_OK);
    EXPECT(cache(config, why).get() == nullptr && why == FERRETGOLD_NO_SEED);
    EXPECT(refuses([&] { cache none(config); }, FERRETGOLD_NO_SEED));
    EXPECT(refuses([&] { (void)ferretgold::image().reopen(config); }, FERRETGOLD_NO_SEED));
    EXPECT(cache(is).get() != nullptr);
    draws_left = -1;
}

// What is none is refused, by both forms of each call.
void nobody() {
    ferretgold_status why{};
    cache none;
    client one;
    handle it;
    EXPECT(!one && !it && none.get() == nullptr && one.get() == nullptr);
    const auto is_null = [&](auto told, auto thrown) {
        why = FERRETGOLD_OK;
        (void)told();
        EXPECT(why == FERRETGOLD_NULL);
        EXPECT(refuses([&] { (void)thrown(); }, FERRETGOLD_NULL));
    };
    is_null([&] { return none.open_client(why); }, [&] { return none.open_client(); });
    is_null([&] { return none.close(why); }, [&] { return none.close(); });
    is_null([&] { return one.lookup(KEY, why); }, [&] { return one.lookup(KEY); });
    is_null([&] { return one.insert_pinned(KEY, "", 0, 1, FERRETGOLD_LOW, nullptr, why); },
            [&] { return one.insert_pinned(KEY, "", 0, 1); });
    is_null([&] { return one.erase(KEY, why); }, [&] { return one.erase(KEY); });
    ferretgold_held_entry held{};
    const auto all = [](const ferretgold_key &) { return true; };
    is_null([&] { return one.pin_at(0, 0, &held, why); }, [&] { return one.pin_at(0, 0, &held); });
    is_null([&] { return one.erase_where(all, why); }, [&] { return one.erase_where(all); });
    is_null([&] { return one.usage(why); }, [&] { return one.usage(); });
    is_null([&] { return one.pinned_usage(why); }, [&] { return one.pinned_usage(); });
    is_null([&] { return one.occupancy(why); }, [&] { return one.occupancy(); });
    is_null([&] { return one.word(0, 0, why); }, [&] { return one.word(0, 0); });
    is_null([&] { return one.displacement(0, 0, why); }, [&] { return one.displacement(0, 0); });
    is_null([&] { return one.stats(why); }, [&] { return one.stats(); });
    is_null([&] { return it.key(why); }, [&] { return it.key(); });
    is_null([&] { return it.size(why); }, [&] { return it.size(); });
    is_null([&] { return it.read(nullptr, 0, why); }, [&] { return it.read(nullptr, 0); });
    is_null([&] { return it.reref(why); }, [&] { return it.reref(); });
    EXPECT(one.number() == 0 && one.held() == 0 && one.serials_left() == 0 && !one.holds(it));
    EXPECT(one.get(KEY, nullptr, 0, nullptr) == FERRETGOLD_NULL);
    EXPECT(one.get_part(KEY, 0, nullptr, 0, nullptr) == FERRETGOLD_NULL);
}

// What calls say by `why`, and return.
void told() {
    ferretgold_status why = FERRETGOLD_NULL;
    char bytes[4];
    cache it(small(), why);
    EXPECT(why == FERRETGOLD_OK);
    client first = it.open_client(why), second = it.open_client();
    EXPECT(why == FERRETGOLD_OK && first && first.number() + second.number() == 1);
    EXPECT(!it.open_client(why) && why == FERRETGOLD_NO_CLIENT);
    EXPECT(!first.lookup(KEY, why) && why == FERRETGOLD_MISS);
    ferretgold_inserted came = FERRETGOLD_DROPPED;
    handle held = first.insert_pinned(KEY, "ab", 2, 3, FERRETGOLD_HIGH, &came, why);
    EXPECT(held && why == FERRETGOLD_OK && came == FERRETGOLD_PLACED);
    EXPECT(!first.insert_pinned(KEY, "", 0, 0, FERRETGOLD_LOW, nullptr, why) && why == 18);
    EXPECT(first.lookup(KEY, why) && why == FERRETGOLD_OK);
    EXPECT(held.key(why).w1 == KEY.w1 && held.size(why) == 2 && why == FERRETGOLD_OK);
    EXPECT(held.read(bytes, 1, why) == 2 && why == FERRETGOLD_TOO_SHORT);
    EXPECT(held.read(bytes, 4, why) == 2 && why == FERRETGOLD_OK && bytes[1] == 'b');
    const auto part = held.read_part(1, bytes, 4, why);
    EXPECT(part.given == 1 && part.length == 2 && why == FERRETGOLD_OK && bytes[0] == 'b');
    handle more = held.reref(why), most = held.reref(why);
    EXPECT(most && why == FERRETGOLD_OK && !held.reref(why) && why == FERRETGOLD_HANDLES_FULL);
    EXPECT(first.serials_left() == small().serials - 4);
    EXPECT(second.insert(OTHER, "", 0, 4) == 0);
    EXPECT(first.usage(why) == 7 && first.pinned_usage(why) == 3 && first.occupancy(why) == 2);
    EXPECT(second.lookup(OTHER) && first.word(0, 8, why) == 0 && why == FERRETGOLD_OUT_OF_RANGE);
    EXPECT(first.displacement(1, 0, why) == 0 && why == FERRETGOLD_OUT_OF_RANGE);
    EXPECT(second.stats(why).probes > 1 && why == FERRETGOLD_OK);
    EXPECT(second.erase(KEY, why) == 1 && why == FERRETGOLD_OK);
    (void)it.close(why);
    EXPECT(why == FERRETGOLD_CLIENTS_OUT && it.get() != nullptr);
    for (handle *one : {&held, &more, &most}) {
        *one = handle();
    }
    first = client();
    second = client();
    EXPECT(it.close(why).usage == 4 && why == FERRETGOLD_OK && it.get() == nullptr);
}

// Memory that is refused: nothing remains, and each client is still there.
void no_memory() {
    ferretgold_status why{};
    refuses_new = true;
    EXPECT(cache(small(), why).get() == nullptr && why == FERRETGOLD_OUT_OF_MEMORY);
    EXPECT(ferretgold::image().reopen(small(), nullptr, why).get() == nullptr && why == FERRETGOLD_OUT_OF_MEMORY);
    EXPECT(heap_blocks == 0);
    refuses_new = false;
    heap_left = 3;
    EXPECT(cache(small(), why).get() == nullptr && why == FERRETGOLD_OUT_OF_MEMORY);
    heap_left = SIZE_MAX;
    EXPECT(heap_blocks == 0);
    cache it(small());
    refuses_new = true;
    EXPECT(!it.open_client(why) && why == FERRETGOLD_OUT_OF_MEMORY);
    refuses_new = false;
    const client first = it.open_client(), second = it.open_client();
    EXPECT(first && second);
}

// Sizes and texts.
void sizes() {
    ferretgold_status why = FERRETGOLD_NULL;
    const ferretgold_config config = ferretgold::config_for(1 << 20, 64, 3, why);
    EXPECT(why == FERRETGOLD_OK && config.room == 8 && config.clients == 3);
    EXPECT(ferretgold::config_for(1 << 20, 64, 3).slots == config.slots);
    EXPECT(refuses([&] { (void)ferretgold::config_for(1 << 20, 64, 0); }, 31));
    EXPECT(ferretgold::memory(config) == ferretgold_memory(&config));
    ferretgold_fit fit{}, more{};
    EXPECT(ferretgold::config_for(1 << 20, 64, 3, why, &fit).slots == config.slots);
    EXPECT(fit.bytes == ferretgold::memory(config) && fit.half && fit.values == 64 * fit.entries);
    (void)ferretgold::config_for(fit.more, 64, 3, &more);
    EXPECT(more.entries / 2 == fit.entries);
    ferretgold_config many = config;
    many.handles = many.slots;
    EXPECT(ferretgold::advice(config) == 0 && ferretgold::advice(many) == FERRETGOLD_MANY_HANDLES);
    EXPECT(ferretgold::advice_text(FERRETGOLD_MANY_HANDLES) != std::string("unknown"));
    EXPECT(ferretgold::version() == std::string(FERRETGOLD_VERSION));
}

// Handles that go after their client, and clients after their cache: nothing is lost.
void outlived() {
    handle last;
    {
        cache it(small());
        {
            client one = it.open_client();
            last = one.insert_pinned(KEY, "ab", 2, 3);
        }
        char bytes[2];
        EXPECT(last.size() == 2 && last.read(bytes, 2) == 2);
        client two = it.open_client();
        EXPECT(refuses([&] { (void)it.open_client(); }, 36));
        EXPECT(refuses([&] { (void)it.close(); }, 39));
        handle more = last.reref();
        last = std::move(more);
        EXPECT(two.held() == 0);
        last.release();
        last.release();
        client one = it.open_client();
        EXPECT(one.stats().probes == 1 && one.held() == 0);
        last = one.lookup(KEY);
        EXPECT(last);
    }
    EXPECT(last.size() == 2);
    EXPECT(heap_blocks != 0);
    bool freed = true;
    last.release();
    last.release(true, true, &freed);
    EXPECT(!freed && heap_blocks == 0);
}

// What ferretgold.h gave of handles goes with the client.
void given() {
    cache it(small());
    ferretgold_handle held{};
    {
        client one = it.open_client();
        EXPECT(ferretgold_insert_pinned(one.get(), &KEY, "", 0, 1, FERRETGOLD_LOW, nullptr, &held) == 0);
    }
    EXPECT(it.close().slot_count == 1);
}

// Clients for an operation: as many as there are, and each is back at its end, with its handles.
void lent() {
    cache it(small());
    {
        const ferretgold::lease first(it), second(it), third(it);
        ferretgold_handle held{};
        EXPECT(first.get() != nullptr && second.get() != nullptr && third.get() == nullptr);
        EXPECT(ferretgold_insert_pinned(first.get(), &KEY, "", 0, 1, FERRETGOLD_LOW, nullptr,
                                        &held) == 0);
        EXPECT(refuses([&] { (void)it.close(); }, 39));
    }
    EXPECT(it.close().slot_count == 1);
}

void edges() {
    moved_handles();
    lent();
    defaults();
    walked();
    moved_caches();
    seeded();
    outlived();
    given();
    nobody();
    told();
    no_memory();
    sizes();
}

} // namespace

int main(int count, char **files) {
    edges();
    faults += closed_caches();
    EXPECT(heap_blocks == 0);
    for (int k = 1; k < count; k++) {
        play_file(files[k]);
        EXPECT(heap_blocks == 0);
    }
    std::printf("play: %d faults\n", faults);
    return faults != 0;
}

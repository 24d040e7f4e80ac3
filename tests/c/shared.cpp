// The counts that ferretgold.hpp has of who uses a cache: clients and handles go on other threads than the
// cache, in any order, and the last of them closes it, once. Under ThreadSanitizer, too.
// Usage: shared [ROUNDS]    5,000 by default
#include "ferretgold.h"

#include <atomic>
#include <cstdio>
#include <cstdlib>

namespace {

std::atomic<long> faults{0}, closings{0};

void expect(int line, const char *what, bool is) {
    if (!is && faults.fetch_add(1) < 10) {
        std::printf("shared.cpp:%d: not so: %s\n", line, what);
    }
}
#define EXPECT(what) expect(__LINE__, #what, what)

// In place of the library's.
ferretgold_status counted_close(ferretgold_cache *cache, ferretgold_totals *totals) {
    const ferretgold_status status = ferretgold_close(cache, totals);
    EXPECT(status == FERRETGOLD_OK);
    closings++;
    return status;
}

} // namespace

#define ferretgold_close counted_close
#include "ferretgold.hpp"

#include <thread>
#include <vector>

namespace {

constexpr unsigned THREADS = 4;

// Uses a client that is given, or one that it opens of a cache that it is given; the handle goes last.
void work(ferretgold::cache cache, ferretgold::client client, std::uint64_t number) {
    ferretgold_status why = FERRETGOLD_NULL;
    const ferretgold_key key = {number, 1};
    if (!client) {
        client = cache.open_client(why);
    }
    const ferretgold::handle held =
        client.insert_pinned(key, "held", 4, 1, FERRETGOLD_LOW, nullptr, why);
    EXPECT(why == FERRETGOLD_OK && held.size(why) == 4);
    { const ferretgold::cache gone(std::move(cache)); }
    { const ferretgold::client gone(std::move(client)); }
    char bytes[4];
    EXPECT(held.read(bytes, sizeof bytes, why) == 4 && why == FERRETGOLD_OK);
}

// One thread gets the cache and the others a client each.
void round(const ferretgold_config &config) {
    ferretgold_status why = FERRETGOLD_NULL;
    ferretgold::cache cache(config, why);
    EXPECT(why == FERRETGOLD_OK);
    std::vector<ferretgold::client> clients(THREADS);
    std::vector<std::thread> threads;
    for (unsigned k = 1; k < THREADS; k++) {
        clients[k] = cache.open_client(why);
        EXPECT(why == FERRETGOLD_OK);
    }
    for (unsigned k = 0; k < THREADS; k++) {
        threads.emplace_back(work, k == 0 ? std::move(cache) : ferretgold::cache(),
                             std::move(clients[k]), k);
    }
    for (std::thread &it : threads) {
        it.join();
    }
}

} // namespace

int main(int count, char **words) {
    const long rounds = count > 1 ? std::atol(words[1]) : 5000;
    ferretgold_config config = FERRETGOLD_CONFIG;
    config.slots = 8;
    config.room = 1;
    config.shards = 1;
    config.clients = THREADS;
    for (long k = 0; k < rounds; k++) {
        round(config);
    }
    EXPECT(closings == rounds);
    std::printf("shared.cpp: %ld faults\n", faults.load());
    return faults != 0;
}

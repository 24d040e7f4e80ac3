// Each cache of a program that uses LevelDB, its tables' too, where the linker has this in place of
// NewLRUCache: -Wl,--wrap=_ZN7leveldb11NewLRUCacheEm. It says at the end how many were made.
#include "ferretgold_leveldb.hpp"

#include <cstdio>

extern "C" leveldb::Cache *__wrap__ZN7leveldb11NewLRUCacheEm(std::size_t capacity);

namespace {

// A capacity below that counts entries, as that of open tables does, or is none of blocks.
constexpr std::size_t BYTES = 65536;

struct counter {
    std::atomic<unsigned> made{0};
    ~counter() { std::printf("caches: %u\n", made.load()); }
} caches;

} // namespace

leveldb::Cache *__wrap__ZN7leveldb11NewLRUCacheEm(std::size_t capacity) {
    leveldb::Cache *it = ferretgold::new_leveldb_cache(capacity, capacity < BYTES ? 1 : 4096);
    if (it == nullptr) {
        std::abort();
    }
    caches.made++;
    return it;
}

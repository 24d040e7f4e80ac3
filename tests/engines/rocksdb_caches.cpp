// Each HyperClockCache that RocksDB's tests make, where the linker has this in place of
// HyperClockCacheOptions::MakeSharedCache, and the seed of its keys, the same in each run. It says at the
// end how many were made.
#include "ferretgold_rocksdb.hpp"

#include <cstdio>
#include <cstdlib>
#include <cstring>

extern "C" ssize_t __wrap_getrandom(void *bytes, std::size_t count, unsigned flags);
extern "C" std::shared_ptr<rocksdb::Cache>
__wrap__ZNK7rocksdb22HyperClockCacheOptions15MakeSharedCacheEv(
    const rocksdb::HyperClockCacheOptions *options);

namespace {

struct counter {
    std::atomic<unsigned> made{0};
    ~counter() { std::printf("caches: %u\n", made.load()); }
} caches;

} // namespace

std::shared_ptr<rocksdb::Cache> __wrap__ZNK7rocksdb22HyperClockCacheOptions15MakeSharedCacheEv(
    const rocksdb::HyperClockCacheOptions *options) {
    std::shared_ptr<rocksdb::Cache> it = ferretgold::NewFerretgoldCache(*options);
    if (it == nullptr) {
        std::abort();
    }
    caches.made++;
    return it;
}

ssize_t __wrap_getrandom(void *bytes, std::size_t count, unsigned) {
    std::memset(bytes, 1, count);
    return static_cast<ssize_t>(count);
}

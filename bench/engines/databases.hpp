// databases.hpp - databases of RocksDB and of LevelDB behind the same few calls, each with a block
// cache. Nothing is compressed.
#ifndef ENGINES_DATABASES_HPP
#define ENGINES_DATABASES_HPP

#include "ferretgold_leveldb.hpp"
#include "ferretgold_rocksdb.hpp"

#include <leveldb/db.h>
#include <leveldb/env.h>
#include <rocksdb/db.h>
#include <rocksdb/perf_context.h>
#include <rocksdb/perf_level.h>
#include <rocksdb/table.h>

#include <fcntl.h>
#include <unistd.h>

#include <cstdint>
#include <cstdio>
#include <cstdlib>
#include <memory>
#include <string>

namespace engines {

inline void must(bool is_well, const std::string &what) {
    if (!is_well) {
        std::fprintf(stderr, "%s failed\n", what.c_str());
        std::exit(1);
    }
}

template <typename Status> void must_be_ok(const Status &status, const char *what) {
    must(status.ok(), std::string(what) + ": " + status.ToString());
}

inline std::string key_of(std::uint64_t number) {
    char digits[17];
    std::snprintf(digits, sizeof digits, "%016llu", static_cast<unsigned long long>(number));
    return digits;
}

// What was looked for in the block cache.
struct counts {
    std::uint64_t hits = 0;
    std::uint64_t misses = 0;
};

// How a database is opened.
struct setup {
    std::string folder;
    std::string cache; // ferretgold, hyper_clock_cache (of RocksDB) or lru_cache
    std::size_t capacity = 0;
    std::size_t block = 0;  // bytes
    std::size_t charge = 0; // of a block, as estimated
};

class database {
  public:
    virtual ~database() = default;
    virtual void put(std::uint64_t key, const std::string &value) = 0;
    virtual void get(std::uint64_t key) = 0;
    virtual void compact() = 0;
    // Reads all keys in order, so that the cache is full, if there are enough.
    virtual void scan() = 0;
    // What this thread looked for, once it has asked.
    virtual counts counted() = 0;
    virtual std::size_t usage() = 0; // of the cache
};

// ---- RocksDB -----------------------------------------------------------------------------------

class rocks final : public database {
  public:
    explicit rocks(const setup &setup) : cache_(cache_of(setup)) {
        must(cache_ != nullptr, "making " + setup.cache);
        rocksdb::BlockBasedTableOptions table;
        table.block_size = setup.block;
        table.block_cache = cache_;
        rocksdb::Options options;
        options.create_if_missing = true;
        options.compression = rocksdb::kNoCompression;
        options.max_open_files = -1;
        options.table_factory.reset(rocksdb::NewBlockBasedTableFactory(table));
        rocksdb::DB *opened = nullptr;
        must_be_ok(rocksdb::DB::Open(options, setup.folder, &opened), "opening");
        opened_.reset(opened);
    }

    void put(std::uint64_t key, const std::string &value) override {
        must_be_ok(opened_->Put(rocksdb::WriteOptions(), key_of(key), value), "writing");
    }
    void get(std::uint64_t key) override {
        rocksdb::PinnableSlice value;
        must_be_ok(opened_->Get(rocksdb::ReadOptions(), opened_->DefaultColumnFamily(), key_of(key),
                                &value),
                   "reading");
    }
    void compact() override {
        must_be_ok(opened_->CompactRange(rocksdb::CompactRangeOptions(), nullptr, nullptr),
                   "compacting");
    }
    void scan() override {
        const std::unique_ptr<rocksdb::Iterator> it(opened_->NewIterator(rocksdb::ReadOptions()));
        for (it->SeekToFirst(); it->Valid(); it->Next()) {
        }
    }
    counts counted() override {
        rocksdb::SetPerfLevel(rocksdb::kEnableCount);
        const rocksdb::PerfContext &all = *rocksdb::get_perf_context();
        return {all.block_cache_hit_count, all.block_read_count};
    }
    std::size_t usage() override { return cache_->GetUsage(); }

  private:
    static std::shared_ptr<rocksdb::Cache> cache_of(const setup &setup) {
        const auto policy = rocksdb::kDontChargeCacheMetadata;
        const rocksdb::HyperClockCacheOptions options(setup.capacity, setup.charge, -1, false,
                                                      nullptr, policy);
        if (setup.cache == "ferretgold") {
            return ferretgold::NewFerretgoldCache(options);
        }
        if (setup.cache == "hyper_clock_cache") {
            return options.MakeSharedCache();
        }
        must(setup.cache == "lru_cache", "a cache " + setup.cache);
        return rocksdb::NewLRUCache(setup.capacity, -1, false, 0.5, nullptr,
                                    rocksdb::kDefaultToAdaptiveMutex, policy);
    }

    std::shared_ptr<rocksdb::Cache> cache_;
    std::unique_ptr<rocksdb::DB> opened_;
};

// ---- LevelDB -----------------------------------------------------------------------------------

// A file that is read, where LevelDB would map it: it caches no blocks of a file that is mapped,
// unless they are compressed.
class read_file final : public leveldb::RandomAccessFile {
  public:
    explicit read_file(int descriptor) : descriptor_(descriptor) {}
    ~read_file() override { close(descriptor_); }

    leveldb::Status Read(std::uint64_t offset, std::size_t size, leveldb::Slice *result,
                         char *bytes) const override {
        const ssize_t got = pread(descriptor_, bytes, size, static_cast<off_t>(offset));
        *result = leveldb::Slice(bytes, got < 0 ? 0 : static_cast<std::size_t>(got));
        return got < 0 ? leveldb::Status::IOError("pread") : leveldb::Status::OK();
    }

  private:
    int descriptor_;
};

class reading_env final : public leveldb::EnvWrapper {
  public:
    reading_env() : EnvWrapper(leveldb::Env::Default()) {}

    leveldb::Status NewRandomAccessFile(const std::string &name,
                                        leveldb::RandomAccessFile **file) override {
        const int descriptor = open(name.c_str(), O_RDONLY | O_CLOEXEC);
        *file = descriptor < 0 ? nullptr : new read_file(descriptor);
        return descriptor < 0 ? leveldb::Status::IOError(name) : leveldb::Status::OK();
    }
};

// A cache whose look-ups are counted, by thread.
class counting_cache final : public leveldb::Cache {
  public:
    explicit counting_cache(leveldb::Cache *cache) : cache_(cache) {}

    Handle *Insert(const leveldb::Slice &key, void *value, std::size_t charge,
                   void (*deleter)(const leveldb::Slice &key, void *value)) override {
        return cache_->Insert(key, value, charge, deleter);
    }
    Handle *Lookup(const leveldb::Slice &key) override {
        Handle *found = cache_->Lookup(key);
        ++(found == nullptr ? mine_.misses : mine_.hits);
        return found;
    }
    void Release(Handle *handle) override { cache_->Release(handle); }
    void *Value(Handle *handle) override { return cache_->Value(handle); }
    void Erase(const leveldb::Slice &key) override { cache_->Erase(key); }
    std::uint64_t NewId() override { return cache_->NewId(); }
    void Prune() override { cache_->Prune(); }
    std::size_t TotalCharge() const override { return cache_->TotalCharge(); }

    static counts mine() { return mine_; }

  private:
    std::unique_ptr<leveldb::Cache> cache_;
    static inline thread_local counts mine_;
};

class level final : public database {
  public:
    explicit level(const setup &setup) : cache_(cache_of(setup)) {
        leveldb::Options options;
        options.create_if_missing = true;
        options.compression = leveldb::kNoCompression;
        options.block_size = setup.block;
        options.block_cache = &cache_;
        options.env = &env_;
        leveldb::DB *opened = nullptr;
        must_be_ok(leveldb::DB::Open(options, setup.folder, &opened), "opening");
        opened_.reset(opened);
    }

    void put(std::uint64_t key, const std::string &value) override {
        must_be_ok(opened_->Put(leveldb::WriteOptions(), key_of(key), value), "writing");
    }
    void get(std::uint64_t key) override {
        thread_local std::string value;
        must_be_ok(opened_->Get(leveldb::ReadOptions(), key_of(key), &value), "reading");
    }
    void compact() override { opened_->CompactRange(nullptr, nullptr); }
    void scan() override {
        const std::unique_ptr<leveldb::Iterator> it(opened_->NewIterator(leveldb::ReadOptions()));
        for (it->SeekToFirst(); it->Valid(); it->Next()) {
        }
    }
    counts counted() override { return counting_cache::mine(); }
    std::size_t usage() override { return cache_.TotalCharge(); }

  private:
    static leveldb::Cache *cache_of(const setup &setup) {
        leveldb::Cache *cache = setup.cache == "ferretgold"
                                    ? ferretgold::new_leveldb_cache(setup.capacity, setup.charge)
                                    : leveldb::NewLRUCache(setup.capacity);
        must(cache != nullptr && (setup.cache == "ferretgold" || setup.cache == "lru_cache"),
             "making " + setup.cache);
        return cache;
    }

    reading_env env_;
    counting_cache cache_;
    std::unique_ptr<leveldb::DB> opened_; // ends before its cache
};

inline std::unique_ptr<database> opened(const std::string &engine, const setup &setup) {
    if (engine == "leveldb") {
        return std::make_unique<level>(setup);
    }
    must(engine == "rocksdb", "an engine " + engine);
    return std::make_unique<rocks>(setup);
}

} // namespace engines

#endif

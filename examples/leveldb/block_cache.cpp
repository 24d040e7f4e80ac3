// A database whose block cache is this cache: written, compacted and read, and what the cache
// counted of that.
// usage: block_cache [FOLDER]
#include "ferretgold_leveldb.hpp"

#include <leveldb/db.h>

#include "../c/prometheus.h"

#include <iostream>
#include <memory>
#include <string>

int main(int count, char **words) {
    const std::unique_ptr<leveldb::Cache> blocks(ferretgold::new_leveldb_cache(8 << 20));
    leveldb::Options options;
    options.create_if_missing = true;
    options.block_cache = blocks.get();
    leveldb::DB *opened = nullptr;
    leveldb::Status status = leveldb::DB::Open(options, count > 1 ? words[1] : "blocks", &opened);
    const std::unique_ptr<leveldb::DB> database(opened); // ends before its cache
    std::string value(100, 'v');
    for (int key = 0; status.ok() && key < 10000; key++) {
        status = database->Put(leveldb::WriteOptions(), std::to_string(key), value);
    }
    if (status.ok()) {
        database->CompactRange(nullptr, nullptr);
    }
    for (int key = 0; status.ok() && key < 10000; key++) {
        status = database->Get(leveldb::ReadOptions(), std::to_string(key), &value);
    }
    std::cout << status.ToString() << ", cached: " << blocks->TotalCharge() << " bytes of blocks" << std::endl;
    const labelled_counts counts = {"cache=\"leveldb\"", ferretgold::counts_of(*blocks)};
    print_metrics(stdout, &counts, 1);
    return status.ok() && blocks->TotalCharge() > 1000000 ? 0 : 1;
}

// Writes a row to a database of RocksDB whose block cache is Ferretgold, and reads it twice: the
// first time from the file, and then from the cache; then prints what the cache counted.
#include <ferretgold_rocksdb.hpp>

#include <rocksdb/db.h>
#include <rocksdb/table.h>

#include "../c/prometheus.h"

#include <iostream>

int main(int count, char **words) {
    rocksdb::BlockBasedTableOptions table;
    table.block_cache = ferretgold::NewFerretgoldCache({std::size_t{64} << 20, table.block_size});
    rocksdb::Options options;
    options.create_if_missing = true;
    options.table_factory.reset(rocksdb::NewBlockBasedTableFactory(table));
    rocksdb::DB *db = nullptr;
    rocksdb::Status status = rocksdb::DB::Open(options, count > 1 ? words[1] : "", &db);
    std::string value;
    status = status.ok() ? db->Put({}, "key", "value") : status;
    status = status.ok() ? db->Flush({}) : status;
    status = status.ok() ? db->Get({}, "key", &value) : status;
    status = status.ok() ? db->Get({}, "key", &value) : status;
    delete db;
    std::cout << value << ", " << table.block_cache->GetOccupancyCount() << " blocks" << std::endl;
    const labelled_counts counts = {"cache=\"rocksdb\"", ferretgold::counts_of(*table.block_cache)};
    print_metrics(stdout, &counts, 1);
    return status.ok() && value == "value" ? 0 : 1;
}

#!/usr/bin/env bash
# Runs LevelDB's own tests, unchanged, over include/ferretgold_leveldb.hpp: the linker has that in
# place of each NewLRUCache, the caches of open tables among them. It downloads LevelDB's source;
# the library is Debian's (libleveldb-dev). It fails where a test does, where there are more or
# fewer than here, or where no cache was made.
# Usage: tests/engines/leveldb.sh [TEST..]      cache_test, db_test ..; all by default
set -u
cd "$(dirname "$0")/../.." || exit 2
engine=leveldb
headers=(benchmark/benchmark.h gmock/gmock.h gtest/gtest.h leveldb/cache.h snappy.h)
packages="libgtest-dev libgmock-dev libbenchmark-dev libsnappy-dev"
tests=("util/cache_test 9 util/testutil" "db/db_test 57 util/testutil"
    "db/autocompact_test 2 util/testutil" "db/corruption_test 12 util/testutil"
    "db/fault_injection_test 2 util/testutil" "db/recovery_test 7 util/testutil"
    "table/table_test 11 util/testutil" "issues/issue178_test 1 util/testutil"
    "issues/issue200_test 1 util/testutil" "issues/issue320_test 1 util/testutil")
words=(-DLEVELDB_PLATFORM_POSIX=1 -DHAVE_SNAPPY=1)
libraries=(src/out/libferretgold.a -l:libleveldb.a -l:libmemenv.a -lsnappy -lgtest -lgmock
    -lbenchmark -pthread -Wl,--wrap=_ZN7leveldb11NewLRUCacheEm)
. tests/engines/shared.sh
own_tests "$@"
counted "$engine"

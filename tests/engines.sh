#!/usr/bin/env bash
# Builds and runs the examples for LevelDB and for RocksDB, whose block caches are this one, and the
# tests of the two headers: each call, threads, and a database of each that four threads read while it
# is compacted; then the tests, with fewer operations, under AddressSanitizer and
# UndefinedBehaviorSanitizer, and under ThreadSanitizer, which sees each step. It fails where a read is
# wrong. Without RocksDB 7.8, which tests/needs.sh installs where it may, it says what it skipped.
# Usage: tests/engines.sh
set -u
cd "$(dirname "$0")/.." || exit 2
. tests/shared.sh
wants_library engines
wants engines cc c++

# Builds and runs an example: makes ENGINE
makes() {
    make -s -C "examples/$1" CXX=c++ BUILD="$folder/$1" run
}

# The test of the header for RocksDB: blocks OPERATIONS WORD..
blocks() {
    c++ -std=c++17 -g -Wall -Wextra -Wpedantic -Werror -Iinclude tests/c/rocksdb_cache.cpp "${@:2}" \
        -lrocksdb -pthread -o "$folder/blocks" && "$folder/blocks" "$folder/blocks.database" "$1"
}

# That of the header for LevelDB: calls_leveldb OPERATIONS WORD..
calls_leveldb() {
    c++ -std=c++11 -g -Wall -Wextra -Wpedantic -Werror -Iinclude tests/c/leveldb_cache.cpp "${@:2}" \
        -lleveldb -pthread -o "$folder/calls_leveldb" && "$folder/calls_leveldb" "$1"
}

# Tries one of these with sanitizers: tries_sanitized NAME TEST
tries_sanitized() {
    sanitizes "engines: $1" c++ || return
    tries "$1, with sanitizers" "$2" 100000 "${library[@]}" -fsanitize=address,undefined -fno-sanitize-recover=all
    tries "$1, threads sanitized" sees_steps_of "$2" 100000
}

# Whether RocksDB is here, in the release that the header is for.
has_rocksdb() {
    c++ -E -x c++ - > /dev/null 2>&1 << 'END'
#include <rocksdb/version.h>
#if ROCKSDB_MAJOR != 7 || ROCKSDB_MINOR != 8
#error another release
#endif
END
}

library=(-O1 src/out/libferretgold.a)
make -s -C src || exit 1
tries "LevelDB, its block cache" makes leveldb
tries "LevelDB, calls of its block cache" calls_leveldb 1000000 "${library[@]}"
tries_sanitized "LevelDB, calls of its block cache" calls_leveldb
if has_rocksdb; then
    tries "RocksDB, its block cache" makes rocksdb
    tries "RocksDB, calls of its block cache" blocks 1000000 "${library[@]}"
    tries_sanitized "RocksDB, calls of its block cache" blocks
else
    echo "engines: SKIPPED: there is no RocksDB 7.8, and tests/needs.sh could install none"
fi
counted engines

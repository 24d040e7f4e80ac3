#!/usr/bin/env bash
# Installs the library and uses what was installed, and nothing else, with no Rattle in PATH: programs in
# C, C++ and Rust are built by plain words, by pkg-config and by CMake, and the shared library, whose
# functions have to be those of the header, is called by Python. It packs the archive twice, in different
# folders, compares the two, and builds with one. It wants crates/hcc_c/out/libhcc_c.a, as `rt lib` in
# crates/hcc_c makes it. What has no compiler or tool here is skipped, and it says so.
# Usage: tests/install/run.sh
set -u
cd "$(dirname "$0")/../.." || exit 2
. tests/shared.sh
wants_library install
make -s -C src || exit 1

prefix=$folder/prefix
proved=$PWD/crates/hcc_c/out/libhcc_c.a
version=$(sed -nE 's/^#define FERRETGOLD_VERSION "(.*)"/\1/p' include/ferretgold.h)
skipped=0

# The PATH without the folders that have Rattle.
without_rattle() {
    local it path=
    for it in ${PATH//:/ }; do
        [[ -x $it/rt || -x $it/rattle ]] || path+=${path:+:}$it
    done
    echo "$path"
}

# Runs a check where a command is there: tries_with COMMAND NAME WORD..
tries_with() {
    if command -v "$1" > /dev/null; then
        tries "${@:2}"
    else
        echo "install: SKIPPED: $2: there is no $1"
        skipped=$((skipped + 1))
    fi
}

# Builds a program and runs it: builds WORD..
builds() {
    "$@" -o "$folder/built" && (cd "$folder" && ./built)
}

is_installed() {
    make -s install PREFIX="$prefix" && ! command -v rt && ! command -v rattle
}

by_pkg_config() {
    local words
    words=$(PKG_CONFIG_PATH=$1/lib/pkgconfig pkg-config --cflags --libs "ferretgold >= 0.1") || return
    # shellcheck disable=SC2086
    builds cc -std=c11 examples/c/two_threads.c $words -Wl,-rpath,"$1/lib" -pthread
}

by_cmake() {
    local kind words=(-DCMAKE_PREFIX_PATH="$prefix" -DEXAMPLE="$PWD/examples/cpp/file_reader.cpp")
    for wanted in 9 0.2 0.1.99; do
        ! cmake -S tests/install -B "$folder/refused$wanted" -DWANTED=$wanted "${words[@]}" || return
    done
    cmake -S tests/install -B "$folder/cmake" -DWANTED=0.1 "${words[@]}" && cmake --build "$folder/cmake" || return
    for kind in ferretgold static check; do
        (cd "$folder" && "cmake/reader_$kind") || return
        [[ ! -f $prefix/lib/libferretgold_file.a ]] || "$folder/cmake/saver_$kind" || return
    done
}

# RocksDB with the cache as its block cache.
is_block_cache() {
    c++ -std=c++17 -I"$prefix/include" examples/rocksdb/block_cache.cpp -L"$prefix/lib" -lferretgold -lrocksdb \
        -Wl,-rpath,"$prefix/lib" -pthread -o "$folder/built" && "$folder/built" "$folder/rocksdb"
}

# The crate, its examples and its tests.
by_rustc() {
    local example it=$prefix/share/ferretgold/rust words=(--edition 2021 -O -D warnings)
    rustc "${words[@]}" --crate-type rlib --crate-name ferretgold "$it/src/lib.rs" --out-dir "$folder" || return
    words+=(--extern "ferretgold=$folder/libferretgold.rlib" -L "$prefix/lib" -l static=ferretgold)
    for example in threads objects; do
        builds rustc "${words[@]}" "$it/examples/$example.rs" || return
    done
    export CARGO_PKG_VERSION=$version
    builds rustc "${words[@]}" --test "$it/tests/calls.rs" && leaks_nothing
}

# Of these tests leaks the one that forgets a cache, and not the one that forgets handles: as AddressSanitizer
# sees it, where the C compiler has it.
leaks_nothing() {
    local sanitizer
    sanitizer=$(readlink -f "$(cc -print-file-name=libasan.so)")
    [[ -f $sanitizer ]] || return 0
    LD_PRELOAD=$sanitizer "$folder/built" nothing_is_lost && ! LD_PRELOAD=$sanitizer "$folder/built" a_cache_with
}

# The same by Cargo, and the examples of the crate's pages: by_cargo WORD..
by_cargo() {
    CARGO_TARGET_DIR=$folder/cargo cargo test --offline --manifest-path "$prefix/share/ferretgold/rust/Cargo.toml" "$@"
}

# Packs the archive from a copy of the sources in a folder.
pack() {
    mkdir -p "$1" && cp -a Makefile include rust src "$1" && rm -rf "$1/src/out" \
        && make -s -C "$1" dist PROVED="$proved" VERDICT="$folder/verdict" SOURCE_DATE_EPOCH=1
}

# With the line that tests/c/library.sh kept of this library, if it made it.
is_packed_alike() {
    { [[ -s crates/hcc_c/out/verdict ]] && cat crates/hcc_c/out/verdict || echo "logic=proved"; } > "$folder/verdict"
    pack "$folder/one" && (umask 077 && pack "$folder/another/place") \
        && cmp "$folder"/one/out/*.tar.gz "$folder"/another/place/out/*.tar.gz
}

is_unpacked() (
    mkdir "$folder/unpacked" && tar -xzf "$folder"/one/out/*.tar.gz -C "$folder/unpacked" --strip-components=1 \
        && cd "$folder/unpacked" && sha256sum -c SHA256SUMS && cmp VERDICT ../verdict \
        && ! grep -rF "$folder" . && find . -type f ! -name SHA256SUMS -printf '%P\n' | sort > ../files \
        && sed 's/^[^ ]*  //' SHA256SUMS | sort | cmp - ../files
)

# What is loaded while a program runs, five times, with the library inside, by the C library of a compiler:
# loads_late COMPILER.. Each copy has memory of each thread, for which musl's loader keeps no room.
loads_late() {
    local it copies=()
    make -s -C src LATE=1 OUT="$folder/late" PROVED="$proved" || return
    for it in 1 2 3 4 5; do
        copies+=("$folder/late/$it.so")
        "$@" -shared -fPIC -Iinclude tests/install/late.c "$folder/late/libferretgold.a" -o "$folder/late/$it.so" || return
    done
    "$@" -DHOST tests/install/late.c -ldl -o "$folder/late/host" && "$folder/late/host" "${copies[@]}"
}

PATH=$(without_rattle)
export PATH
tries "make install" is_installed
tries "C, shared" builds cc -std=c11 -I"$prefix/include" examples/c/two_threads.c -L"$prefix/lib" -lferretgold \
    -Wl,-rpath,"$prefix/lib" -pthread
tries "C, static" builds cc -std=c11 -I"$prefix/include" examples/c/two_threads.c "$prefix/lib/libferretgold.a" -pthread
tries "C++" builds c++ -std=c++17 -I"$prefix/include" examples/cpp/file_reader.cpp -L"$prefix/lib" -lferretgold \
    -Wl,-rpath,"$prefix/lib"
[[ ! -f /usr/include/leveldb/cache.h ]] || tries "C++, LevelDB" builds c++ -std=c++11 -I"$prefix/include" \
    examples/leveldb/block_cache.cpp -L"$prefix/lib" -lferretgold -Wl,-rpath,"$prefix/lib" -lleveldb -pthread
tries_with pkg-config "C, by pkg-config" by_pkg_config "$prefix"
tries_with cmake "C++, by CMake" by_cmake
tries_with rustc "Rust" by_rustc
tries_with cargo "Rust, by Cargo" by_cargo
if [[ -f $prefix/lib/libferretgold_file.a ]]; then
    tries "C++, files" builds c++ -std=c++17 -I"$prefix/include" tests/install/saver.cpp -L"$prefix/lib" \
        -lferretgold_file -lferretgold -Wl,-rpath,"$prefix/lib"
    tries_with cargo "Rust, by Cargo, files" by_cargo --features file
else
    echo "install: SKIPPED: files: there is no xxhash.h"
    skipped=$((skipped + 2))
fi
if echo '#include "ferretgold_rocksdb.hpp"' | c++ -std=c++17 -E -Iinclude -x c++ - > "$nothing" 2>&1; then
    tries "C++, RocksDB" is_block_cache
else
    echo "install: SKIPPED: RocksDB: there is no 7.8 of it: tests/needs.sh installs it"
    skipped=$((skipped + 1))
fi
tries_with python3 "the shared library's functions" python3 tests/install/shared.py "$prefix"
tries "make dist, twice" is_packed_alike
tries "the archive" is_unpacked
tries_with pkg-config "C, by the archive" by_pkg_config "$folder/unpacked"
tries "C, loaded late" loads_late cc
tries_with musl-gcc "C, loaded late by musl" loads_late musl-gcc
counted "install: $skipped skipped"

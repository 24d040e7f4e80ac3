#!/usr/bin/env bash
# Tests caches that go to files and come from them, of bytes and of objects: rows, damage, what fails,
# mutated files, which entries come in, and in how much memory, programs that are killed while they dump;
# from C++ and from Rust, also where streams fail and functions throw or panic; C and C++ also under
# AddressSanitizer and UndefinedBehaviorSanitizer; and a script that reads and writes the format by its
# description alone. It wants crates/hcc_c/out/libhcc_c.a, as `rt lib` in crates/hcc_c makes it, and skips
# where there is no xxhash.h.
# Usage: tests/c/file.sh [FILES [ENTRIES]]
#            mutated files in each program, 100,000 by default, and entries of one file, 10,000,000
set -u
cd "$(dirname "$0")/../.." || exit 2
. tests/shared.sh
wants_library file

files=${1:-100000}
many=${2:-10000000}
program=("$folder/file")
wrap=-Wl,--wrap=malloc,--wrap=realloc,--wrap=aligned_alloc,--wrap=free,--wrap=getrandom

# Builds a library of its own, with sanitizers if they are named: library SANITIZERS
library() {
    make -s -C src OUT="$folder/lib" SANITIZE="$1" "$folder"/lib/libferretgold{,_file}.a
}

# Builds a program with it: builds NAME WORD..
builds() {
    "${@:2}" -O2 -g -Wall -Wextra -Wpedantic -Werror "${checks[@]}" -Iinclude -pthread \
        "$folder"/lib/libferretgold{_file,}.a -o "$folder/$1"
}

# The script reads what the library wrote, so many entries, and the library loads what the script wrote,
# but of no later version: is_as_described PROGRAM ENTRIES VERSION
is_as_described() {
    "$1" save "$folder/saved" && tests/c/file_format.py read "$folder/saved" > "$folder/read" || return
    [[ $(wc -l < "$folder/read") == "$2" ]] && tests/c/file_format.py write "$folder/written" "$3" < "$folder/read" || return
    cmp "$folder/saved" "$folder/written" && "$1" load "$folder/written" | sort > "$folder/loaded" || return
    sort "$folder/read" | cmp - "$folder/loaded" || return
    tests/c/file_format.py write "$folder/newer" 3 < "$folder/read" && [[ $("$1" load "$folder/newer") == "refused: 5" ]]
}

in_cpp() {
    counts_heap "$@" \
        && builds in_cpp c++ -std=c++17 "$@" tests/c/file.cpp "$folder/heap.o" "$wrap" && "$folder/in_cpp" "$folder/streamed"
}

# The crate with its feature; what memory it leaves AddressSanitizer says, where the C compiler has
# it.
in_rust() {
    local words=(--edition 2021 -O -D warnings) sanitizer
    rustc "${words[@]}" --cfg 'feature="file"' --crate-type rlib --crate-name ferretgold rust/src/lib.rs \
        --out-dir "$folder" || return
    rustc "${words[@]}" --test rust/tests/file.rs --extern "ferretgold=$folder/libferretgold.rlib" \
        -C "link-args=$folder/lib/libferretgold_file.a $folder/lib/libferretgold.a" -o "$folder/in_rust" || return
    sanitizer=$(readlink -f "$(cc -print-file-name=libasan.so)")
    "$folder/in_rust" && { [[ ! -f $sanitizer ]] || LD_PRELOAD=$sanitizer "$folder/in_rust"; }
}

# All of it, with sanitizers if they are named.
tries_all() {
    local entries=$((${#1} > 0 ? many / 10 : many))
    checks=(${1:+-fsanitize="$1" -fno-sanitize-recover=all})
    tries "the library, $1" library "$1"
    tries "building, $1" builds file cc -std=c11 tests/c/file.c tests/c/heap.c "$wrap"
    tries "building for objects, $1" builds objects cc -std=c11 tests/c/object_file.c tests/c/heap.c "$wrap"
    tries "building for what is chosen, $1" builds chosen cc -std=c11 tests/c/chosen.c tests/c/heap.c "$wrap"
    tries "rows, $1" "${program[@]}" rows
    tries "rows of what is chosen, $1" "$folder/chosen" rows
    tries "many entries into few slots, $1" "$folder/chosen" many "$entries"
    tries "rows of objects, $1" "$folder/objects" rows
    tries "building for pieces, $1" builds pieces cc -std=c11 tests/c/pieces.c tests/c/heap.c "$wrap"
    tries "pieces of objects, $1" "$folder/pieces"
    tries "building for dumps of bytes, $1" builds dump cc -std=c11 tests/c/dump.c tests/c/heap.c "$wrap"
    tries "rows of dumps of bytes, $1" "$folder/dump" rows
    tries "building for dumps, $1" builds dumps cc -std=c11 tests/c/object_dump.c
    tries "rows of dumps, $1" "$folder/dumps" rows
    tries "programs that are killed, $1" "$folder/dumps" killed 100
    tries "mutated files, $1" "${program[@]}" fuzz "$files" 1
    tries "the format, $1" is_as_described "${program[@]}" 19 1
    tries "the format of objects, $1" is_as_described "$folder/objects" 11 2
    tries "C++, $1" in_cpp
    tries "C++ without exceptions, $1" in_cpp -fno-exceptions -fno-rtti
    [[ $1 ]] || tries "Rust" in_rust
    rm -rf "$folder/lib"
}

has_xxhash file || exit 0
tries_all ""
sanitizes file cc && tries_all address,undefined
counted file

#!/usr/bin/env bash
# Builds the library and the examples for C, C++ and Rust, and runs them: the misuses that the
# header names among them, C with each request for memory refused; plays traces of calls through the
# headers; lets threads borrow clients, read values that others replace, find what they know to be there,
# and hand objects back, by the proved calls, by the header for objects and by the Rust crate; and all of it
# again with the C file under AddressSanitizer and UndefinedBehaviorSanitizer, the threads under
# ThreadSanitizer. It wants crates/hcc_c/out/libhcc_c.a, as `rt lib` in crates/hcc_c makes it, and fails
# where a compiler is missing.
# Usage: tests/c/run.sh [READS]     of values that others replace: 4,000,000 by default
set -u
cd "$(dirname "$0")/../.." || exit 2
. tests/shared.sh
wants_library c

# Builds and runs some examples, which have to print this: prints TEXT TARGET WORD..
prints() {
    make -s -C examples "${@:3}" BUILD="$folder/$((passed + failed))" "$2" > "$folder/printed" 2>&1
    local ended=$?
    cat "$folder/printed"
    [[ $ended == 0 && $(cat "$folder/printed") == "$1" ]]
}

# Builds a program of tests/c with the library: builds WORD..
builds() {
    "$@" -g -Wall -Wextra -Wpedantic -Werror -Iinclude -pthread -o "$folder/built"
}

# The same, with what the library allocates counted: builds_counting LIBRARY WORD..
builds_counting() {
    counts_heap "$@" && builds "${@:2}" "$folder/heap.o" "$1" "$wrap"
}

# What the example for Prometheus prints is what this reads, of 400 calls of ferretgold_get.
is_measured() {
    make -s -C examples BUILD="$folder/plain" c && "$folder/plain/metrics" > "$folder/metrics" \
        && tests/c/metrics.py 400 < "$folder/metrics"
}

# Plays traces of calls through a header: plays LIBRARY WORD..
plays() {
    builds_counting "$@" && "$folder/built" tests/program/calls tests/c/calls
}

# Has threads borrow clients: lends CLIENTS TIMES LIBRARY WORD..
lends() {
    builds cc -std=c11 "${@:4}" tests/c/pool.c "$3" && "$folder/built" "$1" "$2"
}

# Has threads read values that others replace: reads TIMES LIBRARY WORD..
reads() {
    builds cc -std=c11 "${@:3}" tests/c/readers.c "$2" && "$folder/built" "$1"
}

# Has threads look up what they know to be there or gone: knows OPERATIONS WORD..
knows() {
    builds cc -std=c11 tests/c/promises.c "${@:2}" && "$folder/built" "$1"
}

# The same where a sanitizer sees the steps of a cache of objects.
knows_stepwise() {
    knows "$@" -lstdc++
}

# Has two threads read what the calls of others come to: counts CALLS LIBRARY WORD..
counts() {
    builds cc -std=c11 "${@:3}" tests/c/counts.c "$2" && "$folder/built" "$1"
}

# The same of a cache of objects: counts_of_objects CALLS WORD..
counts_of_objects() {
    builds cc -std=c11 tests/c/object_counts.c "${@:2}" -lstdc++ && "$folder/built" "$1"
}

# Has threads hand objects back: hands OBJECTS LIBRARY WORD..
hands() {
    builds_counting "$2" cc -std=c11 "${@:3}" tests/c/objects.c && "$folder/built" "$1"
}

of_objects=(tests/c/object{,_bytes,_opening,_order,_seeds,_threads,_uses,_walk}.c)

# Makes the calls of ferretgold_object.h, so many by threads: objects OPERATIONS LIBRARY WORD..
objects() {
    builds_counting "$2" cc -std=c11 "${@:3}" "${of_objects[@]}" && "$folder/built" "$1"
}

# The calls of threads alone: objects_of_threads OPERATIONS WORD..
objects_of_threads() {
    builds_counting -lstdc++ cc -std=c11 "${of_objects[@]}" "${@:2}" && "$folder/built" threads "$1"
}

# The same of its wrapper for C++: wraps OPERATIONS LIBRARY WORD..
wraps() {
    builds_counting "$2" c++ -std=c++17 "${@:3}" tests/c/object{,_uses}.cpp && "$folder/built" "$1"
}

# The calls of threads alone: wraps_threads OPERATIONS WORD..
wraps_threads() {
    builds_counting -lstdc++ c++ -std=c++17 tests/c/object{,_uses}.cpp "${@:2}" && "$folder/built" threads "$1"
}

# Lets a cache, its clients and handles of C++ go on other threads: shares ROUNDS LIBRARY WORD..
shares() {
    builds c++ -std=c++17 "${@:3}" tests/c/shared.cpp "$2" && "$folder/built" "$1"
}

# The header for objects is one of C99 and of C++11, too: is_plain WORD..
is_plain() {
    echo '#include "ferretgold_object.h"' | "$@" -Wall -Wextra -Wpedantic -Werror -Iinclude -fsyntax-only -
}

# The checking library sees no two threads in one client, and ends a program that inserts an object which
# is to stand once, and does: owns KIND WORD..
owns() {
    "${@:2}" 1000000 src/out/libferretgold_check.a -O2 -DFERRETGOLD_CHECK \
        && ! "$folder/built" owned > "$folder/met" 2>&1 \
        && grep -qE "^ferretgold: object 0x[0-9a-f]+ of kind $1 stands in the cache already: ferretgold_object_insert$" \
            "$folder/met" && [[ $(wc -l < "$folder/met") == 1 ]]
}

# The crate's tests of objects and of seeds, these also where no seed can be drawn: objects_in_rust LIBRARY WORD..
objects_in_rust() {
    local name words=(--edition 2021 -O -D warnings) sanitizer=
    [[ $# == 1 ]] || sanitizer=$(readlink -f "$(cc -print-file-name=libasan.so)")
    rustc "${words[@]}" --crate-type rlib --crate-name ferretgold rust/src/lib.rs --out-dir "$folder" || return
    for name in objects loads panics uses configs seeds; do
        rustc "${words[@]}" --test "rust/tests/$name.rs" --extern "ferretgold=$folder/libferretgold.rlib" \
            -C link-arg="$1" "${@:2}" -o "$folder/built" && LD_PRELOAD=$sanitizer "$folder/built" || return
    done
    cc -shared -fPIC tests/c/no_seeds.c -o "$folder/no_seeds.so" \
        && NO_SEEDS=1 LD_PRELOAD=$sanitizer:$folder/no_seeds.so "$folder/built"
}

# A shard of the most slots with the most room, filled up.
is_filled() {
    builds_counting "$library" cc -std=c11 -O2 tests/c/most.c && "$folder/built"
}

# Builds a program and runs it: runs WORD..
runs() {
    builds "$@" && "$folder/built"
}

# The checking library ends a program in which two calls or two threads meet in one client, and says
# where. One whose calls are inline doesn't link with it.
meets() {
    local words=(-std=c11 -O2 -Iinclude tests/c/two_in_one.c src/out/libferretgold_check.a -pthread -o "$folder/meets")
    cc -std=c11 -O2 -DFERRETGOLD_CHECK -Iinclude tests/c/entered.c src/out/libferretgold_check.a -Wl,--wrap=malloc \
        -o "$folder/meets" \
        && ! "$folder/meets" > "$folder/met" 2>&1 \
        && [[ $(cat "$folder/met") == "$met" ]] || return
    ! cc "${words[@]}" > "$folder/met" 2>&1 && grep -q 'undefined.*ferretgold_raw_get' "$folder/met" || return
    cc -DFERRETGOLD_CHECK "${words[@]}" && is_ended "$folder/meets"
}

# A program in which two threads meet ends by the one line that says where.
is_ended() {
    ! "$@" > "$folder/met" 2>&1 \
        && grep -qE '^ferretgold: two threads use client 0 at once: [a-z_ ]+ and [a-z_ ]+$' "$folder/met" \
        && [[ $(wc -l < "$folder/met") == 1 ]]
}

# Both libraries have each function of the headers as a symbol, for a binding of another language.
exports() {
    local library
    sed 's/^ \*.*//; /^typedef/d' include/ferretgold.h include/ferretgold_object.h | grep -oE '\bferretgold_[a-z_]+\(' \
        | tr -d '(' | sort -u > "$folder/declared"
    for library in src/out/libferretgold{,_check}.a; do
        nm -g --defined-only "$library" | sed -n 's/.* T //p' | sort > "$folder/defined"
        [[ -s $folder/declared && -z $(comm -23 "$folder/declared" "$folder/defined") ]] || return
    done
}

# The guide's table of budgets is as the library has it.
is_in_guide() {
    local row
    builds cc -std=c11 tests/c/budget_rows.c "$library" && "$folder/built" > "$folder/rows" || return
    [[ $(wc -l < "$folder/rows") == 4 ]] || return
    while read -r row; do
        grep -qxF "$row" docs/GUIDE.md || { echo "the guide has no row $row"; return 1; }
    done < "$folder/rows"
}

# The headers as those of another version, by one of its numbers: of_version NUMBER
of_version() {
    rm -rf "$folder/include" && cp -r include "$folder/include" \
        && sed -i -E "s/^(#define FERRETGOLD_VERSION_$1) .*/\1 7/" "$folder/include/ferretgold.h"
}

# Links a program, and passes where a function isn't there for it: lacks_function NAME WORD..
lacks_function() {
    ! "${@:2}" -o "$folder/linked" > "$folder/said" 2>&1 && grep -qE "undefined (reference to .|symbol: )$1\b" "$folder/said"
}

# A program that was compiled with the header of another MAJOR or MINOR doesn't link, nor does one of which
# a part was that only makes inline calls: is_tied WORD..
is_tied() {
    local numbers it
    echo '#include "ferretgold.h"
        int held(ferretgold_client *it, ferretgold_handle handle) { return ferretgold_reref(it, handle, &handle); }' \
        > "$folder/inline.c"
    echo '#include "ferretgold_object.h"
        int main(void) { return ferretgold_object_open(0, ferretgold_object_free_bytes, 0, 0); }' > "$folder/opens.c"
    for it in MAJOR MINOR; do
        numbers=$([[ $it == MAJOR ]] && echo 7_1 || echo 0_7)
        of_version $it || return
        lacks_function "ferretgold_open_$numbers" \
            cc -std=c11 "$@" -I"$folder/include" examples/c/two_threads.c "$library" -pthread || return
        lacks_function "ferretgold_object_open_$numbers" \
            c++ -std=c++11 "$@" -I"$folder/include" -x c++ "$folder/opens.c" -x none "$library" -pthread || return
        cc -std=c11 -O2 -I"$folder/include" -c "$folder/inline.c" -o "$folder/inline.o" || return
        lacks_function "ferretgold_idle_$numbers" \
            cc -std=c11 -Iinclude examples/c/two_threads.c "$folder/inline.o" "$library" -pthread || return
    done
    of_version PATCH && cc -std=c11 "$@" -I"$folder/include" examples/c/two_threads.c "$library" -pthread \
        -o "$folder/linked" && "$folder/linked"
}

# Nor does one with the crate of another.
is_tied_in_rust() {
    cp -r rust/src "$folder/crate" && sed -i 's/_0_1"\]/_0_7"]/' "$folder/crate/raw.rs" \
        && rustc --edition 2021 --crate-type rlib --crate-name ferretgold "$folder/crate/lib.rs" --out-dir "$folder" \
        && lacks_function ferretgold_object_open_0_7 rustc --edition 2021 rust/examples/objects.rs \
            --extern "ferretgold=$folder/libferretgold.rlib" -C link-arg="$library" \
        && lacks_function ferretgold_open_0_7 rustc --edition 2021 rust/examples/threads.rs \
            --extern "ferretgold=$folder/libferretgold.rlib" -C link-arg="$library"
}

# Fails for a compiler that isn't there.
lacks() {
    echo "failed: no $1: tests/needs.sh installs it"
    failed=$((failed + 1))
}

# Refuses each memory request of the C example in turn, alone and with all later ones: it tells that
# an allocation failed, or passes where it does without.
bears_refusals() {
    local number rest ended told=0
    cc -shared -fPIC -O1 -o "$folder/refuse.so" tests/memory/refuse.c -ldl || return 1
    make -s -C examples BUILD="$folder/plain" c || return 1
    for ((number = 1; number <= 60; number++)); do
        for rest in "" 1; do
            timeout 60 env ${rest:+REST=1} REFUSE="$number" LD_PRELOAD="$folder/refuse.so" \
                "$folder/plain/two_threads" > /dev/null 2> "$folder/err"
            ended=$?
            if [[ $ended == 1 && $(cat "$folder/err") == *": an allocation failed" ]]; then
                told=$((told + 1))
            elif [[ $ended != 0 ]]; then
                echo "request $number${rest:+ and the rest}: status $ended, $(cat "$folder/err")"
                return 1
            fi
        done
    done
    [[ $told -gt 20 ]]
}

in_c='placed, erased 1, reads as: pinned
2000 reads, at least half of them hits: yes
all blocks are left, and the books agree with the slots: yes
misuse: 0 answers are wrong'
in_cpp='each block is right: yes
1306 reads, 1306 counted, more hits than misses: yes
within the capacity: yes'
sanitize=(-fsanitize=address,undefined -fno-sanitize-recover=all)
in_rust='40000 squares are right, and the books agree with the slots
40000 blocks are right'

wrap=-Wl,--wrap=malloc,--wrap=realloc,--wrap=aligned_alloc,--wrap=free,--wrap=getrandom
library=src/out/libferretgold.a
traces=(tests/c/{play,edges,order,counted,seeds,budgets,closed,image,walk}.c)
met='ferretgold: two threads use client 0 at once: ferretgold_usage and ferretgold_insert_pinned'

if command -v cc > /dev/null; then
    make -s -C src || exit 1
    tries "C" prints "$in_c" run-c
    tries "C, as make -C examples CFLAGS=-O1 compiles it" prints "$in_c" run-c CFLAGS=-O1
    tries "counts for Prometheus" is_measured
    tries "traces in C" plays "$library" cc -std=c11 -O2 "${traces[@]}"
    tries "traces in C, no call inline" plays "$library" cc -std=c11 -O0 "${traces[@]}"
    tries "traces in C, checked" plays src/out/libferretgold_check.a \
        cc -std=c11 -O2 -DFERRETGOLD_CHECK "${traces[@]}"
    for clients in 3 70; do
        tries "threads borrow $clients clients" lends $clients 10000000 "$library" -O2
    done
    tries "threads read what others replace" reads "${1:-4000000}" "$library" -O2
    tries "threads find what is there" knows 1000000 -O2 "$library"
    tries "counts of clients at work" counts 10000000 "$library" -O2
    tries "counts of a cache of objects" counts_of_objects 2000000 -O2 "$library"
    tries "threads hand objects back" hands 15000000 "$library" -O2
    tries "the header for objects" objects 1000000 "$library" -O2
    tries "the header for objects, checked" owns 3 objects
    tries "the header for objects in C99" is_plain cc -std=c99 -x c
    tries "two threads in one client, checked" meets
    tries "the largest shard" is_filled
    tries "each function of the header is a symbol of the library" exports
    tries "the guide's table of budgets" is_in_guide
    tries "headers of another version, no call inline" is_tied -O0
    tries "headers of another version" is_tied -O2
    tries "C with memory refused" bears_refusals
    if sanitizes c cc; then
        make -s -C src OUT="$folder/sanitized" SANITIZE=address,undefined || exit 1
        make -s -C src OUT="$folder/threads" SANITIZE=thread || exit 1
        library=$folder/sanitized/libferretgold.a
        tries "C, sanitized" prints "$in_c" run-c SANITIZE=address,undefined LIBRARY="$library"
        tries "traces in C, sanitized" plays "$library" cc -std=c11 "${sanitize[@]}" "${traces[@]}"
        tries "threads find what is there, sanitized" knows 400000 -O1 "${sanitize[@]}" "$library"
        tries "threads find what is there, each step sanitized" sees_steps_of knows_stepwise 200000
        tries "threads hand objects back, sanitized" hands 400000 "$library" -O1 "${sanitize[@]}"
        tries "the header for objects, sanitized" objects 400000 "$library" -O1 "${sanitize[@]}"
        tries "the header for objects, threads sanitized" sees_steps_of objects_of_threads 1000000
        tries "counts of clients at work, threads sanitized" counts 1000000 \
            "$folder/threads/libferretgold.a" -O1 -fsanitize=thread
        tries "counts of a cache of objects, threads sanitized" sees_steps_of counts_of_objects 300000
        for clients in 3 70; do
            tries "threads borrow $clients clients, sanitized" lends $clients 400000 \
                "$folder/threads/libferretgold.a" -O1 -fsanitize=thread
        done
    fi
else
    lacks "C compiler"
fi
if command -v c++ > /dev/null; then
    traces=(c++ -std=c++17 tests/c/play.cpp tests/c/closed.cpp)
    bare=(c++ -std=c++17 -fno-exceptions -fno-rtti tests/c/without_exceptions.cpp)
    tries "C++" prints "$in_cpp" run-cpp CXX=c++
    tries "traces in C++" plays src/out/libferretgold.a "${traces[@]}" -O2
    tries "C++ without exceptions" runs "${bare[@]}" src/out/libferretgold.a
    tries "the header for objects in C++11" is_plain c++ -std=c++11 -x c++
    tries "objects in C++" wraps 1000000 src/out/libferretgold.a -O2
    tries "caches that go on other threads in C++" shares 5000 src/out/libferretgold.a -O2
    tries "objects in C++, checked" owns 0 wraps
    tries "objects in C++ without exceptions" wraps 100000 src/out/libferretgold.a -O1 -fno-exceptions -fno-rtti
    if sanitizes c c++; then
        tries "C++, sanitized" prints "$in_cpp" run-cpp CXX=c++ SANITIZE=address,undefined \
            LIBRARY="$library"
        tries "traces in C++, sanitized" plays "$library" "${traces[@]}" "${sanitize[@]}"
        tries "C++ without exceptions, sanitized" runs "${bare[@]}" "${sanitize[@]}" "$library"
        tries "objects in C++, sanitized" wraps 400000 "$library" -O1 "${sanitize[@]}"
        tries "objects in C++, threads sanitized" sees_steps_of wraps_threads 300000
        tries "caches that go on other threads in C++, sanitized" shares 1000 "$library" -O1 "${sanitize[@]}"
        tries "caches that go on other threads in C++, threads sanitized" shares 1000 \
            "$folder/threads/libferretgold.a" -O1 -fsanitize=thread
    fi
else
    lacks "C++ compiler"
fi
if command -v rustc > /dev/null; then
    tries "Rust" prints "$in_rust" run-rust
    tries "objects in Rust" objects_in_rust src/out/libferretgold.a
    library=src/out/libferretgold.a tries "the crate of another version" is_tied_in_rust
    tries "what must not compile" tests/c/must_fail.py
    tries "objects in Rust, checked" objects_in_rust src/out/libferretgold_check.a
    if sanitizes c cc; then
        tries "objects in Rust, sanitized" objects_in_rust "$library" -C link-args="-lasan -lubsan"
    fi
else
    lacks "Rust compiler"
fi
counted c

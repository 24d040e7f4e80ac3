#!/usr/bin/env bash
# Proves and builds the library for aarch64, and runs it on that processor as qemu shows it: the
# examples in C, the traces of calls, threads that borrow clients, and what the checking library
# ends. It wants what `rt ci` or `rt lib` in crates/hcc_c proved. Without a compiler for that
# processor or qemu, which tests/needs.sh installs where it may, it says that it skipped.
# Usage: tests/c/arm.sh [--built]   with --built the library is taken as it stands
set -u
cd "$(dirname "$0")/../.." || exit 2
target=aarch64-unknown-linux-gnu
compiler=aarch64-linux-gnu-gcc
emulator=(qemu-aarch64 -L /usr/aarch64-linux-gnu)
wrap=-Wl,--wrap=malloc,--wrap=realloc,--wrap=aligned_alloc,--wrap=free,--wrap=getrandom
. tests/shared.sh

# Whether programs can be built and run.
can_run() {
    echo 'int main(void) { return 0; }' > "$folder/none.c"
    $compiler "$folder/none.c" -o "$folder/none" && "${emulator[@]}" "$folder/none"
}

# Builds a program: builds WORD..
builds() {
    $compiler -std=c11 -O2 -Wall -Wextra -Wpedantic -Werror -Iinclude -pthread "$@" -o "$folder/built"
}

# Runs it, in so much memory at most as qemu itself is held to: a limit that a program sets itself
# it ignores.
runs() {
    (ulimit -v 8000000; timeout 600 "${emulator[@]}" "$folder/built" "$@")
}

# Builds an example and runs it, which has to print this: prints TEXT FILE
prints() {
    builds "$2" $out/libferretgold.a && runs > "$folder/printed" 2>&1 && cat "$folder/printed" \
        && [[ $(cat "$folder/printed") == "$1" ]]
}

# Plays traces of calls: plays LIBRARY WORD..
plays() {
    builds tests/c/{play,edges,order,counted,seeds,budgets,closed,image,walk,heap}.c "$out/$1" "${@:2}" $wrap \
        && runs tests/program/calls tests/c/calls
}

lends() {
    builds tests/c/pool.c $out/libferretgold.a && runs "$1" 400000
}

# Makes the calls of ferretgold_object.h.
objects() {
    builds tests/c/{object,object_bytes,object_opening,object_order,object_seeds,object_threads,object_uses,object_walk,heap}.c $out/libferretgold.a $wrap \
        && runs 100000
}

# The checking library ends a program in which two calls meet in one client.
meets() {
    $compiler -std=c11 -DFERRETGOLD_CHECK -Iinclude tests/c/entered.c "$out/libferretgold_check.a" -Wl,--wrap=malloc \
        -o "$folder/meets" && ! "${emulator[@]}" "$folder/meets" > "$folder/met" 2>&1 \
        && grep -xF 'ferretgold: two threads use client 0 at once: ferretgold_usage and ferretgold_insert_pinned' \
            "$folder/met"
}

if ! can_run 2> /dev/null; then
    echo "arm: SKIPPED: no aarch64 compiler or no qemu, and tests/needs.sh could install none"
    exit 0
fi
[[ ${1-} == --built ]] || tests/c/library.sh $target || exit 1
out=src/out/$target
make -s -C src TARGET=$target || exit 1

tries "two threads" prints 'placed, erased 1, reads as: pinned
2000 reads, at least half of them hits: yes
all blocks are left, and the books agree with the slots: yes' examples/c/two_threads.c
tries "misuse" prints 'misuse: 0 answers are wrong' examples/c/misuse.c
tries "traces" plays libferretgold.a
tries "traces, checked" plays libferretgold_check.a -DFERRETGOLD_CHECK
for clients in 3 70; do
    tries "threads borrow $clients clients" lends $clients
done
tries "the header for objects" objects
tries "two calls in one client, checked" meets
counted arm

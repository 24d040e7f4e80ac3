#!/usr/bin/env bash
# Installs what the tests want beside the kit, as Debian's packages, or names what is missing and
# fails. Some may be missing: then it says what will be skipped.
# Usage: tests/needs.sh
set -u

# Prints those of these that aren't there: commands, and files by their paths.
lacking() {
    local it
    for it in "$@"; do
        [[ $it == /* && -e $it ]] || command -v "$it" > /dev/null || echo "$it"
    done
}

# Installs packages, where that can be: install PACKAGE..
install() {
    [[ $(id -u) == 0 ]] && command -v apt-get > /dev/null || return 1
    echo "needs: installing $*"
    for _ in 1 2 3; do
        apt-get -qq update && DEBIAN_FRONTEND=noninteractive apt-get -qq -y install "$@" && return
        sleep 5
    done > /dev/null 2>&1
    return 1
}

# What may be missing: may WHAT-IS-SKIPPED PACKAGES THING..
may() {
    local skipped=$1 packages
    read -ra packages <<< "$2"
    [[ -z $(lacking "${@:3}") ]] || install "${packages[@]}" || echo "needs: no ${*:3}: $skipped"
}

must=(cc c++ make rustc /usr/include/leveldb/db.h)
packages=(gcc g++ make rustc libleveldb-dev)
[[ -z $(lacking "${must[@]}") ]] || install "${packages[@]}"
may "tests/page/replay.py will be skipped" "--no-install-recommends chromium" chromium
may "parts of tests/engines.sh and engines_own.sh will be skipped" librocksdb-dev \
    /usr/include/rocksdb/version.h
may "tests/engines_own.sh will be skipped" \
    "libgtest-dev libgmock-dev libbenchmark-dev libsnappy-dev curl" /usr/include/gtest/gtest.h \
    /usr/include/gmock/gmock.h /usr/include/benchmark/benchmark.h /usr/include/snappy.h curl
may "tests/c/file.sh will be skipped, and parts of other scripts" libxxhash-dev /usr/include/xxhash.h
may "tests/c/arm.sh will be skipped" \
    "--no-install-recommends qemu-user gcc-aarch64-linux-gnu libc6-dev-arm64-cross" \
    aarch64-linux-gnu-gcc qemu-aarch64
may "parts of tests/install/run.sh will be skipped" "--no-install-recommends cmake pkg-config musl-tools" \
    cmake pkg-config musl-gcc
mapfile -t missing < <(lacking "${must[@]}")
[[ ${#missing[@]} == 0 ]] && exit
echo "needs: missing: ${missing[*]}: apt-get install ${packages[*]}"
exit 1

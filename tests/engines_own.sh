#!/usr/bin/env bash
# Runs engines' own tests over the headers that are caches of theirs: tests/engines/ENGINE.sh of
# each engine, or of one. They download the engine's source.
# Usage: tests/engines_own.sh [ENGINE [TEST..]]
cd "$(dirname "$0")/.." || exit 2
[[ $# == 0 ]] || exec "tests/engines/$1.sh" "${@:2}"
failed=0
for it in leveldb rocksdb; do
    "tests/engines/$it.sh" || failed=1
done
exit $failed

#!/usr/bin/env bash
# The gate for those who work, in minutes: proves crates over what earlier checks kept, tries their
# edits, and runs their tests, their own or those of the first crate of tests above them. It says
# nothing of the other crates above, of programs, nor of what is proved from nothing: .ci/run does.
# Usage: tests/quick.sh [CRATE..]   with none, the crates that differ from the last commit
set -u
cd "$(dirname "$0")/.." || exit 2

crates=("$@")
if [[ ${#crates[@]} == 0 ]]; then
    mapfile -t crates < <(git status --porcelain -- crates | sed -nE 's|^...crates/([^/]+)/.*|\1|p' | sort -u)
fi
[[ ${#crates[@]} == 0 ]] && { echo "quick: nothing differs from the last commit"; exit 0; }

failed=0
# Runs a command in a crate's folder, and shows its last line, or all of it where it fails.
try() {
    local said
    if said=$(cd "crates/$1" && "${@:2}" 2>&1); then
        echo "$*: $(tail -n 1 <<< "$said" | cut -c 1-80)"
    else
        printf '%s\n%s failed\n' "$said" "$*"
        failed=$((failed + 1))
    fi
}

for crate in "${crates[@]}"; do
    try "$crate" rt check
done
[[ $failed == 0 ]] && { tests/edits/try.py "${crates[@]}" || failed=1; }
# The crates that have a crate's tests.
tested() {
    for crate in "${crates[@]}"; do
        grep -rqs '#\[test\]' "crates/$crate/src" && echo "$crate" && continue
        sed -nE "s/^(\w+_tests)[^:]*:.* $crate( .*)?$/\1/p" crates.txt | head -n 1
    done | sort -u
}

for crate in $(tested); do
    try "$crate" rt test
done
echo "quick: $failed failed"
[[ $failed == 0 ]]

#!/usr/bin/env bash
# Refuses each memory request of the built program, or of a crate's tests, in turn, alone and with
# all later ones, until nothing is left to refuse; of a test, past the first hundred every second
# one, past the next every third, and so on. The program then ends with status 5 and its text, and
# what it wrote is a front of the output; a test tells that memory was refused. Where less memory
# does too, all of the output is there, and the test passes. Any other answer fails, as that of a
# test that is stopped by an assertion because a world changed; and so it does where too little was
# refused. It wants a C compiler, and the tests as `rt ci` or `rt test` builds them.
# Usage: tests/memory/run.sh [CRATE]    with none, the program
set -u
cd "$(dirname "$0")/../.." || exit 2
. tests/shared.sh
wants memory cc
cc -shared -fPIC -O1 -o "$folder/refuse.so" tests/memory/refuse.c -ldl || exit 2
: > "$folder/input"
crate=${1-}
refusals=0

# What a refusal may come to, of the program and of a test: whether all was done, or it was told.
if [[ -z $crate ]]; then
    wants_program
    is_done() { [[ $1 == 0 && ! -s $folder/err ]] && cmp -s "$folder/want" "$folder/out"; }
    is_told() {
        [[ $1 == 5 ]] && said "out of memory" \
            && cmp -s "$folder/out" <(head -c "$(stat -c %s "$folder/out")" "$folder/want")
    }
else
    wants_program "crates/$crate/out/${crate}_tests"
    is_done() { [[ $1 == 0 && $(tail -n 1 "$folder/out") == "test result: ok" ]]; }
    is_told() {
        [[ $1 == 101 && $(head -n 1 "$folder/err") =~ ^[Ee]rror:\ (AllocError|OutOfMemory)$ ]]
    }
fi

# Runs the program with requests refused from this number on: alone, or with the rest. It fails
# where all was done: try NUMBER REST WORD..
try() {
    local number=$1 rest=$2 ended
    shift 2
    timeout 60 env ${rest:+REST=1} REFUSE="$number" LD_PRELOAD="$folder/refuse.so" "$program" "$@" \
        < "$folder/input" > "$folder/out" 2> "$folder/err"
    ended=$?
    is_done $ended && return 1
    is_told $ended && refusals=$((refusals + 1)) && return
    echo "failed: $*, request $number$rest, status $ended: $(head -n 1 "$folder/err")"
    failed=$((failed + 1))
}

# Refuses each request, or past so many some: all MOST MANY WORD..
all() {
    local most=$1 many=$2 number
    shift 2
    for ((number = 1; number <= most; number += 1 + number / many)); do
        try "$number" "" "$@"
        try "$number" " and the rest" "$@" || return
    done
    echo "failed: $* ended at request $number"
    failed=$((failed + 1))
}

# Refuses each request of the program on a file: plays INPUT OUTPUT WORD..
plays() {
    cp "$1" "$folder/input"
    cp "$2" "$folder/want"
    all 1000 1001 "${@:3}"
}

if [[ $crate ]]; then
    least=1
    for test in $("$program" --list | sed -n 's/: test$//p'); do
        all 10000 100 "$test"
    done
else
    least=121
    for script in examples/*.script; do
        plays "$script" "${script%.script}.out" core
    done
    for trace in examples/*.trace; do
        read -ra options < "${trace%.trace}.options"
        plays "$trace" "${trace%.trace}.answers" run "${options[@]}"
    done
    # One client of two has all lines, so that the whole report is known.
    seq -f "1 0 %g" 0 3 > "$folder/trace"
    printf 'twenty-four bytes in all' > "$folder/file"
    none='{"blocks":0,"faults":0,"hits":0,"misses":0,"missing":0,"sum":0}'
    two='{"blocks":2,"faults":0,"hits":0,"misses":2,"missing":2,"sum":2347}'
    echo "{\"charges\":24,\"clients\":[$none,$two],\"occupied\":2,\"slots\":2,\"usage\":24}" \
        > "$folder/report"
    plays "$folder/trace" "$folder/report" blocks --clients 2 "$folder/file"
fi
((refusals >= least)) || { echo "failed: too little was refused"; failed=$((failed + 1)); }
echo "memory of ${crate:-the program}: $refusals refusals, $failed failed"
[[ $failed == 0 ]]

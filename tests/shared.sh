# What the scripts of these folders share: sourced at the top of the repository, it gives them a
# folder that goes when they end, counts of what passed and failed, and words for what they need.
folder=$(mktemp -d) || exit 2
trap 'rm -rf "$folder"' EXIT
passed=0
failed=0
nothing=/dev/null
ulimit -c 0

# Ends the script where a command isn't there: wants NAME COMMAND..
wants() {
    local it
    for it in "${@:2}"; do
        command -v "$it" > /dev/null || { echo "$1: no $it: tests/needs.sh installs it"; exit 2; }
    done
}

# Ends it where the library for C isn't there: wants_library NAME
wants_library() {
    [[ -f crates/hcc_c/out/libhcc_c.a ]] && return
    echo "$1: no library: run 'rt lib' in crates/hcc_c"
    exit 2
}

# Ends it where the program isn't there, which `rt ci` builds, and `rt run` in crates/hcc_play:
# wants_program [PROGRAM]
wants_program() {
    program=$(realpath "${1:-crates/hcc_play/out/hcc_play}")
    [[ -x $program ]] || { echo "no program at $program"; exit 2; }
}

# Whether there is xxhash.h, without which no cache is saved; says what is skipped without it.
has_xxhash() {
    echo '#include <xxhash.h>' | cc -E -x c - > /dev/null 2>&1 && return
    echo "$1: SKIPPED: there is no xxhash.h: tests/needs.sh installs it"
    return 1
}

# Whether a compiler sanitizes here; says so where it doesn't: sanitizes NAME COMPILER
sanitizes() {
    echo 'int main(void) { return 0; }' > "$folder/none.c"
    "$2" -x c -fsanitize=address,undefined "$folder/none.c" -o "$folder/none" 2> "$folder/why" \
        && "$folder/none" && return
    echo "$1: $2 has no sanitizers here, so it ran without them"
    return 1
}

# Tries a test of objects so that ThreadSanitizer sees each step: an unproved store stands before the
# library. sees_steps_of TEST OPERATIONS, where TEST takes these and what it is linked with
sees_steps_of() {
    make -s -C src OUT="$folder/threads" SANITIZE=thread "$folder/threads/libferretgold.a" || return
    [[ -f $folder/store.o ]] \
        || c++ -std=c++17 -O1 -g -Wall -Wextra -Wpedantic -Werror -fsanitize=thread -Iinclude \
            -c tests/c/object_store.cpp -o "$folder/store.o" || return
    "$1" "$2" -O1 -fsanitize=thread "$folder/store.o" "$folder/threads/libferretgold.a" -Wl,-z,muldefs
}

# Compiles heap.c for a program that is compiled so: it leaves to AddressSanitizer what that sees.
# counts_heap WORD..
counts_heap() {
    local sanitized=()
    [[ $* == *-fsanitize=address* ]] && sanitized=(-fsanitize=address)
    cc -std=c11 "${sanitized[@]}" -c tests/c/heap.c -o "$folder/heap.o"
}

# Counts a case by how the command before it ended, and ends like it: judge NAME
judge() {
    if [[ $? == 0 ]]; then
        passed=$((passed + 1))
    else
        failed=$((failed + 1))
        echo "failed: $1"
        return 1
    fi
}

# Runs a check, shows what it said where it fails, and ends like it: tries NAME WORD..
tries() {
    "${@:2}" > "$folder/out" 2>&1
    judge "$1" || { head -n 50 "$folder/out"; return 1; }
}

# Runs the program on the file `input`, or on what `from` names, and leaves its output in `out`, or
# in what `to` names. It fails where the status or the text on standard error is another; where
# ERRORS is `*`, any text but none will do: ends STATUS ERRORS WORD..
ends() {
    local status=$1 errors=$2 ended
    shift 2
    timeout 60 "$program" "$@" < "${from:-$folder/input}" > "${to:-$folder/out}" 2> "$folder/err"
    ended=$?
    [[ $ended == "$status" ]] && said "$errors"
}

# Whether this text stands on standard error, or any where it is `*`.
said() {
    if [[ $1 == "*" ]]; then
        [[ -s $folder/err ]]
    else
        [[ $(cat "$folder/err") == "$1" ]]
    fi
}

# Runs the program on the file `input`, and compares what it printed: with this file, or anything
# but nothing where that is `*`: expect NAME STATUS ERRORS FILE WORD..
expect() {
    ends "$2" "$3" "${@:5}" && if [[ $4 == "*" ]]; then
        [[ -s $folder/out ]]
    else
        cmp -s "$4" "$folder/out"
    fi
    judge "$1"
}

# The same for each of these lines of words: expect_each NAME STATUS ERRORS FILE LINE..
expect_each() {
    local line words
    for line in "${@:5}"; do
        read -ra words <<< "$line"
        expect "$1: $line" "${@:2:3}" "${words[@]}"
    done
}

# Options that are refused before anything is read: refuse REFUSAL WORD..
refuse() {
    from=$folder expect "refused: ${*:2}" 4 "refused $1" $nothing "${@:2}"
}

# Texts in which the command `faulty` finds this fault first, and writes nothing: faults FAULT TEXT..
faults() {
    local text
    for text in "${@:2}"; do
        printf '%b' "$text" > "$folder/input"
        expect "a text at fault: $1, $text" 2 "$1" $nothing "${faulty[@]}"
    done
}

# Plays a command whose input is a folder, and the file `input` to a device that is full: devices
# WORD..
devices() {
    from=$folder expect "a folder as input of $1" 3 "read failed" $nothing "$@"
    [[ -c /dev/full ]] || return
    to=/dev/full ends 3 "write failed" "$@"
    judge "$1 on a full device"
}

# The last line of a script, by which it fails where a case did: counted NAME
counted() {
    echo "$1: $passed passed, $failed failed"
    [[ $failed == 0 ]]
}

# What the scripts of engines' own tests share, sourced at the top of the repository. Each says before
# what its engine has: `engine` its name, `headers` and `packages` that it wants, `words` and
# `libraries` to build tests with, and `tests`, files of the source with the number of their tests,
# and behind that other files that those are linked with. The linker puts ENGINE_caches.cpp in place
# of the engine's caches, and that says how many were made.
. tests/shared.sh
wants_library "$engine"
wants "$engine" c++
source=$folder/source
words+=(-std=c++17 -O1 -w -Iinclude -I"$source" -I"$source/include")

# Runs the tests of these names, or all: own_tests [TEST..]
own_tests() {
    local row it
    has_headers && has_source || exit 0
    make -s -C src && mkdir "$folder/objects" || exit 1
    tries "what replaces its caches" \
        c++ "${words[@]}" -c "tests/engines/${engine}_caches.cpp" -o "$folder/objects/caches.o" \
        || exit 1
    for row in "${tests[@]}"; do
        read -ra it -d '' <<< "$row"
        [[ $# == 0 || " $* " == *" ${it##*/} "* ]] || continue
        tries "${it[0]}" passes "${it[@]}" \
            && echo "${it[0]}: ${it[1]} tests, $(grep '^caches' "$folder/${it##*/}.out")"
    done
}

# Whether there is all that the tests are built with.
has_headers() {
    printf '#include <%s>\n' "${headers[@]}" | c++ -Iinclude -E -x c++ - > /dev/null 2>&1 && return
    echo "$engine: SKIPPED: it wants $packages: tests/needs.sh installs them"
    return 1
}

# Whether the engine's source can be had. One of another sum is a failure.
has_source() {
    tests/engines/source.sh "$engine" "$source" > "$folder/out" 2>&1
    local ended=$?
    if [[ $ended == 3 ]]; then
        echo "$engine: SKIPPED: $(tail -n 1 "$folder/out")"
        return 1
    fi
    (exit "$ended")
    judge "its source" || { cat "$folder/out"; exit 1; }
}

# Builds and runs a file of so many tests: passes FILE NUMBER OTHER..
passes() {
    local name=${1##*/} plural=s it objects=("$folder/objects/caches.o")
    [[ $2 == 1 ]] && plural=
    for it in "$1" "${@:3}"; do
        objects+=("$folder/objects/${it##*/}.o")
        [[ -f ${objects[-1]} ]] || c++ "${words[@]}" -c "$source/$it.cc" -o "${objects[-1]}" || return
    done
    c++ "${objects[@]}" "${libraries[@]}" -o "$folder/$name" || return
    rm -rf "$folder/files" && mkdir "$folder/files" || return
    TEST_TMPDIR=$folder/files "$folder/$name" > "$folder/$name.out" 2>&1 \
        && grep -qxF "[  PASSED  ] $2 test$plural." "$folder/$name.out" \
        && grep -qx 'caches: [1-9][0-9]*' "$folder/$name.out" \
        || { grep -v '\[ RUN  \|\[       OK' "$folder/$name.out" | tail -n 50; return 1; }
}

# What .ci/run calls: steps in turn, steps beside others, rt ci with a watch, and the table at the end.
# Sourced at the top of the repository, with the words of .ci/run.
anew=$*
if [[ $anew && $anew != --anew ]]; then
    echo "usage: .ci/run [--anew]"
    exit 2
fi
began=$SECONDS
table=()
failed=()
names=()
processes=()
folder=$(mktemp -d)
watch=
trap 'rm -rf "$folder"; [[ $watch ]] && kill "$watch" 2> /dev/null' EXIT
touch "$folder/log"

# Runs a named step, says how long it took and whether it failed, and fails if it did.
step() {
    local name=$1 from=$SECONDS
    shift
    "$@"
    told "$name" $? $((SECONDS - from))
}

# Notes that a step ended so, after these seconds.
told() {
    local fault=
    if [[ $2 -ne 0 ]]; then
        fault="$1 failed with status $2"
        failed+=("$1")
    fi
    echo "$1: $3 s${fault:+$'\n'$fault}"
    table+=("$(printf '%6d s  %s' "$3" "${fault:-$1}")")
    return "$2"
}

# How many checks go side by side: one a processor, with 4 GB for each, which the largest takes. By
# its own reckoning rt ci wants twice that, and lets processors wait for it. Named so, each has one
# job: the crates that stand on one another are what a run waits for.
lanes() {
    local processors memory
    processors=$(nproc)
    memory=$(awk '/^MemAvailable:/ { print int($2 / 4000000) }' /proc/meminfo)
    echo $((processors < memory ? processors : memory > 1 ? memory : 1))
}

# Edits are tried beside rt ci, which has all lanes, and give way to it: in half of them and one more.
jobs=$(($(lanes) / 2 + 1))

# On a small machine the edits have 165 minutes, and those that began ten minutes before end in time.
small=
if [[ $(nproc) -lt 4 || $(awk '/^MemAvailable:/ { print int($2 / 1000000) }' /proc/meminfo) -lt 16 ]]; then
    small="--until 9300"
fi

# Begins a step that goes on beside others and gives way to them, once rt ci has said these words of a
# crate and the file is there, or it has ended; without words, once the file is there, if one is named.
# The library, for which many wait, gives way to nothing. Its words and its seconds are kept:
# beside NAME WORDS FILE WORD..
beside() {
    names+=("$1")
    began_beside "$@" > "$folder/$1" 2>&1 &
    processes+=($!)
}

began_beside() {
    local name=$1 words=$2 file=$3 from ended
    shift 3
    until can_begin "$words" "$file"; do
        sleep 2
    done
    from=$SECONDS
    nice -n "$([[ $name == library ]] && echo 0 || echo 5)" "$@"
    ended=$?
    echo "$ended $((SECONDS - from))" > "$folder/$name.ended"
}

can_begin() {
    if [[ $1 ]] && grep -q "^rt ci ended" "$folder/log"; then
        return 0
    fi
    [[ -z $1 ]] || grep -qE "^rt: $1" "$folder/log" || return 1
    [[ -z $2 || -e $2 ]]
}

# Waits for the steps that went on beside others, in the order in which they began, and tells of each.
joined() {
    local at ended seconds
    for at in "${!names[@]}"; do
        wait "${processes[at]}"
        read -r ended seconds < "$folder/${names[at]}.ended"
        cat "$folder/${names[at]}"
        told "${names[at]}" "$ended" "$seconds"
    done
}

# rt ci, and a watch that tells what took how long.
gate() {
    tests/edits/watch.py $$ > "$folder/times" &
    watch=$!
    # A kit whose rt ci keeps nothing has no such word.
    rt help 2>&1 | grep -q -e --anew || anew=
    RT_JOBS=${RT_JOBS:-$(lanes)} rt ci $anew 2>&1 | tee "$folder/log"
    local ended=${PIPESTATUS[0]}
    echo "rt ci ended" >> "$folder/log"
    return "$ended"
}

# Says how all ended. What failed says so at the end, too, where a log that is cut off has it.
ended() {
    local name
    kill "$watch" && wait "$watch"
    watch=
    cat "$folder/times"
    for name in "${failed[@]}"; do
        [[ -f $folder/$name ]] && echo "== the end of $name, which failed" && tail -n 30 "$folder/$name"
    done
    echo "== what took how long, on $(nproc) processors"
    grep '^all: ' "$folder/times"
    printf '%s\n' "${table[@]}"
    printf '%6d s  all of it\n' $((SECONDS - began))
    echo "$(grep -E '^[0-9]+ passed, [0-9]+ failed' "$folder/log" | tail -n 1)$(skipped)"
    exit $((${#failed[@]} > 0))
}

# Says of what the steps beside others said that they skipped it, if of something.
skipped() {
    local all
    all=$(sed -n 's/: SKIPPED: .*//p' "${names[@]/#/$folder/}" | sort -u | paste -sd ';')
    [[ -z $all ]] || echo "; skipped: ${all//;/; }"
}

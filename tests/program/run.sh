#!/usr/bin/env bash
# Runs the built program on real files, pipes and devices, and looks at its statuses and texts.
# Usage: tests/program/run.sh [PROGRAM]
set -u
cd "$(dirname "$0")/../.." || exit 2
. tests/shared.sh
wants_program "${1-}"

# Scripts with their output.
for script in examples/*.script; do
    cp "$script" "$folder/input"
    expect "$script" 0 "" "${script%.script}.out" core
done
cp examples/first.script "$folder/input"
expect "no arguments" 0 "" examples/first.out
: > "$folder/input"
expect "an empty script" 0 "" $nothing core

# Arguments, and help.
expect_each "arguments" 2 "*" $nothing "--slots 2" "core --slots 0" "core --slots 17" \
    "core --clients 0" "core --clients 1025" "core --capacity 1099511627777" \
    "core --capacity many" "core --slots x" "core file" "core --strict --strict" "core --unknown" "--strict"
expect "arguments that are no text" 2 "*" $nothing core $'\xff'
expect_each "help" 0 "" "*" "--help" "-h" "help" "core --help" "help core" "run --help"

"$program" --help < /dev/null | grep -qxF "Usage: hcc_play [COMMAND]"
judge "the usage has its command as optional"

echo "hcc_play $(sed -nE 's/^## ([0-9.]+),.*/\1/p' CHANGELOG.md | head -n 1)" > "$folder/want"
for word in --version -V; do
    expect "the version: $word" 0 "" "$folder/want" "$word"
done

# What is read from a terminal is told on standard error, once the options are judged.
typed() {
    local name=$1 want=$2
    shift 2
    [[ $(PROGRAM=$program python3 -c '
import os, pty, subprocess, sys
ours, theirs = pty.openpty()
os.write(ours, b"\x04")  # the end of file
ran = subprocess.run([os.environ["PROGRAM"], *sys.argv[1:]], stdin=theirs, stderr=subprocess.PIPE,
                     stdout=subprocess.DEVNULL, timeout=60)
print(ran.returncode, ran.stderr.decode(), end="")' "$@") == "$want" ]]
    judge "on a terminal: $name"
}
behind="from the terminal, up to the end of file (Ctrl-D)"
typed "no arguments" "0 reads a script $behind"
typed "a script" "0 reads a script $behind" core
typed "a trace" "0 reads a trace of calls $behind" run
typed "block reads" "0 reads a trace of block reads $behind" blocks
typed "a trace, refused" "4 refused BadSlots" run --slots 12
typed "block reads, refused" "4 refused BadBlock" blocks --block 0
typed "block reads, no file" "3 file 0: unreadable" blocks "$folder/none"

# Sees that a command's help has a line for each word, in place of @: helps COMMAND PATTERN WORD..
helps() {
    local word
    for word in "${@:3}"; do
        "$program" "$1" --help < /dev/null | grep -qE "${2//@/$word}"
        judge "help of $1 tells of $word"
    done
}

# What the options and the defaults mean.
play() {
    printf '%b' "$1" > "$folder/input"
    printf '%b' "$2" > "$folder/want"
    shift 2
    expect "options: $*" 0 "" "$folder/want" "$@"
}
empty=' : E+0/0 E+0/0 |'
play 'start 2\nstart 3\n' "ok$empty 0 0 0 0\nrefused NoSuchClient$empty 0 0 0 0\n" core --clients 3
play 'start 1\n' "refused NoSuchClient$empty 0 0 0 0\n" core --clients 1
play 'look 0 1\n' "refused NoSuchSlot : E+0/0 | 0 0 0 0\n" core --slots 1
play 'start 0\n' "ok : E+0/0 E+0/0 E+0/0 | 0 0 0 0\n" core --slots 3
play 'start 0\n' "ok :$(printf ' E+0/0%.0s' {1..16}) | 0 0 0 0\n" core --slots 16
play 'start 0\n' "ok : E+0/0 | 0 0 0 0\n" core --slots=1 --clients=1024 --capacity=1099511627776 --strict
play 'start 0\nstart 1\ncharge 0 60\ncharge 1 60\n' \
    "ok$empty 0 0 0 0\nok$empty 0 0 0 0\nsplit 60 0$empty 60 0 0 0\nsplit 40 20$empty 120 0 0 0\n" \
    core --strict --capacity 100
play 'start 0\ncharge 0 601\n' "ok$empty 0 0 0 0\nsplit 600 1$empty 601 0 0 0\n" core --strict
play 'start 0\ncharge 0 601\n' "ok$empty 0 0 0 0\nsplit 7 594$empty 601 0 0 0\n" core --strict --capacity 7
play "show 0 1 2 3 1 - $(printf '00%.0s' {1..64})\n" "refused NotAllowed$empty 0 0 0 0\n" core
helps core '(^|   *)@ [c0-9]' start end look acquire give use occupy show hide free empty clock \
    mark correct write read peek count pass unpass charge settle waive usage enter slots quit occupancy \
    stand fall standing turn

helps core '^ +--@ \[' "slots .* 1 to 16" "clients .* 1 to 1024" "capacity .* 0 to 1099511627776"
helps run '^ +--@ \[' "slots .* 8 to 65536" "room .* 1 to 512" "clients .* 1 to 1024" \
    "handles .* 1 to 16384" "shards .* 1 to 64" "capacity .* 0 to 1099511627776" \
    "serials .* 1 to 18014398509481984"

# Texts at fault.
faulty=(core)
faults "line 2: Unended" 'start 0\nlook 0 0'
faults "line 1: NotAscii" 'start\t0\n'
faults "line 2: BadWord" 'start 0\n\n'
faults "line 2: BadNumber" 'start 0\nstart 01\n' 'start 0\nstart 00\nstart\n'
faults "line 1: OutOfRange" 'start 4294967296\n'
faults "line 1: BadValue" 'show 0 1 2 3 1 - abc\n'
faults "line 1: ValueTooLong" "show 0 1 2 3 1 - $(printf '00%.0s' {1..65})\n"
faults "line 1: TooLong" "start $(printf '0%.0s' {1..8395})\n"

# As many bytes as may be, all judged, and one more.
block=$(printf 'start 0\n%.0s' {1..1024})
{ for _ in {1..8191}; do echo "$block"; done; echo "${block%0}x"; } > "$folder/input"
expect "2^26 bytes" 2 "line 8388608: BadNumber" $nothing core
echo >> "$folder/input"
expect "2^26 bytes and one" 2 "input too large" $nothing core

# Registers take memory as they are filled: 1,024 clients name their last one and fill it, in 64 MiB.
for client in {0..1023}; do echo "$client G 16383 0 1"; done > "$folder/input"
for client in {0..1023}; do echo "$client P 16383 1 $client 1 L -"; done >> "$folder/input"
for client in {0..1023}; do echo "$client P 16383 0 1 1 L -"; done >> "$folder/input"
[[ $(ulimit -v 65536; "$program" run --clients 1024 --handles 1 < "$folder/input" \
    | sed -E 's/^(placed|standalone)$/filled/' | sort | uniq -c | awk '{ print $1, $2 }') == \
    "1024 busy"$'\n'"1024 filled"$'\n'"1024 miss"$'\n'"1 {"* ]]
judge "1,024 clients whose last register is named and filled, in 64 MiB"

# What is written takes no memory: the lines of 2^20 events, 43 bytes each, in 64 MiB.
for _ in {1..1024}; do echo "$block"; done > "$folder/input"
[[ $(ulimit -v 65536; "$program" core < "$folder/input" | wc -l) == 1048576 ]]
judge "2^20 events in 64 MiB"

# Traces of calls with their answers, and examples.
for trace in examples/*.trace; do
    cp "$trace" "$folder/input"
    read -ra list < "${trace%.trace}.options"
    expect "$trace" 0 "" "${trace%.trace}.answers" run "${list[@]}"
done
name=
while IFS= read -r line; do
    case $line in
        "== "*)
            heading=${line#== }
            name=${heading%% : *}
            options=()
            [[ $heading == *" : "* ]] && read -ra options <<< "${heading#* : }"
            : > "$folder/input"
            : > "$folder/want"
            ;;
        "{"*)
            echo "$line" >> "$folder/want"
            expect "calls: $name" 0 "" "$folder/want" run "${options[@]}"
            ;;
        *" | "*)
            echo "${line%% | *}" >> "$folder/input"
            echo "${line#* | }" >> "$folder/want"
            ;;
    esac
done < tests/program/calls

# Options of traces: what is refused before anything is read, and what is no option.
for slots in 0 4 12 131072; do refuse BadSlots run --slots $slots; done
refuse BadSlots run --slots 12 --room 0
for room in 0 513; do refuse BadRoom run --slots 8 --room $room; done
for clients in 0 1025; do refuse BadClients run --clients $clients; done
for handles in 0 16385; do refuse BadHandles run --handles $handles; done
for shards in 0 3 128; do refuse BadShards run --shards $shards; done
refuse BadCapacity run --capacity 1099511627777
for serials in 0 18014398509481985; do refuse BadSerials run --serials $serials; done
: > "$folder/input"
printf '{"charges":0,"occupied":0,"slots":0,"usage":0}\n' > "$folder/want"
expect_each "taken" 0 "" "$folder/want" "run --slots 65536" "run --room 512" \
    "run --clients 1024 --handles 1" "run --handles 16384" "run --shards 64" \
    "run --capacity 1099511627776" "run --capacity 0" "run --serials 1" \
    "run --serials 18014398509481984" "run --seed 18446744073709551615" "run --strict --marks"
expect_each "arguments" 2 "*" $nothing "run --slots 4294967296" "run --slots x" "run --slots -1" \
    "run --serials 18446744073709551616" "run --seed -1" "run file" "run --block 16" \
    "run --strict --strict" "run --slots 8 --slots 8"

# Traces at fault.
faulty=(run)
faults "line 1: Unended" '0 G 0 0 1'
faults "line 1: BadWord" '0 X 1\n' '0 R 0 U\n' '0  U\n' '0\n' '\n' '0 u\n' '0 UU\n' '0 U 0\n'
faults "line 2: BadNumber" '0 I 0 1 200 L aa\n0 E 18446744073709551616 0\n'
faults "line 1: BadNumber" '01 U\n' '18446744073709551616 U\n' '0 R x U X\n' '0 V -\n'
faults "line 1: OutOfRange" '1 U\n' '1 I 0 x 1 L -\n' '0 I 0 1 0 L -\n' '0 I 0 1 4294967296 L -\n' \
    '0 P 16384 0 1 1 L -\n' '0 G 16384 0 x\n' '0 F 0 16384\n' '0 W 1 0\n' '0 W 0 8\n'
faults "line 1: BadChoice" '0 I 0 1 1 X -\n' '0 I 0 1 1 LL abc\n' '0 R 0 X X\n' '0 R 0 U X\n'
faults "line 1: BadValue" '0 I 0 1 1 L abc\n' '0 I 0 1 1 L AA\n' \
    "0 I 0 1 1 L $(printf '0%.0s' {1..33})\n"
faults "line 1: ValueTooLong" "0 I 0 1 1 L $(printf '0%.0s' {1..34})\n" \
    "0 P 0 0 1 1 L $(printf '0%.0s' {1..34})\n"
faults "line 1: NotAscii" '0\tU\n'
faults "line 2: OutOfRange" '0 U\n0 W 0 8\n0 V -\n'
faults "line 1: TooLong" "$(printf '0%.0s' {1..8401})"
helps run '^  0 @' I P G F R V E U W S
helps run '^  @  ' HandlesFull Spent TooLarge CapacityFull OccupancyFull TooLong Unended NotAscii \
    BadWord BadNumber OutOfRange BadChoice BadValue ValueTooLong
helps blocks '^  @  ' blocks faults hits misses missing sum

# Readers and writers that fail.
cp examples/first.script "$folder/input"
devices core
if [[ -c /dev/full ]]; then
    from=/dev/null to=/dev/full ends 0 "" core
    judge "nothing on a full device"
    to=/dev/full ends 3 "write failed" --help
    judge "help on a full device"
fi
cp examples/first.trace "$folder/input"
devices run
timeout 60 cat examples/first.script | "$program" | cmp -s - examples/first.out
judge "pipes at both ends"
closed_pipe() {
    timeout 60 "$program" "$1" < "$folder/input" 2> "$folder/err" | head -n 1 > "$folder/out"
    [[ ${PIPESTATUS[0]} == 3 ]] && said "write failed"
    judge "a closed pipe: $1"
}
for _ in {1..64}; do echo "$block"; done > "$folder/input"
closed_pipe core
for _ in {1..40000}; do echo "0 U"; done > "$folder/input"
closed_pipe run

# So little memory that the input finds no room.
{ for _ in {1..2048}; do echo "$block"; done; } > "$folder/input"
(ulimit -v 12288; exec timeout 60 "$program" core) < "$folder/input" > "$folder/out" 2> "$folder/err"
[[ $? == 5 && ! -s $folder/out ]] && said "out of memory"
judge "too little memory"

counted program

#!/usr/bin/env bash
# Has the built program read blocks of files by traces, and looks at its reports, statuses and texts.
# With several clients the hits and misses of each depend on the order of the threads: then only
# what every order gives is compared.
# Usage: tests/program/blocks.sh [PROGRAM]
set -u
cd "$(dirname "$0")/../.." || exit 2
. tests/shared.sh
wants_program "${1-}"

# Lines of a trace.
trace() { printf '%b' "$1" > "$folder/input"; }

# A report of one client: report BLOCKS HITS MISSES MISSING SUM CHARGES SLOTS
report() {
    echo "{\"charges\":$6,\"clients\":[{\"blocks\":$1,\"faults\":0,\"hits\":$2,\"misses\":$3,\"missing\":$4,\"sum\":$5}],\"occupied\":$7,\"slots\":$7,\"usage\":$6}"
}

# What every order gives of a report on standard input, a client on each line; nothing where its
# sums don't agree. Its words are the slots and the charge that are there at most.
parts() {
    python3 -c '
import json, sys
told = json.load(sys.stdin)
assert list(told) == ["charges", "clients", "occupied", "slots", "usage"]
assert told["charges"] == told["usage"] and told["slots"] == told["occupied"]
assert told["slots"] <= told["charges"] <= int(sys.argv[2]) and told["slots"] <= int(sys.argv[1])
lines = []
for client in told["clients"]:
    assert list(client) == ["blocks", "faults", "hits", "misses", "missing", "sum"]
    assert client.pop("hits") + client.pop("misses") == client["blocks"] + client["faults"]
    lines.append(json.dumps(client, separators=(",", ":")))
print("\n".join(lines))
' "$@"
}

# Plays the trace `input` several times: each time every client's part is as it is to be.
# orders NAME PARTS-FILE SLOTS CHARGE WORD..
orders() {
    local name=$1 wanted=$2 slots=$3 charge=$4
    shift 4
    for run in 1 2 3 4 5; do
        timeout 60 "$program" blocks "$@" < "$folder/input" 2> "$folder/err" \
            | parts "$slots" "$charge" > "$folder/parts"
        [[ ! -s $folder/err ]] && cmp -s "$wanted" "$folder/parts"
        judge "$name, run $run"
    done
}

# One file of the bytes 0 to 39, in blocks of 16.
python3 -c 'import sys; sys.stdout.buffer.write(bytes(range(40)))' > "$folder/forty"
forty=$folder/forty
first='0 0 0\n0 0 0\n0 0 2\n0 0 3\n0 1 0\n'
trace "$first"
told=$(report 3 1 2 2 524 24 2)
expect "a file of 40 bytes" 0 "" <(echo "$told") blocks "$forty"
for words in "--block 16" "--seed 0" "--room 512" "--shards 64" "--strict" "--marks" "--handles 1" \
    "--slots 65536" "--serials 3" "--capacity 1099511627776" "--handles 16384" "--seed 1"; do
    read -ra list <<< "$words"
    expect "the same by $words" 0 "" <(echo "$told") blocks "${list[@]}" "$forty"
done
expect "one serial" 0 "" <(report 3 0 3 2 524 16 1) blocks --serials 1 "$forty"
expect "no capacity" 0 "" <(report 3 0 3 2 524 0 0) blocks --strict --capacity 0 "$forty"
expect "larger blocks" 0 "" <(report 2 1 1 3 1560 40 1) blocks --block=40 --room 5 "$forty"
expect "single bytes" 0 "" <(report 4 1 3 1 5 3 3) blocks --block 1 "$forty"
expect "no file" 0 "" <(report 0 0 0 5 0 0 0) blocks
: > "$folder/empty"
expect "an empty file" 0 "" <(report 0 0 0 5 0 0 0) blocks "$folder/empty"
expect "a file twice" 0 "" <(report 4 1 3 1 644 40 3) blocks "$forty" "$forty"
trace ""
expect "an empty trace" 0 "" <(report 0 0 0 0 0 0 0) blocks "$forty"
trace '0 4294967295 4294967295\n0 0 4294967295\n'
expect "the greatest numbers" 0 "" <(report 0 0 0 2 0 0 0) blocks "$forty"

# Two clients read the 40 blocks of a file in turn, 2,000 reads each.
python3 -c '
import sys
sys.stdout.buffer.write(bytes(p % 251 for p in range(640)))' > "$folder/file"
python3 -c '
for j in list(range(1000)) * 2:
    for client in 0, 1:
        print(client, 0, 7 * j % 40)' > "$folder/input"
for client in 0 1; do
    echo '{"blocks":2000,"faults":0,"missing":0,"sum":3610150}'
done > "$folder/wanted"
orders "two clients" "$folder/wanted" 6 600 --clients 2 "$folder/file"
orders "two clients, 4 shards" "$folder/wanted" 24 600 --clients 2 --shards 4 "$folder/file"
orders "two clients, a seed" "$folder/wanted" 6 600 --clients 2 --seed 1 "$folder/file"
orders "two clients, strict" "$folder/wanted" 6 32 --clients 2 --strict --capacity 32 "$folder/file"

# The example.
cp examples/blocks.reads "$folder/input"
orders "the example" examples/blocks.part 53 600 --clients 4 --seed 7 --slots 64 --room 8 \
    --block 64 examples/first.script examples/first.out

# Refusals, in order.
refuse BadSlots blocks --slots 12 "$folder/none"
refuse BadSlots blocks --slots 4 --room 0 --block 17 "$folder/none"
refuse BadRoom blocks --room 0 --clients 0 "$folder/none"
refuse BadRoom blocks --room 513 "$folder/none"
refuse BadClients blocks --clients 0 --handles 0 "$folder/none"
refuse BadClients blocks --clients 1025 "$folder/none"
refuse BadHandles blocks --handles 0 --shards 3 "$folder/none"
refuse BadHandles blocks --handles 16385 "$folder/none"
refuse BadShards blocks --shards 3 --capacity 1099511627777 "$folder/none"
refuse BadShards blocks --shards 128 "$folder/none"
refuse BadCapacity blocks --capacity 1099511627777 --serials 0 "$folder/none"
refuse BadSerials blocks --serials 0 --block 0 "$folder/none"
refuse BadSerials blocks --serials 18014398509481985 "$folder/none"
refuse BadBlock blocks --block 0 "$folder/none"
refuse BadBlock blocks --block 17 "$folder/none"
trace 'x\n'
for words in "--block x" "--block -1" "--block 4294967296" "--slots 4294967296" "--seed" \
    "--strict --strict" "--slots 8 --slots 8" "--unknown"; do
    read -ra list <<< "$words"
    expect "arguments: $words" 2 "*" $nothing blocks "${list[@]}" "$folder/none"
done
expect "a file that isn't there" 3 "file 0: unreadable" $nothing blocks "$folder/none" "$forty"
expect "a folder" 3 "file 1: unreadable" $nothing blocks "$forty" "$folder" "$folder/none"

many=()
for _ in {0..256}; do many+=("$forty"); done
expect "a file behind 257" 3 "file 257: unreadable" $nothing blocks "${many[@]}" "$folder/none"

# Texts at fault.
faulty=(blocks --clients 2 "$forty")
faults "line 2: Unended" '0 0 0\n1 0 0'
faults "line 1: NotAscii" '0\t0 0\n'
faults "line 1: BadWord" '\n' '0 0\n' '0 0 0 0\n' '0  0 0\n' ' 0 0 0\n' 'x\n'
faults "line 1: BadNumber" 'x 0 0\n' '0 00 0\n' '1 0 -\n' '0 18446744073709551616 x\n'
faults "line 2: OutOfRange" '0 0 0\n2 x 0\n' '0 0 0\n0 4294967296 x\n' '0 0 0\n0 0 4294967296\n'
faults "line 1: TooLong" "0 0 $(printf '0%.0s' {1..8397})\n"

# As many bytes as may be, for as many clients as may be, and one more byte.
python3 -c '
import sys
lines = "".join("%d 0 0\n" % client for client in range(1024)).encode()
sys.stdout.buffer.write(lines * (2**26 // len(lines)))
rest = 2**26 % len(lines)
while rest >= 12:
    sys.stdout.buffer.write(b"0 0 0\n")
    rest -= 6
sys.stdout.buffer.write(b"0 0 " + b"1" * (rest - 5) + b"\n")' > "$folder/input"
reads=$(wc -l < "$folder/input")
before=$SECONDS
timeout 60 "$program" blocks --clients 1024 --handles 1 < "$folder/input" > "$folder/out"
[[ $? == 0 && $(stat -c %s "$folder/input") == 67108864 ]]
judge "2^26 bytes for 1024 clients"
took=$((SECONDS - before))
[[ $(python3 -c 'import json, sys; print(sum(c["missing"] for c in json.load(sys.stdin)["clients"]))' \
    < "$folder/out") == "$reads" ]]
judge "each line was played"
((took <= 30))
judge "in $took seconds"
echo >> "$folder/input"
expect "2^26 bytes and one" 2 "input too large" $nothing blocks --clients 1024 --handles 1

# How far a long play is, told on a terminal alone: after each 2^20 reads of all clients. A short
# play tells nothing: terminal FILE WORD..
terminal() {
    PROGRAM=$program python3 -c '
import os, pty, subprocess, sys
ours, theirs = pty.openpty()
subprocess.run([os.environ["PROGRAM"], "blocks", *sys.argv[2:]], stdin=open(sys.argv[1]),
               stderr=theirs, stdout=subprocess.DEVNULL, check=True, timeout=60)
os.write(theirs, b".")
told = b""
while not told.endswith(b"."):
    told += os.read(ours, 1000)
print(repr(told))' "$@"
}
yes "0 0 0" | head -n 2097153 > "$folder/long"
[[ $(terminal "$folder/long") == "b'\\r1048576 reads\\r2097152 reads\\r\\n.'" ]]
judge "a long play on a terminal"
yes $'0 0 0\n1 0 0' | head -n 1048576 > "$folder/two"
[[ $(terminal "$folder/two" --clients 2) == "b'\\r1048576 reads\\r\\n.'" ]]
judge "a long play of two clients on a terminal"
trace "$first"
[[ $(terminal "$folder/input") == "b'.'" ]]
judge "a short play on a terminal"
from=$folder/long ends 0 "" blocks
judge "a long play elsewhere"

# Devices that fail, and too little memory.
trace "$first"
devices blocks "$forty"
timeout 60 cat "$folder/input" | "$program" blocks "$forty" | cmp -s - <(echo "$told")
judge "pipes at both ends"
{ head -c 16777216 /dev/zero; printf '\1\1\1'; } > "$folder/large"
(ulimit -v 12288; exec timeout 60 "$program" blocks "$folder/large") < "$folder/input" \
    > "$folder/out" 2> "$folder/err"
[[ $? == 5 && ! -s $folder/out ]] && said "out of memory"
judge "too little memory for a file"
trace '0 0 1048575\n0 0 1048576\n0 0 1048577\n'
expect "the end of a large file" 0 "" <(report 2 0 2 1 3 19 2) blocks "$folder/large"

counted blocks

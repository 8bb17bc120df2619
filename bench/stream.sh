#!/bin/bash
# How long `stream` takes for a stream of repeats, and how much memory. It runs the proved program, which ./do prove
# builds, or PROGRAM. The first message is filed and each other one is told to be a repeat, so that the journal doesn't
# fill.
#
#   bench/stream.sh [MIB]   of so many MiB, 1,024 where nothing is said, and of twice as many, in turn: the best of
#                           ROUNDS (3) each, in seconds of the processor and by the clock
#   bench/stream.sh count   how many instructions 1, 2 and 4 MiB take, which doesn't depend on what else the machine
#                           does: by `valgrind`
#
# It ends with status 1 where twice the stream takes more than 2.1 times as much, or a reply is missing.
cd "$(dirname "$0")/.." || exit 1
program=$(realpath "${PROGRAM:-crates/cgf/out/cgf}")
ROUNDS=${ROUNDS:-3}
folder=$(mktemp -d) && trap 'rm -rf "$folder"' EXIT

# So many mebibytes of one message, 22 octets long, cut at a message's end.
repeats() {
    python3 -c '
import os, sys
message = bytes.fromhex("4EF0001000007E01FC000B010106000005A003800105")
left, block = int(sys.argv[1]) * 1048576 // len(message), memoryview(message * 50_000)
while left:
    part = block[: min(left, 50_000) * len(message)]
    left -= len(part) // len(message)
    # a buffered writer loses octets where it is stopped within a write
    while part:
        part = part[os.write(1, part) :]' "$1"
}

# Runs a stream of so many mebibytes, by the words behind that.
stream() {
    local mebibytes=$1 replies=$(($1 * 1048576 / 22 * 13))
    shift
    rm -rf "$folder/area" "$folder/cdrs" && mkdir "$folder/cdrs"
    repeats "$mebibytes" | (cd "$folder" && "$@" "$program" stream 10.0.0.1 10.0.1.1:40001 1000000 area cdrs -) |
        wc -c >"$folder/replies"
    [ "$(cat "$folder/replies")" = "$replies" ] || { echo "$(cat "$folder/replies") octets of replies, not $replies"; exit 1; }
}

# The seconds of the processor and by the clock, and the MiB of memory of a run, in a line of the file that the second
# word names.
run() {
    stream "$1" /usr/bin/time -f '%U %S %e %M' -o time
    awk '{ print $1 + $2, $3, $4 / 1024 }' "$folder/time" >>"$folder/$2"
}

# The instructions of a run.
count() {
    stream "$1" valgrind --tool=callgrind --callgrind-out-file=/dev/null 2>"$folder/counted"
    awk '/Collected/ { print $NF }' "$folder/counted"
}

is_linear() {
    awk -v a="$1" -v b="$2" 'BEGIN { exit !(a > 0 && b > 0 && b <= 2.1 * a) }'
}

if [ "$1" = count ]; then
    one=$(count 1) && two=$(count 2) && four=$(count 4) || { echo "$one$two$four"; exit 1; }
    echo "1, 2 and 4 MiB: $one, $two and $four instructions"
    is_linear "$one" "$two" && is_linear "$two" "$four"
    exit
fi
mebibytes=${1:-1024}
for ((round = 0; round < ROUNDS; round++)); do
    run "$mebibytes" once
    run $((2 * mebibytes)) twice
done
read -r once clock memory < <(sort -n "$folder/once")
read -r twice clocks more < <(sort -n "$folder/twice")
echo "$mebibytes MiB: $once s, $clock by the clock, $memory MiB; twice that: $twice s, $clocks by the clock, $more MiB"
is_linear "$once" "$twice"

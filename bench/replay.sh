#!/bin/bash
# How long the commands `drill` and `replay` take, on one core: of seed 7 with four nodes, three gateways and 2,000
# packets, 22,665 lines that print 13,062 messages; and of ten times as many packets. Run it at the top of the repository;
# ./do prove builds the program first where that is wanting. RUNS in the environment says how many runs each best time is taken
# of, 3 where it is wanting. The exit status is 1 where the small drill takes five seconds or more, or a sum is wrong.
#
# For each:
#   drill     seconds of the processor and by the clock, and the most memory that the program had
#   replay    the same of the sample as a script that is read, whose report has all messages
#   calm      the same of that script without its stops and openings
#
# bench/replay.sh lines builds a program beside a copy of the crates instead, which tells how long each kind of line takes:
# see replay/main.rt.txt. It proves nothing.
cd "$(dirname "$0")/.." || exit 1
RUNS=${RUNS:-3}
program=crates/cgf/out/cgf
work=$(mktemp -d)
trap 'rm -rf "$work"' EXIT
failed=0

# a program that plays the lines, unproved
lines() {
    tar -c --exclude=out crates crates.txt HANDLES | tar -x -C "$work"
    mkdir -p "$work/crates/replay_bench/src"
    echo 'replay_bench: gw_base world_script replay_world' >>"$work/crates.txt"
    cp bench/replay/main.rt.txt "$work/crates/replay_bench/src/main.rt"
    cd "$work/crates/replay_bench" || exit 1
    rt try --seconds 600 -- "$@"
}

# one command: its seconds and its memory
measure() {
    read -r used taken most status < <(python3 -B bench/feed/timed.py "$RUNS" "$program" "${@:2}")
    printf '  %-9s%7.3f s, %.3f s by the clock, %.1f MiB\n' "$1" "$used" "$taken" \
        "$(awk -v octets="$most" 'BEGIN { print octets / 1048576 }')"
    [ "$status" = 0 ] || { echo "  status $status instead of 0"; failed=1; }
}

sums() {
    printf 'packets %d\nresolved %d\ndone %d\nrecords %d\nheld 0\nstranded 0\n' "$1" "$1" "$1" "$2"
}

if [ "$1" = lines ]; then
    lines "${@:2}"
    exit
fi
./do prove || exit 1
for packets in 2000 20000; do
    echo "$packets packets:"
    # of five packets one each has one record, two, and so on
    "$program" drill 7 4 3 $packets >"$work/sums" || failed=1
    sums $packets $((packets * 3)) | cmp -s - "$work/sums" || { echo '  other sums:'; cat "$work/sums"; failed=1; }
    measure drill drill 7 4 3 $packets
    [ $packets = 20000 ] || awk -v s="$used" 'BEGIN { exit s >= 5 }' || { echo '  five seconds or more'; failed=1; }
    "$program" sample 7 4 3 $packets >"$work/script" || failed=1
    measure replay replay "$work/script"
    # each opening reads its whole journal; all else takes a time that grows with the lines alone
    grep -v '^stop\|^open' "$work/script" >"$work/calm"
    measure calm replay "$work/calm"
done
exit $failed

#!/bin/bash
# How long the longest scripts take: 16 MiB of comments, of empty lines and of blank words, a line past the bound, 128 of
# the largest datagrams whose records are nested BER values that are refused at their last octet, 128 of the longest
# lists, and 10,000 small datagrams. Run it at the top of the repository once ./do prove has built the program. Each line is
# the seconds of one run, the exit status, what was run, and for datagrams how many octets of them and how many of them
# were read in a second.
cd "$(dirname "$0")/.." || exit 1
MOST=16777216
work=$(mktemp -d)
trap 'rm -rf "$work"' EXIT

timed() {
    local start end status seconds
    start=$(date +%s.%N)
    ./cgf feed "$2" >"$work/out" 2>"$work/err"
    status=$?
    end=$(date +%s.%N)
    seconds=$(echo "$end - $start" | bc)
    printf '%6.2f s  status %d  %s' "$seconds" "$status" "$1"
    if [ $# -eq 4 ]; then
        printf ': %.0f octets and %.0f datagrams a second' "$(echo "$3 * $4 / $seconds" | bc)" "$(echo "$3 / $seconds" | bc)"
    fi
    echo
}

# lines with this datagram: how many, and the datagram in hexadecimal
lines() {
    yes "in 10.0.1.1:40001 $2" | head -n "$1"
    echo end
}

# so many times this text
times() {
    yes "$2" | head -n "$1" | tr -d '\n'
}

# a datagram of 65,507 octets with one record of 65,490: 31 constructed values, one in the other, around 32,682 empty ones
# and a last one that wants an octet
nested() {
    local size=65490
    printf '4EF0FFDD00007E01FCFFD801010600FFD2'
    for _ in $(seq 31); do
        size=$((size - 4))
        printf 'A082%04X' "$size"
    done
    times 32682 A000
    printf 'A001'
}

# a datagram of 65,506 octets that releases one number 32,747 times
listed() {
    printf '4EF0FFDB00017E04F9FFD6'
    times 32747 0001
}

./do prove || exit 1
(yes '#' | head -c $((MOST - 4)); echo; echo end) | head -c "$MOST" >"$work/comments"
(yes '' | head -c $((MOST - 4)); echo end) >"$work/empty"
head -c $((MOST + 1)) /dev/zero | tr '\0' '#' >"$work/long"
(echo -n 'in 10.0.1.1:1 '; head -c $((MOST - 18)) /dev/zero | tr '\0' ' '; echo; echo end) >"$work/spaces"
lines 128 "$(nested)" >"$work/nested"
lines 128 "$(listed)" >"$work/listed"
(for n in $(seq 0 9999); do printf 'in 10.0.1.1:40001 4EF00005%04X7E02FC0000\n' "$n"; done; echo end) >"$work/datagrams"
timed '16 MiB of comments' "$work/comments"
timed '16 MiB of empty lines' "$work/empty"
timed 'one line past the bound' "$work/long"
timed '16 MiB of spaces in a line' "$work/spaces"
timed '128 datagrams of the largest, each refused at its last octet' "$work/nested" 128 65507
timed '128 datagrams with the longest lists' "$work/listed" 128 65505
timed '10,000 small datagrams' "$work/datagrams" 10000 11

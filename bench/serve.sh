#!/bin/bash
# How many requests `serve` answers in a second, beside a plain gateway in C of the same durability (peer/peer.c): each
# with a real file, in turn, in one run. 1, 4, 16 and 64 nodes send, each with 1 and with 16 requests under way
# (peer/load.c). Run it at the top of the repository.
#
#   bench/serve.sh              all of it; ROUNDS (5) and SECONDS_EACH (2) in the environment say how often and how long
#   bench/serve.sh one N M      N nodes with M requests under way
#   bench/serve.sh memory S     S seconds of load on a journal of 16,777,216 octets: memory, descriptors and threads
#
# Where other work keeps the machine busy, `SYNC=25 TMPDIR=/dev/shm chrt -f 5 bench/serve.sh` takes the processors first
# and no disk.
#
# Of each it prints the middle one of the runs by its rate: requests a second, and in microseconds the latencies below
# which 50, 99 and 99.9 hundredths stay. `ratio` is the rate of `serve` by that of the other. It ends with status 1
# where an answer is wrong, where the ratio is below 0.9 at 64 nodes or 0.8 at one node, or where memory reaches 64 MiB
# or something is left behind. peer/gateways.sh says what else stands in the environment.
cd "$(dirname "$0")/.." || exit 1
work=$(mktemp -d)
trap 'end_gateway; rm -rf "$work"' EXIT
. bench/peer/gateways.sh
ROUNDS=${ROUNDS:-5}
SECONDS_EACH=${SECONDS_EACH:-2}
LENGTH=67108864
# files that are large, as they are where many records come
SETTINGS=$'limit records 1000000\nlimit size 67108864'
failed=0

# one run of the load: its line behind those of the runs before it
load() {
    "$work/load" 127.0.0.1 "$PORT" "$2" "$3" "$SECONDS_EACH" >>"$work/$1" || { echo "$1: the load failed"; failed=1; }
    end_gateway
}

# the middle one of the lines, by the rate
middle() {
    sort -n -k 4 "$work/$1" | sed -n "$(((ROUNDS + 1) / 2))p"
}

# the line of one gateway
tell() {
    read -r _ _ _ rate _ p50 _ p99 _ p999 _ resent _ < <(middle "$1")
    printf '  %-6s %7d a second, latencies %6d %7d %7d us, %d sent again\n' "$1" "$rate" "$p50" "$p99" "$p999" "$resent"
}

is_below() {
    awk -v a="$1" -v b="$2" 'BEGIN { exit !(a < b) }'
}

compare() {
    local round rate peers ratio
    rm -f "$work/serve" "$work/peers"
    for ((round = 0; round < ROUNDS; round++)); do
        start_peer $LENGTH
        load peers "$1" "$2"
        start_serve "$SETTINGS" $LENGTH
        load serve "$1" "$2"
    done
    echo "$1 nodes, $2 under way:"
    tell peers
    peers=$rate
    tell serve
    ratio=$(awk -v a="$rate" -v b="$peers" 'BEGIN { printf "%.2f", (b > 0 ? a / b : 0) }')
    echo "  ratio  $ratio"
    if { [ "$1" = 64 ] && is_below "$ratio" 0.9; } || { [ "$1" = 1 ] && is_below "$ratio" 0.8; }; then
        echo '  too slow'
        failed=1
    fi
}

# what a gateway holds: descriptors and threads
held() {
    echo "$(find "/proc/$gateway/fd" -mindepth 1 | wc -l) descriptors, $(find "/proc/$gateway/task" -mindepth 1 \
        -maxdepth 1 | wc -l) threads"
}

memory() {
    local before after most names loading
    start_serve "$SETTINGS" 16777216
    "$work/load" 127.0.0.1 "$PORT" 64 16 "$1" &
    loading=$!
    sleep 1
    before=$(held)
    wait $loading || { echo 'the load failed'; failed=1; }
    after=$(held)
    most=$(awk '/^VmHWM/ { print $2 }' "/proc/$gateway/status")
    echo "memory   $((most / 1024)) MiB at most"
    echo "before   $before"
    echo "after    $after"
    [ "$before" = "$after" ] || failed=1
    [ "$most" -lt 65536 ] || { echo 'too much memory'; failed=1; }
    end_gateway
    ! is_taken || { echo 'the port is still taken'; failed=1; }
    names=$(find "$work/cdrs" -mindepth 1 -printf '%f\n' | grep -vE '^[0-9]{2}(\.part|-[0-9]{10}\.cdr)$')
    [ -z "$names" ] || { echo "left in the folder: $names"; failed=1; }
}

build peer load
case ${1:-all} in
all)
    for nodes in 1 4 16 64; do
        compare $nodes 1
        compare $nodes 16
    done
    memory 10
    ;;
one) compare "$2" "$3" ;;
memory) memory "${2:-10}" ;;
*)
    sed -n 's/^#   //p' "$0" >&2
    exit 64
    ;;
esac
exit $failed

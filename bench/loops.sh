#!/bin/bash
# A thousand loops (or as many as the first argument says) of three gateways and four nodes with 20 packets each, over a
# network in memory that loses, repeats and delays datagrams; and twenty over sockets, beside a busy process for each
# processor. It tells how many ended how, and how many milliseconds the longest took. Then the same of five loops of two
# gateways and two nodes with 50 packets over sockets, alone. The status is 1 where a packet was filed twice, or not at all
# though its node knows it to be filed. See loops/main.rt.txt: it builds that program beside a copy of the crates, and
# proves nothing. Run it at the top of the repository.
cd "$(dirname "$0")/.." || exit 1
work=$(mktemp -d)
busy=()
trap 'rm -rf "$work"; [ ${#busy[@]} = 0 ] || kill "${busy[@]}"' EXIT
tar -c --exclude=out crates crates.txt HANDLES | tar -x -C "$work"
mkdir -p "$work/crates/loops_bench/src"
echo 'loops_bench: hex gw_base area_disk gateway_book node_core loop_run net_link rand_core rand_pcg' >>"$work/crates.txt"
cp bench/loops/main.rt.txt "$work/crates/loops_bench/src/main.rt"
cp crates/loop_tests/src/air.rt "$work/crates/loops_bench/src/"
cd "$work/crates/loops_bench" || exit 1
status=0

# lets loops run, and tells how they ended
loops() {
    echo "$*" | rt try --seconds 7200 2>"$work/log" |
        awk -v what="$*" '$3 ~ /^[0-9]+$/ { ends[$2]++; if ($3 > most) most = $3 }
            END {
                for (end in ends) told = told ", " ends[end] " " end
                print what ": " substr(told, 3) ", the longest " most " ms"
                exit !(ends["fine"] + ends["unfinished"]) || ends["wrong"]
            }' || { cat "$work/log"; status=1; }
}

loops air 0 "${1:-1000}" 3 4 20 10000
loops udp 0 5 2 2 50 1000000
for _ in $(seq "$(nproc)"); do
    (while :; do :; done) & busy+=($!)
done
loops udp 0 20 3 4 20 100000
exit $status

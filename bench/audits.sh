#!/bin/bash
# Compares audits with the plain model in Python: of 2,000 random books and nodes that are moved by hand (or as many as
# the first argument says), see audits/main.rt.txt; and the ends of 40 loops (or as many as the second says) over a network
# in memory, each of which is found anew from the packets of its nodes and the journals of its gateways, see
# loops/main.rt.txt. It builds these programs beside a copy of the crates, and proves nothing. Run it at the top of the
# repository. The status is 1 where something differs.
cd "$(dirname "$0")/.." || exit 1
work=$(mktemp -d)
trap 'rm -rf "$work"' EXIT
tar -c --exclude=out crates crates.txt HANDLES | tar -x -C "$work"

# a program that is run unproved, and what it stands on
program() {
    mkdir -p "$work/crates/$1_bench/src"
    echo "$1_bench: $2" >>"$work/crates.txt"
    cp "bench/$1/main.rt.txt" "$work/crates/$1_bench/src/main.rt"
    printf '#!/bin/bash\ncd "%s" && rt try --seconds 7200 2>/dev/null\n' "$work/crates/$1_bench" >"$work/$1"
    chmod +x "$work/$1"
}

program audits 'hex gw_base area_disk gateway_book node_core loop_audit'
program loops 'hex gw_base area_disk gateway_book node_core loop_run net_link rand_core rand_pcg'
cp crates/loop_tests/src/air.rt "$work/crates/loops_bench/src/"
status=0
python3 -B tools/model/audits.py 0 "${1:-2000}" "$work/audits" || status=1
python3 -B tools/model/looped.py "$work/loops" 0 "${2:-40}" 3 4 20 10000 || status=1
python3 -B tools/model/looped.py "$work/loops" 0 "${2:-40}" 2 3 10 60 || status=1
exit $status

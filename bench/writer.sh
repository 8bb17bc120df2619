#!/bin/bash
# How long a writer takes for 100,000 and for 200,000 records in sixteen streams: see writer/main.rt.txt. It builds that
# program beside a copy of the crates that it stands on, which proves what isn't proved yet, and runs it as the optimising
# compiler makes it. Run it at the top of the repository.
cd "$(dirname "$0")/.." || exit 1
work=$(mktemp -d)
trap 'rm -rf "$work"' EXIT
mkdir -p "$work/crates/writer_bench/src" "$work/crates/writer_bench/proofs/items"
for crate in gw_base area_disk ber_frame route_filter cdr_file file_rotate cdr_shelf file_writer; do
    grep "^$crate:" crates.txt
    cp -a "crates/$crate" "$work/crates/"
done >"$work/crates.txt"
echo 'writer_bench: gw_base area_disk route_filter cdr_file file_rotate cdr_shelf file_writer' >>"$work/crates.txt"
cp bench/writer/main.rt.txt "$work/crates/writer_bench/src/main.rt"
cp bench/writer/items.antt.txt "$work/crates/writer_bench/proofs/items/Invariants.antt"
cd "$work/crates/writer_bench" || exit 1
rt run >"$work/log" 2>&1 || { cat "$work/log"; exit 1; }
out/writer_bench

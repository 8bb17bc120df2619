#!/bin/bash
# How long a million turns of a cell take, of one thread and of four: see turns/main.rt.txt. It builds that program beside a
# copy of the crates that it stands on, which proves what isn't proved yet, and runs it as the optimising compiler makes it.
# Run it at the top of the repository.
cd "$(dirname "$0")/.." || exit 1
work=$(mktemp -d)
trap 'rm -rf "$work"' EXIT
mkdir -p "$work/crates/turns_bench/src" "$work/crates/turns_bench/proofs/raise_many"
cp HANDLES "$work/"
for crate in gw_base turn_cell; do
    grep "^$crate:" crates.txt
    cp -a "crates/$crate" "$work/crates/"
done >"$work/crates.txt"
echo 'turns_bench: gw_base turn_cell' >>"$work/crates.txt"
cp bench/turns/main.rt.txt "$work/crates/turns_bench/src/main.rt"
cp bench/turns/Invariants.antt.txt "$work/crates/turns_bench/proofs/raise_many/Invariants.antt"
cd "$work/crates/turns_bench" || exit 1
rt run >"$work/log" 2>&1 || { cat "$work/log"; exit 1; }
out/turns_bench

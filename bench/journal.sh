#!/bin/bash
# How long a trail takes for 65,536 and for 131,072 held packets: see journal/main.rt.txt. It builds that program beside a copy
# of the crates that it stands on, which proves what isn't proved yet, and runs it as the optimising compiler makes it. Run it
# at the top of the repository.
cd "$(dirname "$0")/.." || exit 1
work=$(mktemp -d)
trap 'rm -rf "$work"' EXIT
mkdir -p "$work/crates/journal_bench/src"
for crate in gw_base area_disk gate_journal entry_codec cgf_journal; do
    grep "^$crate:" crates.txt
    cp -a "crates/$crate" "$work/crates/"
done >"$work/crates.txt"
echo 'journal_bench: gw_base area_disk cgf_journal' >>"$work/crates.txt"
cp bench/journal/main.rt.txt "$work/crates/journal_bench/src/main.rt"
cd "$work/crates/journal_bench" || exit 1
rt run >"$work/log" 2>&1 || { cat "$work/log"; exit 1; }
out/journal_bench

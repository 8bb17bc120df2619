#!/bin/bash
# How long a book takes for requests, items and an opening: see book/main.rt.txt. It builds that program beside a copy of the
# crates that it stands on, which proves what isn't proved yet, and runs it as the optimising compiler makes it. Run it at the
# top of the repository.
cd "$(dirname "$0")/.." || exit 1
work=$(mktemp -d)
trap 'rm -rf "$work"' EXIT
mkdir -p "$work/crates/book_bench/src"
for crate in gw_base case_table gtpp_header gtpp_elements gtpp_message ber_frame transfer_cmd path_mgmt area_disk \
    gate_journal entry_codec cgf_journal seq_window dup_buffer gateway_index gateway_answer gateway_book; do
    grep "^$crate:" crates.txt
    cp -a "crates/$crate" "$work/crates/"
done >"$work/crates.txt"
echo 'book_bench: gw_base area_disk gateway_book' >>"$work/crates.txt"
cp bench/book/main.rt.txt "$work/crates/book_bench/src/main.rt"
cd "$work/crates/book_bench" || exit 1
rt run >"$work/log" 2>&1 || { cat "$work/log"; exit 1; }
out/book_bench

#!/bin/bash
# Want of memory in turn: lets one allocation of a book's calls fail, each in a run of its own, and compares what is
# printed with what is printed where none fails: see memory/main.rt.txt. In each run the allocation with the same number
# fails, and the input decides how many others the program makes before the book's. It builds that program beside a
# copy of the crates that it stands on, and proves nothing. Run it at the top of the repository, with the numbers of the
# first allocation and of the last one to fail where it isn't to be each of them.
cd "$(dirname "$0")/.." || exit 1
all=640
first=${1:-1}
last=${2:-$((all - 1))}
work=$(mktemp -d)
trap 'rm -rf "$work"' EXIT
mkdir -p "$work/crates/book_memory/src" "$work/none" "$work/cases"
for crate in gw_base case_table gtpp_header gtpp_elements gtpp_message ber_frame transfer_cmd path_mgmt area_disk \
    gate_journal entry_codec cgf_journal seq_window dup_buffer gateway_index gateway_answer gateway_book; do
    grep "^$crate:" crates.txt
    tar -c --exclude=out "crates/$crate" | tar -x -C "$work"
done >"$work/crates.txt"
echo 'book_memory: gw_base area_disk gateway_answer gateway_book' >>"$work/crates.txt"
cp bench/memory/main.rt.txt "$work/crates/book_memory/src/main.rt"
cd "$work/crates/book_memory" || exit 1
# So many octets leave no allocation of the book's to fail.
head -c $all /dev/zero >"$work/none/all"
rt try --steps 1 --fail-alloc $all --cases "$work/none" >"$work/out" 2>"$work/log"
sed 1d "$work/out" >"$work/whole"
grep ' comparisons$' "$work/whole" || { cat "$work/out" "$work/log"; exit 1; }
for ((n = first; n <= last; n++)); do
    head -c $((all - n)) /dev/zero >"$work/cases/$n"
    cp "$work/whole" "$work/cases/$n.stdout"
done
rt try --steps 1 --fail-alloc $all --cases "$work/cases" >"$work/out" 2>"$work/log"
cat "$work/out"
grep -v '^allocations: ' "$work/log"

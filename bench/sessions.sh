#!/bin/bash
# How many requests sessions answer in a second where a commit takes 2 ms, one session and four, with how many commits:
# see sessions/main.rt.txt. It builds that program beside a copy of the crates that it stands on, and proves nothing.
# Run it at the top of the repository. It ends with status 1 where four sessions don't answer three times as many as
# one.
cd "$(dirname "$0")/.." || exit 1
work=$(mktemp -d)
trap 'rm -rf "$work"' EXIT
mkdir -p "$work/crates/sessions_bench/src"
cp HANDLES "$work/"
for crate in gw_base case_table gtpp_header gtpp_elements gtpp_message ber_frame transfer_cmd path_mgmt area_disk \
    gate_journal entry_codec cgf_journal seq_window dup_buffer gateway_index gateway_answer gateway_book turn_cell \
    job_inbox net_link route_filter cdr_file file_rotate cdr_shelf file_writer node_session; do
    grep "^$crate:" crates.txt
    tar -c --exclude=out "crates/$crate" | tar -x -C "$work"
done >"$work/crates.txt"
echo 'sessions_bench: gw_base area_disk gateway_book job_inbox net_link turn_cell node_session' >>"$work/crates.txt"
cp bench/sessions/main.rt.txt "$work/crates/sessions_bench/src/main.rt"
cd "$work/crates/sessions_bench" || exit 1
rt try --seconds 120 >"$work/out" 2>"$work/log"
cat "$work/out"
awk '$1 == "sessions" { rate[$2] = $10 }
    END {
        if (rate[1] == 0 || rate[4] == 0) exit 1
        printf "four sessions answer %.1f times as many\n", rate[4] / rate[1]
        exit rate[4] < 3 * rate[1]
    }' "$work/out" || { cat "$work/log"; exit 1; }

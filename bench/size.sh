#!/bin/bash
# What a book on an area of 16 MiB in memory has of memory: see size/main.rt.txt. It builds that program beside a copy
# of the crates that it stands on, which proves what isn't proved yet, and runs it as the optimising compiler makes it:
# with the area alone, with a book on it, and with a book that fills it. Of each it prints the address space and what
# of it lies in memory, and how much more that is than without a book. Run it at the top of the repository.
cd "$(dirname "$0")/.." || exit 1
work=$(mktemp -d)
trap 'rm -rf "$work"' EXIT
mkdir -p "$work/crates/book_size/src"
for crate in gw_base case_table gtpp_header gtpp_elements gtpp_message ber_frame transfer_cmd path_mgmt area_disk \
    gate_journal entry_codec cgf_journal seq_window dup_buffer gateway_index gateway_answer gateway_book; do
    grep "^$crate:" crates.txt
    cp -a "crates/$crate" "$work/crates/"
done >"$work/crates.txt"
echo 'book_size: gw_base area_disk gateway_book' >>"$work/crates.txt"
cp bench/size/main.rt.txt "$work/crates/book_size/src/main.rt"
cd "$work/crates/book_size" || exit 1
rt run >"$work/log" 2>&1 </dev/null || { cat "$work/log"; exit 1; }
python3 - out/book_size <<'PY'
import subprocess, sys

def held(mode):
    """The KiB of address space, and of it in memory, of a run that holds what it made."""
    run = subprocess.Popen([sys.argv[1]], stdin=subprocess.PIPE, stdout=subprocess.PIPE)
    run.stdin.write(mode)
    run.stdin.flush()
    run.stdout.readline()
    status = dict(line.split(":", 1) for line in open(f"/proc/{run.pid}/status") if ":" in line)
    told = run.communicate()[0]
    assert run.returncode == 0, told
    return [int(status[word].split()[0]) for word in ("VmPeak", "VmHWM")]

alone = held(b"a")
for name, mode in (("the area alone", b"a"), ("a book", b"b"), ("a full book", b"f")):
    sizes = held(mode)
    more = [size - least for size, least in zip(sizes, alone)]
    print(f"{name}: {sizes[0]} KiB of addresses, {sizes[1]} in memory; more than alone: {more[0]} and {more[1]}")
PY

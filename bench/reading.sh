#!/bin/bash
# How long scripts of 16 MiB and CDR files of 64 MiB take to be read: scripts of comments, of the shortest lines, of
# rules and of datagrams; files of CDRs of 65,535 octets and of 60; how long a replay of 10 MB takes, and how long
# samples take to be made. It builds a small program beside a copy of the crates that it stands on, which proves what
# isn't proved yet, and runs it as the optimising compiler makes it. Run it at the top of the repository. Each line is
# the milliseconds that the reading takes, without taking the octets in: of the processor, which a busy machine changes
# little, and by the clock.
cd "$(dirname "$0")/.." || exit 1
work=$(mktemp -d)
trap 'rm -rf "$work"' EXIT
MOST=16777216

# lines like these, as often as a text of the most octets has room for, and an `end`
script() {
    yes "$1" | head -c $((MOST - ${#1} - 5)) | sed '$d'
    echo end
}

# a file of so many CDRs of so many octets
file() {
    python3 - "$1" "$2" <<'END'
import struct, sys
count, length = int(sys.argv[1]), int(sys.argv[2])
body = (struct.pack('>HBB', length, 0x60, 0x20) + bytes(length)) * count
head = struct.pack('>IIBBIIII', 52 + len(body), 52, 0x60, 0x60, 0x2E800800, 0x2E800800, count, 1)
sys.stdout.buffer.write(head + bytes(26) + body)
END
}

mkdir -p "$work/crates/reading_bench/src"
for crate in gw_base ber_frame route_filter world_script cdr_file; do
    grep "^$crate:" crates.txt
    cp -a "crates/$crate" "$work/crates/"
done >"$work/crates.txt"
echo 'reading_bench: world_script cdr_file' >>"$work/crates.txt"
cat >"$work/crates/reading_bench/src/main.rt" <<'END'
//! Reads the standard input as the script of a feed, with one word as a CDR file, with two as a replay; with three and
//! with four it makes a small and a large sample.
#![tactic(auto)]

use cdr_file::read;
use std::io::Read;
use std::time::{Clock, CpuClock};
use std::{env, io};
use world_script::{Script, ScriptKind, sample};

fn main(rt: HostRuntime) -> io::Result<()> {
    let words = env::args(&rt)?.count();
    let mut octets = Vec::new(rt.alloc());
    rt.stdin().read_to_end(&mut octets)?;
    let started = rt.monotonic()?;
    let begun = rt.thread_cpu_time()?;
    let is_read = match words {
        2 => read(rt.alloc(), &octets).is_ok(),
        3 => world_script::read(rt.alloc(), &octets, ScriptKind::Replay).is_ok(),
        4 => sample(rt.alloc(), 7, 4, 3, 2_000).is_ok(),
        5 => sample(rt.alloc(), 7, 1, 8, 20_000).is_ok(),
        _ => Script::read(rt.alloc(), &octets).is_ok(),
    };
    let word = if is_read { "read" } else { "refused" };
    let took = rt.thread_cpu_time()?.saturating_sub(begun);
    let passed = rt.monotonic()?.saturating_sub(started);
    println!(rt; "{:6} ms, {:6} by the clock  {word}", took.as_millis(), passed.as_millis())?;
    Ok(())
}
END
(cd "$work/crates/reading_bench" && echo end | rt run) >"$work/log" 2>&1 || { cat "$work/log"; exit 1; }
program=$work/crates/reading_bench/out/reading_bench
timed() {
    printf '%-36s' "$1"
    "$program" "${@:2}"
}
script '#' | timed 'a script of comments'
script mark | timed 'a script of marks'
script 'in 1.1.1.1:1 00' | timed 'a script of short datagrams'
(yes 'rule A0 1 15' | head -n 256; script "in 10.0.1.1:40001 $(head -c 4000 /dev/zero | tr '\0' 0)") |
    head -c $((MOST - 5)) | sed '$d' | (cat; echo end) | timed 'a script of rules and long datagrams'
file 1024 65535 | timed 'a file of CDRs of 65,535 octets' file
file 1048575 60 | timed 'a file of CDRs of 60 octets' file
MOST=10485760
script 'submit 1 1 0600 A003800105' | timed 'a replay of packets, 10 MB' as replay
script 'tick 1' | timed 'a replay of ticks, 10 MB' as replay
timed 'sample 7 4 3 2000' a small sample </dev/null
timed 'sample 7 1 8 20000' a very large sample </dev/null

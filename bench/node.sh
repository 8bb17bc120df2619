#!/bin/bash
# How long a serving node takes, with eight gateways that are alive: a tick that sends 64 open packets again to one of
# them, a tick with a copy of each at all eight, and packets through a node whose gateway answers each at once. It
# builds a small program beside a copy of the crates that it stands on, which proves what isn't proved yet. Run it at
# the top of the repository.
cd "$(dirname "$0")/.." || exit 1
work=$(mktemp -d)
trap 'rm -rf "$work"' EXIT

mkdir -p "$work/crates/node_bench/src"
for crate in gw_base case_table ber_frame path_mgmt gtpp_header gtpp_elements gtpp_message node_core; do
    grep "^$crate:" crates.txt
    cp -a "crates/$crate" "$work/crates/"
done >"$work/crates.txt"
echo 'node_bench: gw_base node_core' >>"$work/crates.txt"
cat >"$work/crates/node_bench/src/main.rt" <<'END'
//! Times the ticks of a node with 64 open packets, or so many packets through a node, by the number of words.
#![tactic(auto)]

use gw_base::{Addr, NoMemory};
use node_core::{Draft, Node, Port};
use std::alloc::Global;
use std::time::CpuClock;
use std::{env, io};

/// The n-th gateway.
fn gateway(n: u8) -> Addr {
    Addr {
        ip: 0x0A00_0001 + u32::from(n),
        port: 3386,
    }
}

/// Submits a packet with one record, where the node takes it.
fn submit(alloc: Global, node: &mut Node) -> bool {
    let mut draft = Draft::new(alloc, 1, 0x0600);
    if draft.add(&[0xA0, 3, 0x80, 1, 5]).is_err() || !node.runs() || node.counts().packets >= 0x4000_0000_0000_0000 {
        return false;
    }
    node.submit(alloc, draft).is_ok()
}

/// One tick: how many datagrams it sends.
fn tick(alloc: Global, node: &mut Node) -> usize {
    if !node.runs() {
        return 0;
    }
    match node.tick(alloc) {
        Ok(sent) => sent.len(),
        Err(NoMemory) => 0,
    }
}

/// Hears a datagram at a port from the n-th gateway.
fn hear_at(port: Port, node: &mut Node, n: u8, octets: &[u8]) {
    if node.runs() {
        let _ = node.hear(port, gateway(n), octets);
    }
}

/// Hears a datagram from the n-th gateway.
fn hear(node: &mut Node, n: u8, octets: &[u8]) {
    hear_at(Port::First, node, n, octets)
}

/// A node to which eight gateways are alive.
fn node(alloc: Global) -> Result<Node, NoMemory> {
    let gateways = [
        gateway(0),
        gateway(1),
        gateway(2),
        gateway(3),
        gateway(4),
        gateway(5),
        gateway(6),
        gateway(7),
    ];
    let mut node = Node::new(alloc, 0x0A00_0101, &gateways, 1)?;
    tick(alloc, &mut node);
    for n in 0..8 {
        hear(&mut node, n, &[0x4E, 5, 0, 0, 0, 0]);
    }
    Ok(node)
}

/// Submits 64 packets.
fn fill(alloc: Global, node: &mut Node) {
    for _ in 0..64 {
        submit(alloc, node);
    }
}

/// The n-th gateway answers the numbers of 64 copies by 128 at a port.
fn answer(port: Port, node: &mut Node, n: u8) {
    for k in 0..64u8 {
        hear_at(port, node, n, &[0x4E, 0xF1, 0, 7, 0, k, 1, 128, 0xFD, 0, 2, 0, k]);
    }
}

/// Submits 64 packets, and sends a copy of each to every gateway: the first is sealed, the last held.
fn spread(alloc: Global, node: &mut Node) {
    fill(alloc, node);
    for n in 0..8 {
        tick(alloc, node);
        if n < 7 {
            hear(node, n, &[0x4E, 6, 0, 2, 0, 0, 1, 63]);
        }
    }
    answer(Port::First, node, 7);
    answer(Port::Second, node, 0);
}

/// A thousand ticks.
fn ticks(alloc: Global, node: &mut Node) -> usize {
    let mut sent = 0usize;
    for _ in 0..1000 {
        sent = sent.saturating_add(tick(alloc, node));
        hear(node, 0, &[0x4E, 5, 0, 0, 0, 0]);
    }
    sent
}

/// So many packets, each answered at once.
fn packets(alloc: Global, node: &mut Node, count: u32) -> usize {
    let mut sent = 0usize;
    for k in 0..count {
        submit(alloc, node);
        sent = sent.saturating_add(tick(alloc, node));
        let [_, _, high, low] = k.to_be_bytes();
        let response = [0x4E, 0xF1, 0, 7, high, low, 1, 128, 0xFD, 0, 2, high, low];
        hear(node, 0, &response);
    }
    sent
}

/// The processor time that this thread has used so far, which a busy machine doesn't change.
fn now(rt: &HostRuntime) -> u128 {
    match rt.thread_cpu_time() {
        Ok(time) => time.as_micros(),
        Err(_) => 0,
    }
}

fn main(rt: HostRuntime) -> io::Result<()> {
    let words = env::args(&rt)?.count();
    let Ok(mut node) = node(rt.alloc()) else {
        return Ok(());
    };
    match words {
        1 => fill(rt.alloc(), &mut node),
        2 => spread(rt.alloc(), &mut node),
        _ => {}
    }
    let begun = now(&rt);
    let sent = match words {
        1 | 2 => ticks(rt.alloc(), &mut node),
        3 => packets(rt.alloc(), &mut node, 10_000),
        _ => packets(rt.alloc(), &mut node, 100_000),
    };
    let micros = now(&rt).saturating_sub(begun);
    println!(rt; "{micros:9} us, {sent} datagrams, {} done", node.counts().done)?;
    Ok(())
}
END
(cd "$work/crates/node_bench" && rt run) >"$work/log" 2>&1 || { cat "$work/log"; exit 1; }
program=$work/crates/node_bench/out/node_bench
printf '%-50s' 'a thousand ticks with 64 packets, a copy each'
"$program"
printf '%-50s' 'a thousand ticks with 64 packets, eight copies each'
"$program" some
printf '%-50s' 'ten thousand packets that are answered'
"$program" some more
printf '%-50s' 'a hundred thousand packets that are answered'
"$program" some more and more

#!/bin/bash
# Random worlds of many events, in which each record is looked for after every event: the test of world_trials with
# more and longer worlds, in a copy of the repository. It proves nothing. Run it at the top of the repository:
# bench/world.sh 20 1000
cd "$(dirname "$0")/.." || exit 1
work=$(mktemp -d)
trap 'rm -rf "$work"' EXIT
tar -c --exclude=incremental crates crates.txt HANDLES | tar -x -C "$work"
worlds=${1:-20}
seeds=$(seq -s ', ' 0 $((worlds - 1)))
sed -i "s/^const SEEDS: .*/const SEEDS: [u64; $worlds] = [$seeds];/
    s/^const EVENTS: u64 = .*/const EVENTS: u64 = ${2:-1000};/" "$work/crates/world_trials/src/random_worlds.rt"
# The other tests are left out: there is one time for all of them.
for test in node_steps nodes world_stories world_worked worlds; do
    sed -i "/^#\[cfg(test)\]\$/{N;/mod $test;/d}" "$work/crates/world_trials/src/lib.rt"
    rm -r "$work/crates/world_trials/src/$test.rt"
done
(cd "$work/crates/world_trials" && rt try --test --seconds "${3:-600}") | grep 'random_worlds\|test result'

#!/bin/bash
# Refuses each allocation of the program once, one in each run: of a feed of one packet, of a replay of a lost answer, and
# of `serve` with three datagrams. Each run must end as without that, or with status 5 and nothing written; what `serve`
# answered must stand, and a run after it must go on. Run it at the top of the repository, with the commands to be tried
# where it isn't all of them. The environment may name PROGRAM, as for serve.sh, and STEP, how many allocations to go on
# by. It needs a compiler for C, and ends with status 1 where something is wrong.
cd "$(dirname "$0")/.." || exit 1
[ -n "$PROGRAM" ] || ./do prove || exit 1
program=$(readlink -f "${PROGRAM:-crates/cgf/out/cgf}")
work=$(mktemp -d)
trap 'rm -rf "$work"' EXIT
cc -O2 -fPIC -shared -o "$work/refuse.so" bench/refused/refuse.c || exit 1
failed=0
for command in "${@:-feed replay serve}"; do
    for each in $command; do
        python3 -B bench/refused/refused.py "$each" "$program" "$work" 1 "${STEP:-1}" || failed=1
    done
done
exit $failed

#!/bin/bash
# Tries the program on bad days, outside the gate, and compares it with the plain models of tools/model: replays full of
# stops and failures, mangled datagrams in feeds, and octets as scripts, as the settings of what serves and as CDR
# files. The program must end with the model's output and status, never by a signal and never run on, and no record may
# stand twice. Run it at the top of the repository.
#
#   bench/hostile.sh SEED COUNT         COUNT replays, five times as many datagrams, and COUNT texts
#   bench/hostile.sh SEED COUNT KIND    COUNT of one kind: replays, datagrams or texts
#
# The environment may name PROGRAM, as for serve.sh. It ends with status 1 where something is wrong; what was read then
# is kept, whole and made smaller.
cd "$(dirname "$0")/.." || exit 1
[[ $1 =~ ^[0-9]+$ && $2 =~ ^[0-9]+$ && ${3:-texts} =~ ^(replays|datagrams|texts)$ ]] ||
    { sed -n 's/^#   //p' "$0" >&2; exit 64; }
[ -n "$PROGRAM" ] || ./do prove || exit 1
program=$(readlink -f "${PROGRAM:-crates/cgf/out/cgf}")
failed=0
for kind in ${3:-replays datagrams texts}; do
    count=$2
    [ -n "$3" ] || [ "$kind" != datagrams ] || count=$((5 * count))
    python3 -B tools/model/hostile.py "$kind" "$1" "$count" "$program" || failed=1
done
exit $failed

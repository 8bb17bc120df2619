#!/bin/bash
# Kills `serve` again and again at random moments, and looks for each record in the end. Twelve nodes send: plain
# packets, possible duplicates that are released or cancelled, and packets whose number was sealed; each request is sent
# again until it is answered. The process is killed with -9, often while it opens, and started again on the same file
# and folder. At the end each record that was answered as filed or released stands once in the sealed files. None stands
# there that wasn't asked for or was cancelled, the numbers of the files have no gap, and no file was changed behind its
# seal. Run it at the top of the repository.
#
#   bench/kill.sh SEED KILLS            kills it so often
#   bench/kill.sh SEED KILLS torn       and tears then what no sync has made durable: the journal behind its last batch,
#                                       a last batch that nobody knows of, and the files that aren't sealed
#   bench/kill.sh SEED KILLS faults     and lets calls fail before, by strace: syncs, writes, renames
#
# The environment may name PROGRAM, PORT and TMPDIR, as for serve.sh. The seed draws what is sent and how long each
# process lives; the machine decides what that meets. It ends with status 1 and a line `wrong: ..` where one of these
# doesn't hold, and keeps the folder then.
cd "$(dirname "$0")/.." || exit 1
[[ $1 =~ ^[0-9]+$ && $2 =~ ^[0-9]+$ && ${3:-killed} =~ ^(killed|torn|faults)$ ]] ||
    { sed -n 's/^#   //p' "$0" >&2; exit 64; }
if [ "${3:-}" = faults ] && ! command -v strace >/dev/null; then
    echo 'strace is missing, so nothing was tried: apt-get update && apt-get install -y strace'
    exit 0
fi
[ -n "$PROGRAM" ] || ./do prove || exit 1
program=$(readlink -f "${PROGRAM:-crates/cgf/out/cgf}")
work=$(mktemp -d)
if python3 -B bench/kill/kill.py "$program" "$work" "${PORT:-3386}" "$1" "$2" "${3:-killed}"; then
    rm -rf "$work"
else
    echo "what it left is in $work"
    exit 1
fi

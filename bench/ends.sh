#!/bin/bash
# The ways `serve` ends, each on real things: words and settings that are refused, a file, a folder or a port that can't
# be had, a disk that is full, streams that are closed, a sync that fails. For each it prints the status, what stands on
# standard error, and what became of the journal's file:
#
#   same     not an octet of it was changed
#   grown    what was firm before stands, and perhaps more behind it
#   none     there is none
#
# Run it at the top of the repository. A full disk wants a small file system of its own, which root alone can mount, and
# a sync that fails wants strace: it says what it left out. It ends with status 1 where something isn't as it should be.
# peer/gateways.sh says what may stand in the environment.
cd "$(dirname "$0")/.." || exit 1
top=$PWD
work=$(mktemp -d)
trap clean EXIT
. bench/peer/gateways.sh
LENGTH=1000000
failed=0

clean() {
    end_gateway
    mountpoint -q "$work/small" && umount "$work/small"
    rm -rf "$work"
}

# serves for two turns, or so many; behind the words of a program that runs it, where there are some
# shellcheck disable=SC2120
serve() {
    local words=("${ip:-127.0.0.1}" "$PORT" "${turns:-2}" "$LENGTH" "${area:-area}" "${folder:-cdrs}")
    { printf '%s' "$settings"; echo end; } | timeout 60 "$@" "$program" serve "${words[@]}"
}

# how many octets of a journal's file stand for good: those before its closed gate; none where it was never made
stand() {
    python3 -B -c 'import sys
sys.path.insert(0, sys.argv[1] + "/bench/kill")
import tear
octets = open(sys.argv[2], "rb").read()
print(tear.batches(octets)[1] if octets[0] else 0)' "$top" "$1"
}

# what became of the journal's file since `before` was made of it
became() {
    if [ ! -e area ]; then
        echo none
    elif [ ! -f area ] || cmp -s area before; then
        echo same
    elif [ ! -s before ] || cmp -s -n "$(stand before)" area before; then
        echo grown
    else
        echo changed
    fi
}

# runs a command: what is tried, the status that is wanted, what must become of the file, and what must stand on
# standard error, as a pattern
try() {
    local name=$1 wanted=$2 file=$3 text=$4 status told is=
    shift 4
    rm -f before
    [ ! -f area ] || cp area before
    "$@" >out 2>err
    status=$?
    told=$(tr '\n' '|' <err | sed 's/|$//; s/|/; /g')
    [ $status = "$wanted" ] || is="$is; status $wanted is wanted"
    [[ $told =~ ^$text$ ]] || is="$is; wanted is '$text'"
    [[ $(became) =~ ^($file)$ ]] || is="$is; the file should be $file"
    [ -z "$is" ] || failed=1
    printf '%-32s %3d  %-5s  %s%s\n' "$name" $status "$(became)" "${told:--}" "$is"
}

# while somebody else has a lock on a file or a folder
locked() {
    local status
    exec 8<"$1"
    flock 8
    "${@:2}" 8<&-
    status=$?
    exec 8<&-
    return "$status"
}

# while a plain gateway has the port
bound() {
    local status
    "$work/peer" 127.0.0.1 "$PORT" 100 peers &
    gateway=$!
    await_gateway
    "$@"
    status=$?
    end_gateway
    return "$status"
}

anew() {
    rm -rf area cdrs
    mkdir cdrs
}

refused() {
    anew
    LENGTH=99 try 'a length of 99' 1 none 'cgf: words' serve
    settings=$'limit records 0\n' try 'settings that are refused' 2 none 'cgf: input 1: Number' serve
    settings=$'reserve 1000\n' try 'a line that serve has not' 2 none 'cgf: input 1: Word' serve
    try 'standard input closed' 3 none 'cgf: read' serve_blind
    try 'it serves' 0 grown '' serve
    try 'and again' 0 grown '' serve
}

serve_blind() {
    "$program" serve 127.0.0.1 "$PORT" 2 "$LENGTH" area cdrs <&-
}

not_had() {
    anew
    serve >out
    try 'an area that is locked' 6 same 'cgf: area area: locked by another process; cgf: store' locked area serve
    LENGTH=999999 try 'an area of another length' 6 same \
        'cgf: area area: another length: 1000000 octets; cgf: store' serve
    ip=127.0.0.2 try "another gateway's area" 6 same 'cgf: store 1[6-9]' serve
    # told at once, however many turns there are
    turns=1000000 try 'a folder that is locked' 6 same 'cgf: folder cdrs: locked by another process; cgf: store' \
        locked cdrs serve
    turns=1000000 folder=none try 'a folder that is missing' 6 same 'cgf: folder none: .*; cgf: store' serve
    turns=1000000 folder=out try 'a folder that is a file' 6 same 'cgf: folder out: .*; cgf: store' serve
    try 'a port that is taken' 7 grown 'cgf: link' bound serve
    anew
    ip=192.0.2.1 try "an address that isn't the machine's" 7 grown 'cgf: link' serve
    anew
    yes | head -c $LENGTH >area
    try 'a file that is no journal' 6 same 'cgf: store 0' serve
    rm area
    mkdir area
    try 'a folder in the place of the area' 6 same 'cgf: area area: .*; cgf: store' serve
    rmdir area
    mkfifo area
    try 'a pipe in the place of the area' 6 same 'cgf: area area: not a regular file; cgf: store' serve
    rm area
    area=none/area try 'no folder for the area' 6 none 'cgf: area none/area: .*; cgf: store' serve
}

# closed streams: the next descriptors get their numbers
closed() {
    anew
    serve >out
    try 'standard error closed' 0 grown '' serve_closed
    try 'closed, and the port is taken' 7 grown '' bound serve_closed
    try 'standard output closed' 4 grown 'cgf: write' serve_mute
    try 'and it goes on' 0 grown '' serve
}

serve_closed() {
    serve 2>&-
}

serve_mute() {
    serve >&-
}

# a load of half a second on a gateway with this area and this folder, which is ended then
loaded() {
    "$program" serve 127.0.0.1 "$PORT" "$FOR_EVER" "$LENGTH" "$1" "$2" < <(echo end) >told 2>&1 &
    gateway=$!
    await_gateway
    "$work/load" 127.0.0.1 "$PORT" 2 2 0.5 >loaded 2>&1
    end_gateway
    cat loaded
}

full() {
    anew
    mkdir -p small
    if ! mount -t tmpfs -o size=512k tmpfs small 2>/dev/null; then
        echo "left out: a full disk, since a file system can't be mounted"
        return
    fi
    area=small/area try 'no room for the area' 6 none 'cgf: area small/area: .*; cgf: store' serve
    LENGTH=2000000 try 'the same by a limit of the shell' 6 'none|grown' 'cgf: area area: .*; cgf: store' serve_limited
    anew
    rm -f small/area
    mkdir small/cdrs
    cat /dev/zero >small/filling 2>/dev/null
    echo "a load on a folder whose disk is full: $(loaded area small/cdrs)"
    folder=small/cdrs try 'no room for a file' 6 grown 'cgf: folder small/cdrs: .*; cgf: store' serve
    rm small/filling
    folder=small/cdrs try 'and room again' 0 'same|grown' '' serve
    grep -q 'records [1-9]' out && cat out
    umount small
}

serve_limited() {
    (
        trap '' XFSZ
        ulimit -f 1000
        serve
    )
}

# syncs that fail: while it opens, and while it serves, where each request is answered by 204 then
unsynced() {
    anew
    if ! command -v strace >/dev/null; then
        echo "left out: a sync that fails, since strace is missing"
        return
    fi
    # the first sync is the folder's, before the journal's file is there
    try 'a sync of the folder that fails' 6 none 'cgf: folder cdrs: .*; cgf: store' serve_failing 1
    try 'a sync that fails as it opens' 6 grown 'cgf: area area: .*; cgf: store' serve_failing 2
    try 'and again without' 0 grown '' serve
    turns=200 try 'syncs that fail while it serves' 6 grown 'cgf: area area: .*; cgf: store' serve_unsynced
    grep -q ' 01 CC FD ' loaded || { echo "  nothing was answered by 204"; failed=1; }
    try 'and again without' 0 grown '' serve
}

# where the sync of all of a file fails that is so many calls from the first
serve_failing() {
    serve strace -f -qq -o trace -e trace=fsync -e inject=fsync:error=EIO:when="$1"
}

serve_unsynced() {
    serve strace -f -qq -o trace -e trace=fdatasync -e inject=fdatasync:error=EIO:when=20+ &
    gateway=$!
    await_gateway
    "$work/load" 127.0.0.1 "$PORT" 2 2 0.5 >loaded 2>&1
    wait "$gateway"
}

no_memory() {
    anew
    try 'no memory' 5 none 'cgf: memory' serve_small
}

serve_small() {
    (
        ulimit -v 10000
        serve
    )
}

build peer load
cd "$work" || exit 1
refused
not_had
closed
full
unsynced
no_memory
exit $failed

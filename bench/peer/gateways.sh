# For serve.sh and ends.sh: builds the plain gateway and the load in the folder $work, and starts gateways there.
#
#   PROGRAM     the program; where it is wanting, ./do prove builds the proved one
#   PORT        the port that the gateways have on 127.0.0.1, 3386 where it is wanting
#   TMPDIR      where the journal's file and the folder of CDR files stand: on the disk that is measured
#   SYNC        for how many microseconds each sync sleeps, in place of the disk's own (peer/sync.c)
PORT=${PORT:-3386}
FOR_EVER=1099511627776
[ -n "$PROGRAM" ] || ./do prove || exit 1
program=$(readlink -f "${PROGRAM:-crates/cgf/out/cgf}")

build() {
    local each
    [ -z "$SYNC" ] || "${CC:-cc}" -O2 -Wall -Wextra -shared -fPIC -o "$work/sync.so" bench/peer/sync.c || exit 1
    for each in "$@"; do
        "${CC:-cc}" -O2 -Wall -Wextra -o "$work/$each" "bench/peer/$each.c" || exit 1
    done
}

# Runs a gateway, with syncs that sleep where that is asked.
launch() {
    if [ -n "$SYNC" ]; then
        exec env LD_PRELOAD="$work/sync.so" "$@"
    fi
    exec "$@"
}

# Whether a socket of UDP has the port.
is_taken() {
    awk -v port="$(printf ':%04X$' "$PORT")" '$2 ~ port { found = 1 } END { exit !found }' /proc/net/udp
}

# Waits until the gateway that was started last has the port.
await_gateway() {
    until is_taken; do
        kill -0 "$gateway" 2>/dev/null || { echo "the gateway ended before it was bound"; exit 1; }
        sleep 0.01
    done
}

# Ends the gateway at once, as an operator does.
end_gateway() {
    kill -TERM "$gateway" 2>/dev/null
    wait "$gateway" 2>/dev/null
}

# A new `serve` with these settings and this length.
start_serve() {
    rm -rf "$work/area" "$work/cdrs"
    mkdir "$work/cdrs"
    printf '%s\n' "$1" end >"$work/settings"
    launch "$program" serve 127.0.0.1 "$PORT" $FOR_EVER "$2" "$work/area" "$work/cdrs" <"$work/settings" >"$work/told" 2>&1 &
    gateway=$!
    await_gateway
}

# A new plain gateway with this length.
start_peer() {
    launch "$work/peer" 127.0.0.1 "$PORT" "$1" "$work/area" &
    gateway=$!
    await_gateway
}

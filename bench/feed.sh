#!/bin/bash
# How long `feed` takes for scripts of 16 MiB, on one core: small datagrams of several kinds, up to tens of thousands of
# keys that are held at once, and the longest lists of them; bench/feed/scripts.py says what each kind is. Run it at the
# top of the repository; ./do prove builds the program first where that is wanting. The words are the kinds, all of them
# where there is none; RUNS in the environment says how many runs each best time is taken of, 3 where it is wanting.
#
# For each kind:
#   feed      seconds of the processor and by the clock, and how many datagrams in a second
#   reading   seconds for reading the script alone: the same text with a last line that is refused, so that nothing is
#             run; feed takes so many times that
#   cat       seconds for taking in the octets of the file
#   half      how many times as long as a script of half the octets and half the keys
#   memory    the most that the program had, and its bound: four times the script and the reserved length together
#
# It ends with status 1 where a feed isn't done or has more memory than its bound.
cd "$(dirname "$0")/.." || exit 1
MOST=16777216
RESERVED=16777216
RUNS=${RUNS:-3}
program=crates/cgf/out/cgf
work=$(mktemp -d)
trap 'rm -rf "$work"' EXIT
failed=0

# runs a program: sets used, taken, most and status
timed() {
    read -r used taken most status < <(python3 -B bench/feed/timed.py "$RUNS" "$@")
}

times() {
    awk -v a="$1" -v b="$2" 'BEGIN { if (b > 0) printf "%.2f", a / b; else printf "-" }'
}

measure() {
    local kind=$1 script=$work/script fed fed_by_clock memory bound octets datagrams reserved ended
    python3 -B bench/feed/scripts.py "$kind" $MOST >"$script" || exit 1
    octets=$(stat -c %s "$script")
    datagrams=$(grep -c '^in' "$script")
    reserved=$(awk '$1 == "reserve" { print $2 } $1 == "in" { exit }' "$script")
    timed "$program" feed "$script"
    fed=$used fed_by_clock=$taken memory=$most ended=$status
    printf '%s: %d octets, %d datagrams\n' "$kind" "$octets" "$datagrams"
    printf '  feed     %7.3f s, %.3f s by the clock, %.0f datagrams a second\n' "$fed" "$fed_by_clock" \
        "$(times "$datagrams" "$fed")"
    if [ "$ended" != 0 ]; then
        echo "  status $ended in the place of 0"
        failed=1
    fi
    sed '$s/end/none/' "$script" >"$work/refused"
    timed "$program" feed "$work/refused"
    printf '  reading  %7.3f s, and feed takes %s times that\n' "$used" "$(times "$fed" "$used")"
    timed /bin/cat "$script"
    printf '  cat      %7.3f s\n' "$used"
    python3 -B bench/feed/scripts.py "$kind" $((MOST / 2)) >"$script" || exit 1
    timed "$program" feed "$script"
    printf '  half     %7.3f s, and the whole takes %s times that\n' "$used" "$(times "$fed" "$used")"
    bound=$((4 * (octets + ${reserved:-$RESERVED})))
    printf '  memory   %7.1f MiB, and may have %.1f MiB\n' "$(times "$memory" 1048576)" "$(times "$bound" 1048576)"
    if [ "$memory" -ge "$bound" ]; then
        echo "  too much memory"
        failed=1
    fi
}

./do prove || exit 1
for kind in ${*:-echoes packets falling files held lists epochs}; do
    measure "$kind"
done
exit $failed

#!/bin/bash
# Twenty loops over UDP of this machine, or as many as the first word says, beside as many busy processes as it has
# processors. It runs the proved program, which ./do prove builds, or PROGRAM, and prints the status and the seconds of
# each. It ends with status 1 where one ends as neither 0 nor 9: a record would be filed twice, or not at all.
cd "$(dirname "$0")/.." || exit 1
program=$(realpath "${PROGRAM:-crates/cgf/out/cgf}")
busy=()
for _ in $(seq "$(nproc)"); do
    (while :; do :; done) & busy+=($!)
done
trap 'kill "${busy[@]}" 2>/dev/null' EXIT
bad=0
for run in $(seq "${1:-20}"); do
    begun=$(date +%s.%N)
    "$program" loopback 3 4 20 100000 >/dev/null 2>&1
    status=$?
    echo "run $run: status $status, $(date +%s.%N | awk -v begun="$begun" '{ printf "%.1f", $1 - begun }') s"
    case $status in 0 | 9) ;; *) bad=1 ;; esac
done
exit "$bad"

#!/bin/bash
# Runs the program on the stories of examples/, and compares what it writes with the outputs that stand beside them:
# NAME.out on standard output, and status 0; where there is a NAME.err, that on standard error, and status 2. Run it at
# the top of the repository. The outputs were made by the models of tools/model.
#
#   bench/examples.sh           the program on all of them
#   bench/examples.sh feed      the program on the feeds
#   bench/examples.sh replay    the program on the replays
#   bench/examples.sh model     the models on all of them
#
# It ends with status 1 where one differs.
cd "$(dirname "$0")/.." || exit 1
work=$(mktemp -d)
trap 'rm -rf "$work"' EXIT
failed=0

# what runs a story: the program, or the model of its command
tell() {
    local command=${1##*.}
    case $of/$command in
    model/feed) python3 -B tools/model/feed.py "$1" ;;
    model/replay) python3 -B tools/model/world.py "$1" ;;
    *) ./cgf "$command" "$1" ;;
    esac
}

compare() {
    local story=$1 name=${1%.*} error=/dev/null wanted=0 status
    if [ -e "$name.err" ]; then
        error=$name.err
        wanted=2
    fi
    tell "$story" >"$work/out" 2>"$work/err"
    status=$?
    if [ $status = $wanted ] && cmp -s "$work/out" "$name.out" && cmp -s "$work/err" "$error"; then
        echo "$story: as it should be"
        return
    fi
    echo "$story: differs; status $status, wanted $wanted"
    diff "$name.out" "$work/out" | cut -c 1-160
    diff "$error" "$work/err"
    failed=1
}

case ${1:-all} in
all) of=program stories=(examples/*.feed examples/*.replay) ;;
feed) of=program stories=(examples/*.feed) ;;
replay) of=program stories=(examples/*.replay) ;;
model) of=model stories=(examples/*.feed examples/*.replay) ;;
*)
    sed -n 's/^#   //p' "$0" >&2
    exit 64
    ;;
esac
# the first run builds the program, where that isn't done
[ $of = model ] || ./do prove || exit 1
for story in "${stories[@]}"; do
    compare "$story"
done
exit $failed

#!/bin/bash
# Small tools for whoever works on this repository. Plain shell: bash, awk, grep, find, sort and comm.
#
#   ./do check CRATE    proves a crate, with its tests; what was proved before is kept
#   ./do prove          builds the proved program, which ./cgf runs from then on
#   ./do install FOLDER copies the proved program with its page and its completion to FOLDER, where it runs without the kit
#   ./do gate           the gate: everything from nothing, and how long it took
#   ./do where NAME     where a name is defined and where its body stands, and the clauses, tests, edits and pages that
#                       speak of it; also a lemma, test, edit or file of that name; NAME may have a crate, and a
#                       type or a file, in front, which say where it stands: gw_base::Moment::of; a number, as of a
#                       cause, finds its constants
#   ./do map [CRATE]    what the crates, or one, stand on, and what each file of it holds: its first line
#   ./do proved [CRATE] the public calls with their clauses, made from the sources
#   ./do stories        puts the stories in examples/ behind those of crates/story_runs, where they have changed
#   ./do docs           what the documents say that the sources don't; silent where there is nothing
unset CDPATH
top=$(dirname "$(readlink -f "$0")")
cd "$top" || exit 1

usage() {
    sed -n 's/^#   //p' "$0" >&2
    exit 64
}

# The source files of all crates, or of the one that is given.
sources() {
    find "crates/${1:-}" -path '*/out' -prune -o -path '*/src/*' -name '*.rt' -print | sort
}

specs() {
    find "crates/${1:-}" -path '*/out' -prune -o -path '*/specs/*' -name '*.antt' -print | sort
}

proofs() {
    find "crates/${1:-}" -path '*/out' -prune -o -path '*/proofs/*' -name '*.antt' -print | sort
}

items() {
    xargs awk -f tools/items.awk
}

definitions() {
    xargs awk -f tools/definitions.awk
}

. tools/where.sh
. tools/proved.sh
. tools/stories.sh
. tools/docs.sh
. tools/program.sh
. tools/install.sh

# What a crate stands on, and the first line of each file of it: of its definitions, then of its sources.
map() {
    local file
    grep -E "^$1( staticlib)?:" crates.txt
    for file in $(specs "$1" | grep -v /Lib.antt) $(sources "$1"); do
        printf '    %-34s %s\n' "${file#crates/"$1"/}" "$(sed -n '/^\(--\|\/\/[!\/]\)/ { s/^\(--\|\/\/[!\/]\) *//; p; q }' "$file")"
    done
}

case ${1:-} in
check)
    [ $# = 2 ] || usage
    [ -d "crates/$2" ] || { echo "no crate has the name $2" >&2; exit 1; }
    cd "crates/$2" && rt check && rt check --test
    ;;
prove)
    [ $# = 1 ] || usage
    prove_program || exit
    ;;
install)
    [ $# = 2 ] || usage
    install_program "$2"
    ;;
map)
    [ $# -le 2 ] || usage
    for crate in ${2:-$(ls crates)}; do
        [ -d "crates/$crate" ] || { echo "no crate has the name $crate" >&2; exit 1; }
        map "$crate"
    done
    ;;
gate)
    started=$(date +%s)
    .ci/run
    status=$?
    echo "the gate took $((($(date +%s) - started) / 60)) minutes" >&2
    exit $status
    ;;
where)
    [ $# = 2 ] || usage
    where "$2"
    ;;
proved)
    for crate in ${2:-$(ls crates)}; do
        [ -d "crates/$crate" ] || { echo "no crate has the name $crate" >&2; exit 1; }
        proved "$crate"
        echo
    done
    ;;
stories)
    for part in stdin stdout; do
        whole=$(mktemp) && stories_file $part >"$whole" && cat "$whole" >"$stories_folder/$part"
        rm "$whole"
    done
    ;;
docs)
    found=$(docs)
    [ -z "$found" ] || { printf '%s\n' "$found"; exit 1; }
    ;;
*) usage ;;
esac

# The stories of examples/ among those that crates/story_runs runs.

stories_folder=crates/story_runs

# The lines of a file of story_runs up to the first story of examples/.
stories_before() {
    sed '/^== examples\//,$d' "$1"
}

# What a replay hands back, by its settings: an area and a shelf for each gateway, and its nodes.
handed_back() {
    awk 'BEGIN { gateways = nodes = 1 } $1 == "gateways" { gateways = $2 } $1 == "nodes" { nodes = $2 }
        END { print "handed back: areas " gateways ", shelves " gateways ", nodes " nodes }' "$1"
}

# How a story ends: as its file NAME.err says, or done.
story_end() {
    local name=${1%.*}
    if [ -e "$name.err" ]; then
        echo "status 2, $(cat "$name.err")"
        return
    fi
    echo "status 0, cgf: done"
    [ "${1##*.}" != replay ] || handed_back "$1"
}

# What the file stdin, or stdout, of story_runs has of each feed and each replay.
stories() {
    local LC_ALL=C story between=
    for story in examples/*.feed examples/*.replay; do
        printf '%s' "$between"
        between=$'\n'
        echo "== $story"
        case $1 in
        stdin)
            echo "${story##*.} -"
            cat "$story"
            ;;
        stdout)
            cat "${story%.*}.out"
            story_end "$story"
            ;;
        esac
    done
}

# The file as it is to be.
stories_file() {
    stories_before "$stories_folder/$1"
    stories "$1"
}

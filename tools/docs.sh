# What ./do docs tests.

# Every clause of every call as CRATE CALL LABEL, with the type and without it.
clauses_of_all() {
    sources | items | awk -F'\t' '
        $1 == "item" { split($2, path, "/"); crate = path[2]; call = $7; print crate "\t" call "\t-"; next }
        { print crate "\t" call "\t" $5 }'
}

docs() {
    local work page
    work=$(mktemp -d)
    trap 'rm -rf "$work"' EXIT
    check_map "$work"
    check_libraries "$work"
    check_picture "$work"
    tools/pictures --check
    for page in stdin stdout; do
        stories_file $page | cmp -s - "$stories_folder/$page" ||
            echo "$stories_folder/$page: not as examples/ has the stories; ./do stories puts them there"
    done
    [ -n "${NO_TOOLS:-}" ] || tools/test
    # what the sources name, without comments
    {
        sources | xargs sed 's,//.*,,'
        specs | xargs sed 's,--.*,,'
        cat crates.txt do cgf
        sources
        specs
        ls -R bench examples docs crates/*/must-fail
    } | grep -oE '[A-Za-z_][A-Za-z0-9_]*' | sort -u >"$work/words"
    clauses_of_all | sort -u >"$work/clauses"
    for page in README.md CONTRIBUTING.md CHANGELOG.md docs/*.md docs/*/*.md bench/README.md examples/README.md; do
        [ -e "$page" ] || continue
        check_paths "$page"
        check_labels "$page"
        check_names "$page" "$work"
        awk -v page="$page" 'length($0) > 120 && !/^\|/ && !/^    / { print page ":" FNR ": " length($0) " columns" }' \
            "$page"
    done
}

# Each definition file has a first line that says what it holds, as ./do map prints it. The map and the inventory have
# each crate, and the map names only definition files that their crate has.
check_map() {
    local work=$1 page crate
    specs | grep -v '/Lib\.antt$' >"$work/files"
    xargs awk 'FNR == 1 && !/^-- *[^ -]/ { print FILENAME ": the first line doesn\047t say what the file holds" }' \
        <"$work/files"
    sed 's,^crates/,,; s,/specs/,\t,' "$work/files" | sort >"$work/there"
    awk '/^#+ / { crate = ""; if (match($0, /`[a-z_0-9]+`/)) crate = substr($0, RSTART + 1, RLENGTH - 2) }
        crate != "" { line = $0; while (match(line, /`[A-Za-z0-9]+\.antt`/)) {
            print crate "\t" substr(line, RSTART + 1, RLENGTH - 2); line = substr(line, RSTART + RLENGTH) } }' \
        docs/ARCHITECTURE.md | sort -u | comm -13 "$work/there" - |
        sed 's,\t,/specs/,; s,^,docs/ARCHITECTURE.md: no such file ,'
    for page in docs/ARCHITECTURE.md docs/PROVED.md; do
        for crate in $(ls crates); do
            grep -qE "^#+ .*\`$crate\`" "$page" || echo "$page: no heading for the crate $crate"
        done
    done
}

# Each library that the files of a crate name is on its line of crates.txt, and no other is.
check_libraries() {
    local work=$1 crate libraries
    sed 's/#.*//; s/ staticlib:/:/; /:/!d; s/://' crates.txt >"$work/uses"
    tr ' ' '\n' <"$work/uses" | sort -u >"$work/libraries"
    while read -r crate libraries; do
        tr ' ' '\n' <<<"$libraries" | sed '/^$/d' | sort >"$work/listed"
        {
            sources "$crate" | xargs sed 's,//.*,,'
            { specs "$crate"; proofs "$crate"; } | xargs -r sed 's,--.*,,'
            cat /dev/null "crates/$crate/must-fail"/*.edit 2>/dev/null
        } | grep -oE 'Rattle\.[a-z_0-9]+|(^|[^:A-Za-z_0-9])[a-z_0-9]+::' | grep -oE '[a-z_0-9]+(::)?$' | sed 's/::$//' |
            grep -vxF -- "$crate" | sort -u | comm -12 - "$work/libraries" >"$work/named"
        comm -23 "$work/listed" "$work/named" | sed "s,.*,crates.txt: no file of $crate names &,"
        comm -13 "$work/listed" "$work/named" | sed "s,.*,crates.txt: $crate names &\, which its line lacks,"
    done <"$work/uses"
}

# The picture of the layers has each crate, and each pair of it is in crates.txt. A name stands on those behind its
# lines, and on those that hang from it.
check_picture() {
    local work=$1
    sed 's/#.*//; s/ staticlib:/:/; /:/!d' crates.txt >"$work/pairs"
    sed -n '/^## Layers/,/^## How/s/^    //p' docs/ARCHITECTURE.md |
        sed 's/├/+/g; s/└/+/g; s/─/-/g; s/│/|/g' | awk '
        function pair(a, b) { if (!((a, b) in there)) wrong(a " doesn\047t stand on " b) }
        function wrong(text) { print "docs/ARCHITECTURE.md: by crates.txt " text ", as the picture has it" }
        NR == FNR {
            split($0, half, ":"); crates[half[1]] = 1
            n = split(half[2], list, " "); for (i = 1; i <= n; i++) there[half[1], list[i]] = 1
            next
        }
        /^beneath:/ { below = 1 }
        # beneath: NAME under NAME, NAME and NAME; or under all but these
        below { words = words " " $0; next }
        !match($0, /[a-z]/) || /:$/ { next }
        {
            column = RSTART; text = substr($0, column); sub(/  .*/, "", text)
            count = split(text, chain, / -+ /)
            for (i = 1; i <= count; i++) {
                n = split(chain[i], names, ", ")
                for (k = 1; k <= n; k++) {
                    shown[names[k]] = 1
                    if (i > 1) pair(first, names[k])
                    else for (c = column - 1; c > 0; c--) if (c in at) { pair(at[c], names[k]); break }
                }
                first = names[1]
                if (i == 1) { for (c in at) if (c + 0 >= column) delete at[c]; at[column] = first }
            }
        }
        END {
            sub(/^ beneath: /, "", words); count = split(words, parts, "; ")
            for (i = 1; i <= count; i++) if (match(parts[i], / under /)) {
                name = substr(parts[i], 1, RSTART - 1); rest = substr(parts[i], RSTART + 7)
                shown[name] = 1; but = sub(/^all but /, "", rest); sub(/ too$/, "", rest); gsub(/,| and /, " ", rest)
                n = split(rest, list, " "); split("", named); for (k = 1; k <= n; k++) named[list[k]] = 1
                if (!but) for (crate in named) pair(crate, name)
                if (but) for (crate in crates) if (crate != name && (((crate, name) in there) == (crate in named)))
                    wrong(crate (crate in named ? " stands on " : " doesn\047t stand on ") name)
            }
            for (crate in crates) if (!(crate in shown)) print "docs/ARCHITECTURE.md: the picture lacks " crate
        }' "$work/pairs" - | sort
}

# The spans between backquotes outside of blocks of code, as LINE SPAN.
spans() {
    awk '/^```/ { block = !block; next } !block && !/^    [^ -]/ {
        line = $0
        while (match(line, /`[^`]+`/)) {
            print FNR "\t" substr(line, RSTART + 1, RLENGTH - 2)
            line = substr(line, RSTART + RLENGTH)
        }
    }' "$1"
}

# Paths that a page names and links that it has: they are there. A bare name behind a path is of that path's folder, and
# one that begins with src, specs, proofs or must-fail is of its crate.
check_paths() {
    local page=$1 line target anchor file folder=
    awk '/^\[[^]]+\]: / { print FNR "\t" $NF; next }
        { line = $0; while (match(line, /\]\([^)]+\)/)) {
            print FNR "\t" substr(line, RSTART + 2, RLENGTH - 3); line = substr(line, RSTART + RLENGTH) } }' "$page" |
        while IFS=$'\t' read -r line target; do
            case $target in http*) continue ;; esac
            anchor=
            [[ $target == *#* ]] && anchor=${target#*#}
            file=${target%%#*}
            if [ -z "$file" ]; then file=$page; else file=$(dirname "$page")/$file; fi
            if [ ! -e "$file" ]; then
                echo "$page:$line: no such path $target"
            elif [ -n "$anchor" ] && ! headings "$file" | grep -qxF -- "$anchor"; then
                echo "$page:$line: no such heading $target"
            fi
        done
    spans "$page" | grep -E $'\t''[^ ]*(/[^ ]*|\.(antt|rt|md|sh|feed|edit|txt))$' |
        while IFS=$'\t' read -r line target; do
            [[ $target =~ ^[A-Za-z0-9_./-]+$ && $target != /* ]] || continue
            [[ $target =~ ^[A-Za-z]+\.antt$ ]] && [ "$page" = docs/ARCHITECTURE.md ] && continue
            [[ $target != */* && -n $folder && -e $folder/$target ]] && continue
            if [[ $target =~ ^(src|specs|proofs|must-fail)/. && $page != docs/ARCHITECTURE.md && $folder == crates/*/* ]]; then
                file=crates/$(cut -d / -f 2 <<<"$folder")/$target
                [ -e "$file" ] || echo "$page:$line: no such path $target"
                folder=$(dirname "$file")
                continue
            fi
            for file in "$target" "crates/$target" "docs/$target" "$(dirname "$page")/$target" crates/*/"$target"; do
                [ -e "$file" ] || continue
                folder=$(dirname "$file")
                continue 2
            done
            echo "$page:$line: no such path $target"
        done
}

# Labels of links that a page uses and doesn't give a target.
check_labels() {
    grep -oE '\]\[[^]]+\]' "$1" | sed 's/^..//; s/.$//' | sort -u | while read -r label; do
        grep -qF -- "[$label]: " "$1" || echo "$1: no target for [$label]"
    done
}

# The headings of a page as links name them.
headings() {
    sed -n 's/^##* //p' "$1" | tr 'A-Z' 'a-z' | sed 's/[^a-z0-9 _-]//g; s/ /-/g'
}

# Names in backquotes: `call: clause, clause` has these clauses, `crate::name` is in the crate, a word is somewhere.
check_names() {
    local page=$1 work=$2 line span call labels label crate last
    spans "$page" | sort -u -k 2 | while IFS=$'\t' read -r line span; do
        if [[ $span =~ ^([a-z_0-9]+::)*([A-Z][A-Za-z0-9]*::)?[a-z_0-9]+:\ [a-z_,\ 0-9]+$ ]]; then
            call=${span%%: *}
            [ ! -d "crates/$call" ] || continue
            for label in $(tr ',' ' ' <<<"${span#*: }"); do
                has_clause "$call" "$label" "$work" || echo "$page:$line: $call has no clause $label"
            done
        elif [[ $span =~ ^[A-Za-z_][A-Za-z0-9_]*(::[A-Za-z_][A-Za-z0-9_]*)+$ ]]; then
            has_name "$span" "$work" || echo "$page:$line: no such name $span"
        elif [[ $span =~ ^[A-Za-z_][A-Za-z0-9_]*$ && ! $span =~ ^[A-Z]+$ && ! $span =~ ^[0-9A-F]+$ ]]; then
            grep -qxF -- "$span" "$work/words" || echo "$page:$line: no such name $span"
        fi
    done
}

# Whether a call, perhaps with crate, module and type in front, has a clause of this name.
has_clause() {
    awk -F'\t' -v wanted="$1" -v label="$2" '
        BEGIN {
            n = split(wanted, parts, "::"); tail = parts[n]
            if (n > 1 && parts[n - 1] ~ /^[A-Z]/) tail = parts[n - 1] "::" tail
        }
        $3 == label {
            call = $2; short = call; sub(/^.*::/, "", short)
            if ((call == tail || short == tail) && (n == 1 || parts[1] ~ /^[A-Z]/ || parts[1] == $1)) hit = 1
        }
        END { exit !hit }' "$3/clauses"
}

# Whether a name with `::` is one of the sources: a crate in front has the last word as an item, or a type has it.
has_name() {
    local first=${1%%::*} last=${1##*::}
    if [ -d "crates/$first" ]; then
        { sources "$first"; specs "$first"; } | xargs sed 's,//.*,,; s,--.*,,' | grep -wF -- "$last" >/dev/null
    else
        grep -qxF -- "$last" "$2/words" && grep -qxF -- "$first" "$2/words"
    fi
}

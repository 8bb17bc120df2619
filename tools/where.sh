# What ./do where tells of a name.

# The edits of some crates: FILE SOURCE-FILE LINE, of the line that each changes, with tabs between.
edits() {
    find "${@/#/crates/}" -path '*/out' -prune -o -path '*/must-fail/*.edit' -print | xargs -r awk '
        FNR == 1 { told = 0 }
        /^file: / { source = FILENAME; sub(/must-fail\/.*/, substr($0, 7), source) }
        /^old: / && !told {
            told = 1
            old = substr($0, 6); n = 0; at = ""
            while (at == "" && (getline line <source) > 0) { n++; if (index(line, old)) at = n }
            close(source)
            print FILENAME "\t" source "\t" at
        }'
}

where() {
    local wanted=$1 crate= type= word rest found=0
    local -x LC_ALL=C
    # a number is that of a constant, as causes are; what is no name may stand in a page or in a story
    if [[ $wanted =~ ^[0-9][0-9_,]*$ ]]; then
        numbered "${wanted//[_,]/}"
        return
    fi
    if [[ ! $wanted =~ ^[A-Za-z_0-9]+(::[A-Za-z_0-9]+)*$ ]]; then
        rest=$(grep -rnF --include='*.md' -- "$wanted" README.md CONTRIBUTING.md docs
            grep -nF -- "$wanted" crates/*/stdout)
        show "documents and stories" "$(cut -c 1-110 <<<"$rest")"
        [ -n "$rest" ] && return
        echo "no document and no story has $wanted" >&2
        return 1
    fi
    word=${wanted##*::}
    rest=${wanted%"$word"}
    rest=${rest%::}
    if [ -n "$rest" ]; then
        if [ -d "crates/${rest%%::*}" ]; then
            crate=${rest%%::*}
            rest=${rest#"$crate"}
            rest=${rest#::}
        fi
        type=${rest##*::}
    elif [ -d "crates/$word" ]; then
        echo "crate: crates/$word, see docs/ARCHITECTURE.md"
        found=1
    fi
    # a long line is cut at a space
    local short='function short(text) {
        if (length(text) > 100) { text = substr(text, 1, 100); sub(/ [^ ]*$/, " ..", text) }
        return text
    }
    '
    # A crate or a type in front says where the name stands, and nothing of where it is used.
    local all files bodies parts defined crates importers text methods hits citations
    files=$(sources; specs)
    all=$(grep '\.rt$' <<<"$files" | items)
    bodies=$(awk -F'\t' -v word="$word" -v type="$type" -v crate="$crate" '
        $1 == "item" && $5 != "test" && (crate == "" || index($2, "crates/" crate "/") == 1) {
            n = split($7, parts, "::")
            if (parts[n] == word && (type == "" || n > 1 && parts[n - 1] == type || index($2, "/" type ".rt"))) print
        }' <<<"$all")
    parts=$(awk -F'\t' '$5 == "field" || $5 == "variant"' <<<"$bodies")
    defined=$(specs "$crate" | { [ -z "$type" ] && cat || grep "/$type\.antt$"; } | definitions |
        awk -F'\t' -v word="$word" '$3 == word')
    crates=$(reaching "$bodies" "$defined")
    importers=$(importing "$word" "$bodies" "$defined" "$crates" "$files")
    text=$(pattern "$word" "$type" "$bodies")
    if [ -n "$defined" ]; then
        found=1
        show definition "$(awk -F'\t' "$short"'{ print $1 ":" $2 ": " short($4) }' <<<"$defined")"
        [ -n "$crate" ] || [ "$(cut -d / -f 2 <<<"$defined" | sort -u | wc -l)" -lt 2 ] ||
            echo "    (of several crates: CRATE::$word is of one)"
    fi
    if [ -n "$defined" ] || grep -qE $'\t(struct|enum|type|trait)\t' <<<"$bodies"; then
        citations=$(citing "$word" "$importers" "$all")
        show "definitions that use it" "$(using "$word" "$importers")"
        show "clauses that cite it" "$(cut -f 1 <<<"$citations")"
    fi
    if [ -n "$bodies" ]; then
        found=1
        show body "$(grep -vxFf <(printf '%s\n' "$parts") <<<"$bodies" | awk -F'\t' '{ print $2 ":" $3 ": " $8 }')"
        [ -z "$parts" ] || show "field or variant" "$(awk -F'\t' '{ print $2 ":" $3 ": " $7 }' <<<"$parts")"
        cited "$all" "$bodies"
        # the other types that have a method of this name
        [[ ! $type =~ ^[A-Z] ]] || methods=$(awk -F'\t' -v word="$word" -v type="$type" '$1 == "item" {
            n = split($7, parts, "::")
            if (n > 1 && parts[n] == word && parts[n - 1] != type) print parts[n - 1] }' <<<"$all" | sort -u)
    fi
    [ -z "$bodies$defined" ] || hits=$(enclosing "$text" "$crates" "$type" "$methods" "$bodies" <<<"$all")
    [ -z "$bodies" ] || show "used in" "$(awk -F'\t' '
        $1 != "" && $1 != "test" && $2 !~ /tests\.rt$/ { print $2 ":" $3 ": " $5 }' <<<"$hits")"
    # what nothing above is told of: steps of proofs, tests, edits, and what lies beside the crates
    if [ -z "$type" ]; then
        local aside
        aside=$({
            proofs "$crate" | definitions | awk -F'\t' -v word="$word" "$short"'
                $3 == word { print $1 ":" $2 ": " short($4) }'
            awk -F'\t' -v word="$word" -v crate="$crate" '
                $1 == "item" && $5 == "test" && (crate == "" || index($2, "crates/" crate "/") == 1) {
                    n = split($7, parts, "::")
                    if (parts[n] == word) print $2 ":" $3 ": " $8
                }' <<<"$all"
            { specs "$crate"; sources "$crate"; } | grep -E "/$word(/mod)?\.(antt|rt)$"
            find "crates/$crate" examples bench tools -path '*/out' -prune -o \
                \( -name "$word" -o -name "$word.*" \) -type f -print |
                grep -vE '^crates/.*\.(antt|rt)$' | sort
        })
        if [ -n "$aside" ]; then
            found=1
            show "lemma, test, edit or file of that name" "$aside"
        fi
    fi
    # a definition without a body of its name is tried by what tries the calls whose clauses cite it
    local anew=$bodies$'\n'$defined
    if [ -z "$bodies" ] && [ -n "$defined" ]; then
        bodies=$(cut -f 2 <<<"$citations" | awk -F'\t' 'NR == FNR { wanted[$0] = 1; next }
            $1 == "item" && (($2 ":" $3) in wanted)' - <(printf '%s\n' "$all"))
        if [ -n "$bodies" ] && ! grep -q ^test <<<"$hits"; then
            text=$(awk -F'\t' '{ sub(/^.*::/, "", $7); print $7 }' <<<"$bodies" | sort -u | paste -sd '|')
            text="[^A-Za-z0-9_]($text)(::<[^(]*>)?[(]"
            crates=$(reaching "$bodies" "")
            hits=$(enclosing "$text" "$crates" "" "" "$bodies" <<<"$all")
        fi
    fi
    [ -z "$bodies$defined" ] || tried "$all" "$bodies" "$word" "$text" "$crates" "$type" "$hits"
    # a definition and a constant whose names differ in capitals alone
    local other=
    [[ ! $word =~ ^[a-z_0-9]+$ ]] || other=${word^^}
    [[ ! $word =~ ^[A-Z_0-9]+$ ]] || other=${word,,}
    if [ -n "$other" ] && [ -z "$type" ] && [ -n "$bodies$defined" ]; then
        show "the same in other capitals" "$({
            specs "$crate" | definitions | awk -F'\t' -v word="$other" "$short"'
                $3 == word { print $1 ":" $2 ": " short($4) }'
            awk -F'\t' -v word="$other" -v crate="$crate" '
                $1 == "item" && $5 == "const" && $7 == word && (crate == "" || index($2, "crates/" crate "/") == 1) {
                    print $2 ":" $3 ": " $8
                }' <<<"$all"
        })"
    fi
    local pages
    pages=$(in_backquotes "${type:+$type::}$word" README.md CONTRIBUTING.md docs/*.md docs/*/*.md)
    [ -n "$pages" ] || [ $found = 1 ] ||
        pages=$(grep -nFw -- "$wanted" README.md CONTRIBUTING.md docs/*.md docs/*/*.md)
    if [ -n "$pages" ]; then
        show documents "$(cut -c 1-110 <<<"$pages")"
        found=1
    fi
    if [ $found = 0 ]; then
        echo "no file, definition, body or document has the name $wanted" >&2
        return 1
    fi
    show "proved anew where it changes" "$(above "$(cut -f 1,2 <<<"$anew" | grep -oE 'crates/[a-z_0-9]+' |
        cut -d / -f 2 | sort -u)" | paste -sd ' ' | fold -s -w 100)"
}

# Where a number stands as a constant, a definition or the value of a field: its lines, and where the constants and the
# definitions are used.
numbered() {
    local constants names fields digits
    digits=$(sed 's/[0-9]/&_?/g' <<<"$1")
    constants=$(sources | xargs grep -nE "const [A-Z_0-9]+: [a-z0-9]+ = $digits;")
    names=$(specs | xargs grep -nE "^[a-z_0-9]+ = $1\$")
    fields=$({ sources | xargs grep -nE "(^|[ {(])[a-z_0-9]+: $digits( }|[,;]|\$)"
        specs | xargs grep -nE "[a-z_0-9]+ = $1( }|;|\$)" | grep -vE "^[^:]*:[0-9]+:[a-z_0-9]+ = "; })
    if [ -z "$constants$names$fields" ]; then
        echo "no constant is $1" >&2
        return 1
    fi
    show "constants that are $1" "$constants"
    show "definitions that are $1" "$names"
    show "fields that are $1" "$fields"
    [ -z "$fields" ] || show "proved anew where a field of this crate changes" "$(cut -d / -f 2 <<<"$fields" | sort -u |
        while read -r crate; do echo "$crate: $(above "$crate" | paste -sd ' ')"; done)"
    show documents "$(grep -rnwE --include='*.md' --include='cgf.1' -- \
        "$(rev <<<"$1" | sed -E 's/([0-9]{3})([0-9])/\1?,\2/g' | rev)" \
        README.md CONTRIBUTING.md docs | cut -c 1-110)"
    # each with its crate, as another one may have a constant of that name that is another number
    sed -E -e 's,^crates/([^/]*)/.*const ([A-Z_0-9]+):.*,\1::\2,' \
        -e 's,^crates/([^/]*)/[^:]*:[0-9]+:([a-z_0-9]+) = .*,\1::\2,' <<<"$constants${constants:+
}$names" | grep . | sort -u | while read -r name; do
        echo
        echo "== $name"
        where "$name"
    done
}

# These crates, and those that stand on them, in the order of crates.txt's names.
above() {
    awk -v first="$1" '
        BEGIN { n = split(first, list, /[ \n]+/); for (i = 1; i <= n; i++) hit[list[i]] = 1 }
        { sub(/#.*/, "") }
        /:/ {
            name = $0; sub(/( staticlib)?:.*/, "", name)
            deps[name] = $0; sub(/^[^:]*:/, "", deps[name])
        }
        END {
            do {
                more = 0
                for (name in deps) if (!(name in hit)) {
                    n = split(deps[name], list, " ")
                    for (i = 1; i <= n; i++) if (list[i] in hit) { hit[name] = 1; more = 1; break }
                }
            } while (more)
            for (name in hit) if (name in deps) print name
        }' crates.txt | sort
}

# A heading and the first lines under it, where there are any.
show() {
    [ -n "$2" ] || return 0
    echo "$1:"
    head -n 12 <<<"$2" | sed 's/^/    /'
    local more=$(($(wc -l <<<"$2") - 12))
    [ $more -le 0 ] || echo "    .. and $more more"
}

# The crates that may use one of these bodies or definitions, with spaces around each: its own, and for what is public
# those that stand on it.
reaching() {
    {
        awk -F'\t' '$2 != "" {
            split($2, path, "/")
            print path[2] "\t" ($6 == "pub" || $5 == "impl" || $5 == "variant" ? "pub" : "own")
        }' <<<"$1"
        awk -F'\t' '$1 != "" { split($1, path, "/"); print path[2] "\tpub" }' <<<"$2"
    } | awk -F'\t' 'NR == FNR { of[$1] = of[$1] == "pub" ? "pub" : $2; next }
        /:/ {
            line = $0; sub(/#.*/, "", line)
            name = line; sub(/( staticlib)?:.*/, "", name); sub(/^[^:]*:/, "", line)
            n = split(line, beneath, " ")
            hit = name in of
            for (i = 1; i <= n; i++) if (beneath[i] in of && of[beneath[i]] == "pub") hit = 1
            if (hit) printf " %s ", name
        }' - crates.txt
}

# Whether a path is of one of some crates.
within() {
    awk -v crates="$1" '{ split($0, path, "/") } index(crates, " " path[2] " ")'
}

# The files of sources and definitions that can mean a name of the logic: those where it is defined, and those that
# import it; of a field or a constructor all of the crates that may use it.
importing() {
    local word=$1 bodies=$2 defined=$3 crates=$4 files=$5 modules aliases
    modules=$({
        awk -F'\t' '$4 !~ /^  / || $4 ~ /^ *(abbrev|unfoldable) / { print $1 }' <<<"$defined" |
            sed -nE 's,^crates/([a-z_0-9]+)/specs/(.*)\.antt$,\1\\.specs\\.\2,p' | tr / . | sort -u
        awk -F'\t' '$5 ~ /^(struct|enum|type|trait)$/ {
            split($2, path, "/")
            print path[2] "\\.specs\\.declared\\.[A-Za-z_0-9.]*"
        }' <<<"$bodies" | sort -u
    } | paste -sd '|')
    if [ -z "$modules" ]; then
        [ -z "$defined" ] || within "$crates" <<<"$files"
        return
    fi
    files=$(xargs grep -lwF -- "$word" <<<"$files")
    # modules that pass it on
    aliases=$(grep '\.antt$' <<<"$files" | xargs -r grep -lE "^ *pub use Rattle\.($modules)\.\{(.*[ ,])?$word[,} ]" |
        sed -nE 's,^crates/([a-z_0-9]+)/specs/(.*)\.antt$,\1\\.specs\\.\2,p' | paste -sd '|')
    {
        cut -f 1 <<<"$defined"
        xargs -r grep -lE <<<"$files" "use Rattle\.($modules${aliases:+|$aliases})(\.\{(.*[ {,])?$word[,} ]| as )"
    } | sort -u
}

# How a text names it: what is called by its bracket, a method with its type in front by that or behind a dot, all else
# by its word.
pattern() {
    local word=$1 type=$2 end='[^A-Za-z0-9_]' free methods others
    free=$(awk -F'\t' '$5 ~ /^(fn|impl)$/ && $7 !~ /::/' <<<"$3")
    methods=$(awk -F'\t' '$5 ~ /^(fn|impl)$/ && $7 ~ /::/' <<<"$3")
    others=$(awk -F'\t' '$5 != "" && $5 !~ /^(fn|impl|field)$/' <<<"$3")
    if [ -z "$free$methods" ] || [ -n "$others" ]; then
        if [[ $type =~ ^[A-Z] && $word =~ ^[A-Z] ]]; then
            echo "[^A-Za-z0-9_]($type|Self)::$word$end"
        elif [[ $type =~ ^[A-Z] ]]; then
            echo "([^A-Za-z0-9_]($type|Self)::|[.])$word$end"
        else
            echo "[^A-Za-z0-9_]$word$end"
        fi
    elif [ -n "$methods" ] && [[ $type =~ ^[A-Z] ]]; then
        echo "([^A-Za-z0-9_]($type|Self)::$word$end|[.]$word(::<[^(]*>)?[(])"
    elif [ -z "$free" ]; then
        echo "(::|[.])$word(::<[^(]*>)?[(]"
    elif [ -z "$methods" ]; then
        echo "[^A-Za-z0-9_.]$word(::<[^(]*>)?[(]"
    else
        echo "[^A-Za-z0-9_]$word(::<[^(]*>)?[(]"
    fi
}

# Of these files, the calls whose clauses have this word, public ones first, and FILE:LINE of each behind a tab.
citing() {
    awk -F'\t' -v word="$1" -v files="$2" '
        BEGIN { n = split(files, list, "\n"); for (i = 1; i <= n; i++) named[list[i]] = 1 }
        function has(text,  at, before, after) {
            while (at = index(text, word)) {
                before = substr(text, at - 1, 1); after = substr(text, at + length(word), 1)
                if ((at == 1 || before !~ /[A-Za-z0-9_]/) && after !~ /[A-Za-z0-9_]/) return 1
                text = substr(text, at + length(word))
            }
            return 0
        }
        !($2 in named) { told = 1; next }
        $1 == "item" { file = $2; line = $3; seen = $6; call = $7; told = 0; next }
        !told && has($6) {
            told = 1
            clause = $5 == "-" ? "" : ", clause " $5
            print (seen == "pub" ? 0 : 1) "\t" file ":" line ": " call clause "\t" file ":" line
        }
    ' <<<"$3" | sort -s -k 1,1 | cut -f 2,3
}

# Of these files, the definitions in whose text a word stands, but for its own.
using() {
    grep '\.antt$' <<<"$2" | WORD=$1 xargs -r awk '
        function bare(line) { sub(/--.*/, "", line); return line }
        FNR == 1 { within = 0; fields = 0 }
        /^(use|pub use|pub mod|infix|open)/ { next }
        /^module / { within = 1; next }
        /^}/ { next }
        /^[^ -]/ { within = 0 }
        /^(pub )?(record|data) / { fields = 1 }
        /^[^ -]/ && !/^(pub )?(record|data) / { fields = 0 }
        /^[^ -]/ || !fields && /^ +(abbrev |unfoldable |pub )/ || within && /^  [^ -]/ {
            name = $0
            sub(/^ *(abbrev |unfoldable )?(pub )?(record |data )?/, "", name); sub(/[ :].*/, "", name)
        }
        name != ENVIRON["WORD"] && match(" " bare($0) " ", "[^A-Za-z0-9_]" ENVIRON["WORD"] "[^A-Za-z0-9_]") {
            if (!((FILENAME, name) in told)) print FILENAME ":" FNR ": " name
            told[FILENAME, name] = 1
        }'
}

# The clauses of the calls among these bodies, and the definitions that they cite, by the imports of their files.
cited() {
    local clauses words
    clauses=$(awk -F'\t' 'NR == FNR { first[$2] = first[$2] " " $3; last[$2 "\t" $3] = $4; next }
        $1 == "clause" && ($2 in first) {
            n = split(first[$2], starts, " ")
            for (i = 1; i <= n; i++) if ($3 >= starts[i] && $3 <= last[$2 "\t" starts[i]])
                print $2 ":" $3 ": " $4 " " ($5 == "-" ? "" : $5 " ") $6
        }' <(printf '%s\n' "$2") <(printf '%s\n' "$1"))
    show clauses "$(cut -c 1-200 <<<"$clauses")"
    words=$(cut -d : -f 1 <<<"$clauses" | sort -u | while read -r file; do
        [ -n "$file" ] || continue
        sed -n 's/^ *ghost use Rattle\.\([a-z_0-9]*\)\.specs\.\([A-Za-z]*\)\.{\(.*\)};$/\1 \2 \3/p' "$file" |
            while read -r owner module names; do
                [ -e "crates/$owner/specs/$module.antt" ] || continue
                for name in ${names//,/ }; do
                    grep -qFw -- "$name" <<<"$clauses" && echo "crates/$owner/specs/$module.antt: $name"
                done
            done
    done | sort -u)
    show "definitions that they cite" "$words"
}

# The functions of these crates in whose text a pattern stands, but for these bodies, by the items on standard input:
# KIND FILE FIRST LAST NAME VISIBILITY, with tabs. Where a method has its type in front, and other types have one of its
# name, a call behind a dot is told in the files that name the type, and not where `self` or the value's name is that of
# another such type; a value with the name of the type counts in each file. A method with arguments isn't called by an
# empty bracket.
enclosing() {
    PATTERN=$1 CRATES=$2 TYPE=$3 OTHERS=$4 BODIES=$(cut -f 2,3 <<<"$5") TEXTS=$(cut -f 8 <<<"$5") \
        awk -F'\t' '
        function snake(name,  s, i, c) {
            for (i = 1; i <= length(name); i++) {
                c = substr(name, i, 1)
                s = s (c ~ /[A-Z]/ && i > 1 ? "_" : "") tolower(c)
            }
            return s
        }
        # whether the value in front of a dot may be of the type
        function fits(before, owner,  value) {
            if (!typed || before !~ /\.$/) return 1
            value = before; sub(/\.$/, "", value); sub(/^.*[^A-Za-z0-9_]/, "", value)
            if (value == "self") return owner == ENVIRON["TYPE"]
            if (value == snake(ENVIRON["TYPE"])) names[FILENAME] = 1
            return !(value in other)
        }
        BEGIN {
            typed = ENVIRON["TYPE"] ~ /^[A-Z]/
            n = split(ENVIRON["OTHERS"], list, "\n"); for (i = 1; i <= n; i++) other[snake(list[i])] = 1
            alone = n == 0
            full = typed && ENVIRON["TEXTS"] ~ /fn / && ENVIRON["TEXTS"] !~ /\((&?(mut )?)?self\)/
            delete other[snake(ENVIRON["TYPE"])]
            n = split(ENVIRON["BODIES"], list, "\n"); for (i = 1; i <= n; i++) own[list[i]] = 1
        }
        FNR == NR {
            if ($1 == "item" && ($5 == "fn" || $5 == "impl" || $5 == "test")) {
                split($2, path, "/")
                if (!index(ENVIRON["CRATES"], " " path[2] " ")) next
                if (!($2 in count)) { ARGV[ARGC++] = $2; order[++files] = $2 }
                n = ++count[$2]
                from[$2, n] = $3; to[$2, n] = $4; told[$2, n] = $5 "\t" $2 "\t" $3 "\t" $4 "\t" $7 "\t" $6
                name[$2, n] = $7; mine[$2, n] = ($2 "\t" $3) in own
            }
            next
        }
        typed && match(" " $0 " ", "[^A-Za-z0-9_]" ENVIRON["TYPE"] "[^A-Za-z0-9_]") { names[FILENAME] = 1 }
        /^ *(ensures|requires|ghost use|\/\/)/ { next }
        {
            line = " " $0 " "; sub(/fn [a-z_0-9]+/, "fn", line)
            if (!match(line, ENVIRON["PATTERN"])) next
            if (full && substr(line, RSTART + RLENGTH - 1, 2) == "()") next
            before = substr(line, 1, RSTART)
            if (substr(line, RSTART, 1) != ".") before = ""
            for (i = 1; i <= count[FILENAME]; i++)
                if (FNR >= from[FILENAME, i] && FNR <= to[FILENAME, i] && !mine[FILENAME, i]) {
                    owner = name[FILENAME, i]; if (!sub(/::[^:]*$/, "", owner)) owner = ""
                    if (fits(before, owner)) hit[FILENAME, i] = 1
                }
        }
        END {
            for (f = 1; f <= files; f++) for (i = 1; i <= count[order[f]]; i++)
                if ((order[f], i) in hit && (!typed || alone || order[f] in names)) print told[order[f], i]
        }' -
}

# The tests that name a word, or else call a helper that does, the lines of a program that call it, the stories and
# lines that print it, and the edits that change a line of one of these bodies.
tried() {
    local all=$1 bodies=$2 word=$3 text=$4 crates=$5 type=$6 hits=$7 tests helpers hop lines
    lines=$(asking "$hits" "$all")
    tests=$({
        awk -F'\t' '$1 == "test" { print $2 ":" $3 ": " $5 }' <<<"$hits"
        [[ $word != *_* ]] || awk -F'\t' -v word="$word" -v crates="$crates" '$5 == "test" {
            split($2, path, "/"); name = $7; sub(/^.*::/, "", name)
            if (index(crates, " " path[2] " ") && index("_" name "_", "_" word "_")) print $2 ":" $3 ": " $7
        }' <<<"$all"
    } | sort -u)
    for hop in 1 2 3; do
        [ -z "$tests" ] || break
        helpers=$(awk -F'\t' '
            $1 != "test" && $2 ~ /^crates\/(replay_|world_)?trials\/|tests\.rt$/ && $5 !~ /::/' <<<"$hits")
        [ -n "$helpers" ] || break
        hits=$(enclosing "[^A-Za-z0-9_.]($(cut -f 5 <<<"$helpers" | sort -u | paste -sd '|'))[(]" \
            " $(cut -d / -f 2 <<<"$helpers" | sort -u | paste -sd ' ') " "" "" "$helpers" <<<"$all" |
            awk -F'\t' '{ split($2, path, "/") }
                NR == FNR { file[$2] = 1; if ($6 != "private") wide[path[2]] = 1; next }
                $2 in file || path[2] in wide' <(printf '%s\n' "$helpers") -)
        tests=$(awk -F'\t' '$1 == "test" { print $2 ":" $3 ": " $5 }' <<<"$hits" | sort -u)
    done
    if [ -n "$tests" ]; then
        show "tests that name it, or call a helper that does" "$tests"
    elif [ -n "$bodies" ] && [ -z "$lines" ]; then
        tests=$(cut -f 2 <<<"$bodies" | cut -d / -f 2 | sort -u | while read -r owner; do
            sources "$owner" | xargs grep -lE '#\[test\]'
        done)
        show "tests that name it" "none${tests:+; of its crate are}"
        [ -z "$tests" ] || head -n 12 <<<"$tests" | sed 's/^/    /'
    fi
    show "lines that call it" "$lines"
    [[ ! $word =~ ^[A-Z] ]] || show "stories and lines that print it" "$(printing "$word")"
    show "edits that must fail" "$({
        ls crates/*/must-fail/*.edit | within "$crates" | xargs grep -lE -- "$text" | while read -r edit; do
            [[ ! $type =~ ^[A-Z] ]] ||
                grep -qw "$type" "${edit%%/must-fail/*}/$(sed -n 's/^file: //p' "$edit")" || continue
            echo "$edit"
        done
        [[ $word != *_* ]] || ls crates/*/must-fail/*"$word"*.edit 2>/dev/null | within "$crates" |
            grep -E "[/_]${word}[_.]"
        [ -z "$bodies" ] || edits $(cut -f 2 <<<"$bodies" | cut -d / -f 2 | sort -u) |
            awk -F'\t' 'NR == FNR { if ($2 != "") { n++; file[n] = $2; first[n] = $3; last[n] = $4 } next }
                $3 != "" { for (i = 1; i <= n; i++) if (file[i] == $2 && $3 >= first[i] && $3 <= last[i]) print $1 }' \
                <(printf '%s\n' "$bodies") -
    } | sort -u)"
}

# The programs whose lines call lower crates.
line_programs="layer_runs journal_runs"

# The groups of lines of these programs that call one of these functions, each with its first such line.
asking() {
    local program
    for program in $line_programs; do
        asking_of "$program" "$1" "$2"
    done
}

# Those of one program: its functions among them, or what calls these there, and the forms of lines that it has for them.
asking_of() {
    local program=$1 asked more forms hop
    asked=$(awk -F'\t' -v at="crates/$program/" 'index($2, at) == 1 { print }' <<<"$2")
    for hop in 1 2; do
        [ -n "$asked" ] || return 0
        forms=$(awk -F'\t' '{ n = split($5, parts, "::"); print parts[n] }' <<<"$asked" | sort -u | while read -r name; do
            cat crates/"$program"/src/*.rt | sed -nE "s/^ *\"([a-z-]+)\" => ([a-z]+::|scene\.)?$name\(.*/\1/p"
        done)
        [ -z "$forms" ] || break
        asked=$(enclosing "[^A-Za-z0-9_.]($(cut -f 5 <<<"$asked" | sort -u | paste -sd '|'))[(]" " $program " "" "" \
            "$asked" <<<"$3")
    done
    [ -n "$forms" ] || return 0
    awk -v forms="$(paste -sd ' ' <<<"$forms")" '
        /^== / { name = substr($0, 4); next }
        index(" " forms " ", " " $1 " ") && / => / && !(name in told) {
            told[name] = 1; print FILENAME ":" FNR ": " name
        }' crates/"$program"/stdout
}

# The stories and the groups of lines in which a word is printed, each with the first line that has it.
printing() {
    awk -v word="$1" '
        /^== / { name = substr($0, 4); next }
        match(" " $0 " ", "[^A-Za-z0-9_]" word "[^A-Za-z0-9_]") && !((FILENAME, name) in told) {
            told[FILENAME, name] = 1; print FILENAME ":" FNR ": " name
        }' crates/story_runs/stdout $(printf 'crates/%s/stdout ' $line_programs)
}

# The lines of pages that have a name between backquotes.
in_backquotes() {
    NAME=$1 awk -F'`' '{
        for (i = 2; i <= NF; i += 2)
            if (match(" " $i " ", "[^A-Za-z0-9_]" ENVIRON["NAME"] "[^A-Za-z0-9_]")) {
                print FILENAME ":" FNR ":" $0
                break
            }
    }' "${@:2}"
}

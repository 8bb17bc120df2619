# Of Rattle's source files, a line for each item and for each clause, with tabs between:
#   item    FILE FIRST-LINE LAST-LINE KIND VISIBILITY NAME TEXT
#   clause  FILE LINE KEYWORD LABEL TEXT      of the call before it
# NAME has the type in front where the item stands in an impl or a trait. It reads what `rt fmt` lays out.
function flush_item() {
    if (name != "") {
        print "item\t" file "\t" first "\t" last "\t" kind "\t" seen "\t" name "\t" text
        printf "%s", clauses
    }
    name = ""; clauses = ""
}
function trim(s) { sub(/^ +/, "", s); sub(/ +$/, "", s); return s }
function depth_of(s,  opened) { opened = gsub(/\{/, "{", s); return opened - gsub(/\}/, "}", s) }
function end_clause() {
    if (keyword != "") {
        label = "-"
        body = clause
        if (match(body, /^[a-z_0-9]+ \{/)) { label = substr(body, 1, RLENGTH - 2); body = substr(body, RLENGTH) }
        clauses = clauses "clause\t" file "\t" clause_line "\t" keyword "\t" label "\t" trim(body) "\n"
    }
    keyword = ""
}
FNR == 1 { end_clause(); flush_item(); file = FILENAME; owner = ""; state = "out"; is_trait = 0 }
# inside a contract
state == "head" {
    line = $0
    sub(/\/\/.*/, "", line)
    if (keyword != "") {
        clause = clause " " trim(line)
        open += depth_of(line)
        if (open <= 0) {
            done = clause ~ /;$/
            sub(/;$/, "", clause)
            end_clause()
            if (done) { last = FNR; flush_item(); state = "out" }
        }
        next
    }
    if (match(line, /^ +(requires|ensures) /)) {
        keyword = line; sub(/^ +/, "", keyword); sub(/ .*/, "", keyword)
        clause = line; sub(/^ +(requires|ensures) /, "", clause)
        clause_line = FNR
        open = depth_of(clause)
        if (open <= 0) {
            done = clause ~ /;$/
            sub(/;$/, "", clause)
            end_clause()
            if (done) { last = FNR; flush_item(); state = "out" }
        }
        next
    }
    if (line == indent "{}") { last = FNR; flush_item(); state = "out"; next }
    if (line == indent "{") { state = "body"; next }
    if (line ~ /;$/ && line !~ /^ +\/\//) { last = FNR; flush_item(); state = "out"; next }
    if (line ~ /\{$/) { state = "body"; next }
    next
}
state == "body" {
    if ($0 == indent "}" || $0 == indent "};" || $0 == indent "];" || $0 == indent ");") {
        last = FNR; flush_item(); state = "out"
    }
    next
}
state == "fields" {
    if ($0 ~ /^}/) { last = FNR; flush_item(); state = "out"; next }
    if ($0 ~ /^    (pub(\([a-z]+\))? )?[A-Za-z_][A-Za-z0-9_]*( \{|\(|,|:| =|$)/) {
        field = $0; sub(/^ +(pub(\([a-z]+\))? )?/, "", field); sub(/[^A-Za-z0-9_].*/, "", field)
        part = (kind == "enum" ? "variant" : "field") "\t" seen "\t" holder "::" field "\t" trim($0)
        clauses = clauses "item\t" FILENAME "\t" FNR "\t" FNR "\t" part "\n"
    }
    next
}
# an impl or a trait begins
/^(pub(\([a-z]+\))? )?trait / {
    owner = $0; sub(/^(pub(\([a-z]+\))? )?trait /, "", owner); sub(/[^A-Za-z0-9_].*/, "", owner); is_trait = 1
    seen = ($0 ~ /^pub /) ? ($0 ~ /^pub\(/ ? "crate" : "pub") : "private"; trait_seen = seen
    print "item\t" FILENAME "\t" FNR "\t" FNR "\ttrait\t" seen "\t" owner "\t" trim($0)
    next
}
/^impl/ {
    owner = $0; sub(/ where .*/, "", owner); sub(/ *\{ *\}?$/, "", owner)
    is_trait = 0; of_trait = ""
    sub(/^impl *(<([^<>]|<[^<>]*>)*>)? */, "", owner)
    if (match(owner, / for /)) {
        of_trait = substr(owner, 1, RSTART - 1); owner = substr(owner, RSTART + 5)
        sub(/^.*::/, "", of_trait); sub(/[^A-Za-z0-9_].*/, "", of_trait)
    }
    sub(/[^A-Za-z0-9_].*/, "", owner)
    next
}
/^}/ { owner = ""; of_trait = ""; is_trait = 0; next }
# a member of a trait that clauses speak of
is_trait && /^ +ghost [a-z_]+:/ {
    name = $2; sub(/:$/, "", name)
    print "item\t" FILENAME "\t" FNR "\t" FNR "\tghost\t" trait_seen "\t" owner "::" name "\t" trim($0)
    name = ""
    next
}
# a function, a type, a constant, a macro
/^(    )?(pub(\([a-z]+\))? )?(const )?fn [a-z_]/ {
    indent = $0; sub(/[^ ].*/, "", indent)
    name = $0; sub(/^.*fn /, "", name); sub(/[^A-Za-z0-9_].*/, "", name)
    seen = ($0 ~ /^ *pub\(/) ? "crate" : ($0 ~ /^ *pub /) ? "pub" : "private"
    if (is_trait) seen = trait_seen
    kind = "fn"
    if (was_test) kind = "test"
    if (indent != "" && of_trait != "") kind = "impl"
    if (indent != "" && owner != "") name = owner "::" name
    first = FNR; last = FNR; text = trim($0); clauses = ""
    if ($0 ~ /\{\}$/ || $0 ~ /\{ .*\}$/) { flush_item() }
    else if ($0 ~ /\{$/) state = "body"
    else if ($0 ~ /;$/) flush_item()
    else state = "head"
    was_test = 0
    next
}
/^(pub(\([a-z]+\))? )?(struct|enum|type|static|macro_rules!) / || /^(    )?(pub(\([a-z]+\))? )?const [A-Z]/ {
    indent = $0; sub(/[^ ].*/, "", indent)
    kind = $0; sub(/^ *(pub(\([a-z]+\))? )?/, "", kind); sub(/ .*/, "", kind)
    name = $0; sub(/^ *(pub(\([a-z]+\))? )?(struct|enum|type|static|macro_rules!|const) /, "", name)
    sub(/[^A-Za-z0-9_].*/, "", name)
    seen = ($0 ~ /^ *pub\(/) ? "crate" : ($0 ~ /^ *pub /) ? "pub" : "private"
    if (indent != "" && owner != "") name = owner "::" name
    first = FNR; last = FNR; text = trim($0); clauses = ""
    holder = name
    if ($0 ~ /[;}]$/) flush_item(); else { state = (kind == "enum" || kind == "struct") ? "fields" : "body" }
    next
}
/^ *#\[test\]/ { was_test = 1; next }
END { end_clause(); flush_item() }

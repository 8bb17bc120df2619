# What ./do proved lists.

# The names that a crate offers: what lib.rt exports, and the modules that it opens.
exported() {
    local root=crates/$1/src/lib.rt module
    [ -e "$root" ] || root=crates/$1/src/main.rt
    reexported "$root"
    for module in $(sed -n 's/^pub mod \([a-z_]*\);.*/\1/p' "$root"); do
        echo "mod:$module"
        [ ! -e "crates/$1/src/$module.rt" ] || reexported "crates/$1/src/$module.rt"
    done
}

# The names of a file's `pub use` lines.
reexported() {
    tr '\n' ' ' <"$1" | grep -oE 'pub use [^;]*;' | sed 's/[A-Za-z_0-9]*:://g' |
        grep -oE '[A-Za-z_][A-Za-z0-9_]*' | grep -vxE 'pub|use|crate|self' | sort -u
}

# A crate's public calls with their clauses.
proved() {
    local crate=$1
    echo "$crate"
    sources "$crate" | items | awk -F'\t' -v names="$(exported "$crate")" '
    BEGIN { n = split(names, list, "\n"); for (i = 1; i <= n; i++) open[list[i]] = 1 }
    $1 == "item" {
        shown = 0
        if ($6 != "pub" || ($5 != "fn" && $5 != "impl")) next
        if ($2 ~ /tests\.rt$/) next
        n = split($7, parts, "::")
        module = $2; sub(/^.*\/src\//, "", module); sub(/\.rt$/, "", module); sub(/\/.*/, "", module)
        if (module != "lib" && module != "main" && !(("mod:" module) in open) && !(parts[1] in open)) next
        shown = 1
        print "\n  " $7 "    " $2 ":" $3
    }
    $1 == "clause" && shown { print "    " $4 " " ($5 == "-" ? "" : $5 " ") $6 }
    '
}

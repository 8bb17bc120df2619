# Of files of definitions, a line for each definition, constructor and field, with tabs between: FILE LINE NAME TEXT
/^ *(abbrev |unfoldable )?pub (record |data )[^ ]+/ || /^ *(abbrev|unfoldable) [^ ]+/ ||
    /^pub [^ ]+ :/ || /^[a-z][A-Za-z0-9_]* : / || /^(record|data) / {
    name = $0
    sub(/^ *(abbrev |unfoldable )?(pub )?(record |data )?/, "", name)
    if (name ~ /^mod /) next
    sub(/[ :].*/, "", name)
    print FILENAME "\t" FNR "\t" name "\t" $0
    inside = ($0 ~ /(record|data) /)
    next
}
inside && /^  +(pub )?[^ ]+ :/ {
    name = $0
    sub(/^ +(pub )?/, "", name); sub(/ .*/, "", name)
    print FILENAME "\t" FNR "\t" name "\t" $0
    next
}
/^[^ ]/ { inside = 0 }

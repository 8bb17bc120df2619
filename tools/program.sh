# The proved program: whether it stands for the sources as they are, and how it is built. For ./cgf and ./do; `top` is
# the top of the repository.
program=$top/crates/cgf/out/cgf
built=$top/crates/cgf/out/cgf.built

# The crates of the repository that the program stands on, and the program, each behind those that it uses.
crates_of_program() {
    awk '
        function visit(name,   deps, n, i) {
            if (name in seen || !(name in line)) return
            seen[name] = 1
            n = split(line[name], deps, " ")
            for (i = 1; i <= n; i++) visit(deps[i])
            print name
        }
        { sub(/#.*/, "") }
        /:/ {
            name = $0; sub(/( staticlib)?:.*/, "", name)
            deps = $0; sub(/^[^:]*:/, "", deps)
            line[name] = deps
        }
        END { visit("cgf") }' "$top/crates.txt"
}

# The files that a proof of the program reads, with 0 behind each: those of the crates that it stands on.
sources_of_program() {
    local crates
    mapfile -t crates < <(crates_of_program)
    (cd "$top" && find HANDLES crates.txt "${crates[@]/#/crates/}" -path '*/out' -prune -o -type f \
        \( -path '*/src/*' -o -path '*/specs/*' -o -path '*/proofs/*' -o -name HANDLES -o -name crates.txt \) \
        "$@" -print0)
}

# A sum of their names, and one of all that stands in them; of crates.txt the lines of these crates alone count.
names_sum() {
    sources_of_program | LC_ALL=C sort -z | sha256sum | cut -d ' ' -f 1
}

sources_sum() {
    {
        sources_of_program ! -name crates.txt | LC_ALL=C sort -z | (cd "$top" && xargs -0 sha256sum)
        crates_of_program | while read -r crate; do grep -E "^$crate( staticlib)?:" "$top/crates.txt"; done
    } | sha256sum | cut -d ' ' -f 1
}

# The kit's file with its name, and that name; nothing where there is no kit.
kit_file() {
    local page
    page=$(rt doc 2>/dev/null) && [ -r "$(dirname "$page")/KIT-ID" ] && echo "$(dirname "$page")/KIT-ID"
}

# Whether the program that stands was proved from these sources by this kit. The lines of `built` are the sum of the
# sources, the kit's file, its name, and the sum of the names; without a kit the program counts as proved by the one that
# made it. Where no file came, went or is newer, the sources aren't read.
is_proved() {
    local sum kit name names
    [ -x "$program" ] && [ -r "$built" ] || return 1
    { read -r sum; read -r kit; read -r name; read -r names; } <"$built"
    [ ! -e "$kit" ] || [ "$(head -n 1 "$kit")" = "$name" ] || return 1
    [ "$names" = "$(names_sum)" ] || return 1
    [ -n "$(sources_of_program -newer "$built" | head -c 1)" ] || return 0
    [ "$sum" = "$(sources_sum)" ] && touch "$built"
}

# Says which crates are at work, and how many are proved, whenever that changes, until it is stopped: on a terminal and
# elsewhere alike a line for each. rt removes a crate's stamp when it begins with it, and writes it when it is built.
tell_progress() {
    local crate left told=-1 begun=$SECONDS
    while true; do
        left=()
        for crate in "$@"; do
            [ -e "$top/crates/$crate/out/rlib/stamp" ] || left+=("$crate")
        done
        if [ "${#left[@]}" != "$told" ]; then
            told=${#left[@]}
            if [ "$told" -gt 0 ]; then
                echo "cgf: $(($# - told)) of $# crates are proved, $(((SECONDS - begun) / 60)) min so far;" \
                    "next: ${left[0]}" >&2
            fi
        fi
        sleep 2
    done
}

# Ends whatever the build started.
end_build() {
    [ -z "${teller:-}" ] || kill "$teller" 2>/dev/null
    [ -z "${builder:-}" ] || kill -TERM -- "-$builder" 2>/dev/null
    rm -rf "${room:-}"
}

# Builds the program, which proves it; one build at a time in a checkout.
prove_program() {
    local crates libraries sum kit status jobs
    command -v rt >/dev/null || { echo "cgf: rt isn't on the PATH: the program is built by Rattle's kit" >&2; return 70; }
    mkdir -p "$top/crates/cgf/out"
    exec 9>"$top/crates/cgf/out/cgf.building"
    if ! flock -n 9; then
        echo "cgf: another run is building the program; waiting for it" >&2
        flock 9
    fi
    if is_proved; then
        echo "cgf: the proved program stands" >&2
        return 0
    fi
    rm -f "$built"
    mapfile -t crates < <(crates_of_program)
    libraries=("${crates[@]:0:${#crates[@]}-1}")
    room=$(mktemp -d)
    trap end_build EXIT
    trap 'exit 130' INT
    trap 'exit 143' TERM HUP
    sum=$(sources_sum)
    kit=$(kit_file)
    # as many crates side by side as there are processors and, at 5 GB each, memory
    jobs=$(awk -v processors="$(nproc)" '/^MemAvailable/ {
        jobs = int($2 / 5000000); print jobs < 1 ? 1 : jobs < processors ? jobs : processors }' /proc/meminfo)
    echo "cgf: proving the program's ${#crates[@]} crates, $jobs at a time: about an hour of processor time" >&2
    tell_progress "${libraries[@]}" 9>&- &
    teller=$!
    set -m
    { (cd "$top/crates" && rt all check --jobs "$jobs") && echo end | (cd "$top/crates/cgf" && rt run -- feed -); } \
        >"$room/log" 2>&1 9>&- &
    builder=$!
    set +m
    wait "$builder"
    status=$?
    builder=
    if [ $status != 0 ] || [ ! -x "$program" ]; then
        cat "$room/log" >&2
        echo "cgf: not built" >&2
        return 70
    fi
    if [ "$sum" != "$(sources_sum)" ]; then
        echo "cgf: sources were changed while they were proved; prove them again" >&2
        return 70
    fi
    printf '%s\n' "$sum" "${kit:--}" "$(head -n 1 "${kit:-/dev/null}")" "$(names_sum)" >"$room/built"
    mv "$room/built" "$built"
    echo "cgf: the proved program is built: $((SECONDS / 60)) min $((SECONDS % 60)) s" >&2
}

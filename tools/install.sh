# What ./do install does.

# Copies the proved program, its man page and its completion to a folder, with a note of what it was made from.
install_program() {
    local to=$1 commit
    if ! is_proved; then
        echo "the proved program doesn't stand for these sources: ./do prove builds it" >&2
        return 1
    fi
    commit=$(git rev-parse HEAD 2>/dev/null || echo unknown)
    [ -z "$(git status --porcelain 2>/dev/null)" ] || commit="$commit, with changes"
    mkdir -p "$to/bin" "$to/share/man/man1" "$to/share/bash-completion/completions" "$to/share/doc/limedeck" &&
        install -m 755 "$program" "$to/bin/cgf" &&
        install -m 644 docs/cgf.1 "$to/share/man/man1/cgf.1" &&
        install -m 644 tools/completion.bash "$to/share/bash-completion/completions/cgf" &&
        printf '%s\n' "commit $commit" "kit $(sed -n 3p "$built")" "sources $(sed -n 1p "$built")" \
            >"$to/share/doc/limedeck/VERSION" &&
        echo "installed: $to/bin/cgf; what it was made from stands in $to/share/doc/limedeck/VERSION"
}

# Completion of cgf for bash: source it, or put it where bash-completion looks for it.
_cgf() {
    local word=${COMP_WORDS[COMP_CWORD]} command=${COMP_WORDS[1]}
    if [ "$COMP_CWORD" = 1 ]; then
        mapfile -t COMPREPLY < <(compgen -W "feed replay sample drill show serve stream loopback" -- "$word")
    elif [[ $command$COMP_CWORD =~ ^(serve[67]|stream[567])$ ]]; then
        mapfile -t COMPREPLY < <(compgen -f -- "$word")
        compopt -o filenames 2>/dev/null
    elif [ "$COMP_CWORD" = 2 ] && [[ $command =~ ^(feed|replay|show)$ ]]; then
        mapfile -t COMPREPLY < <(compgen -f -- "$word"; compgen -W - -- "$word")
        compopt -o filenames 2>/dev/null
    fi
}
complete -F _cgf cgf ./cgf

# The completion of words for bash: source it, or put it where bash-completion looks for it, as ./install does. Commands and
# options are those that the program's help tells.
_rbgsolve() {
    local word=${COMP_WORDS[COMP_CWORD]} program=${COMP_WORDS[0]} command=${COMP_WORDS[1]-} words=
    COMPREPLY=()
    if [ "$COMP_CWORD" -eq 1 ] || [ "$command" = help ]; then
        words=$("$program" --help 2>/dev/null | awk '/^Commands:/ { listed = 1; next } /^$/ { listed = 0 } listed { print $1 }')
        [ "$command" = help ] || words+=' --help --version'
    elif [[ $word == -* ]]; then
        words=$("$program" "$command" --help 2>/dev/null | grep -o -- '--[a-z-]*' | sort -u)
    else
        compopt -o filenames 2>/dev/null
        mapfile -t COMPREPLY < <(compgen -f -- "$word")
        return
    fi
    mapfile -t COMPREPLY < <(compgen -W "$words" -- "$word")
}
complete -F _rbgsolve rbgsolve

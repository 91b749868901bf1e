#compdef rbgsolve
# The completion of words for zsh: put it where zsh looks for it, as ./install does, under the name _rbgsolve.
_rbgsolve() {
    local -a commands
    commands=(${(f)"$($words[1] --help 2>/dev/null | awk '/^Commands:/ { listed = 1; next } /^$/ { listed = 0 } listed { name = $1; $1 = ""; print name ":" substr($0, 2) }')"})
    if ((CURRENT == 2)); then
        _describe command commands
        compadd -- --help --version
    elif [[ $words[2] == help ]]; then
        _describe command commands
    elif [[ $PREFIX == -* ]]; then
        compadd -- ${(fu)"$($words[1] $words[2] --help 2>/dev/null | grep -o -- '--[a-z-]*')"}
    else
        _files
    fi
}
_rbgsolve "$@"

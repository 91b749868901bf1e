# The completion of words for fish: put it where fish looks for it, as ./install does, under the name rbgsolve.fish.
function __rbgsolve_commands
    rbgsolve --help 2>/dev/null | awk '/^Commands:/ { listed = 1; next } /^$/ { listed = 0 } listed { name = $1; $1 = ""; print name "\t" substr($0, 2) }'
end
function __rbgsolve_options
    set -l words (commandline -opc)
    rbgsolve $words[2] --help 2>/dev/null | string match -rag -- '(--[a-z-]+)' | sort -u
end
complete -c rbgsolve -n __fish_use_subcommand -f -a '(__rbgsolve_commands)'
complete -c rbgsolve -n __fish_use_subcommand -f -a '--help --version'
complete -c rbgsolve -n '__fish_seen_subcommand_from help' -f -a '(__rbgsolve_commands)'
complete -c rbgsolve -n 'not __fish_use_subcommand; and string match -q -- "-*" (commandline -ct)' -f -a '(__rbgsolve_options)'

# Completion of tigercanon's words in bash, 4.0 or later. To have it, source this file, or put it under the name tigercanon
# into ~/.local/share/bash-completion/completions.

# The sets that a word may begin: with --stem the beginnings of counties' file names, otherwise files.
_tigercanon_sets() {
    local word="$1" is_stem="$2"
    compopt -o filenames
    if [ -n "$is_stem" ]; then
        mapfile -t COMPREPLY < <(compgen -f -X '!*.RT1' -- "$word" | sed 's/\.RT1$//'; compgen -d -- "$word")
    else
        mapfile -t COMPREPLY < <(compgen -f -- "$word")
    fi
}

_tigercanon() {
    local commands="normalise fingerprint compare respell check help"
    local word="${COMP_WORDS[COMP_CWORD]}" command="" flags="" is_stem="" are_names="" place
    for ((place = 1; place < COMP_CWORD; place++)); do
        case "${COMP_WORDS[place]}" in
            --) are_names=1 ;;
            --stem) is_stem=1 ;;
            -*) ;;
            *) command="${command:-${COMP_WORDS[place]}}" ;;
        esac
    done
    COMPREPLY=()
    case "$command" in
        "") flags="--help --version" ;;
        normalise | fingerprint | compare) flags="--stem --no-sources --no-reserved --help" ;;
        respell | check) flags="--stem --help" ;;
        help) ;;
        *) return ;;
    esac
    if [[ "$word" == -* && -z "$are_names" ]]; then
        mapfile -t COMPREPLY < <(compgen -W "$flags" -- "$word")
    elif [ -z "$command" ] || [ "$command" = help ]; then
        mapfile -t COMPREPLY < <(compgen -W "$commands" -- "$word")
    else
        _tigercanon_sets "$word" "$is_stem"
    fi
}

complete -F _tigercanon tigercanon

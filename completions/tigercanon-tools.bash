# Completion of tigercanon-tools in bash, 4.0 or later. Source this file, or copy it under the name tigercanon-tools
# into ~/.local/share/bash-completion/completions.
# tools/tool-pages writes the parts of this file that are from the help of tigercanon-tools.

_tigercanon_tools() {
    # help: begin commands
    local commands="fingerprint verify check duplicates changes diff table explain"
    # help: end
    local word="${COMP_WORDS[COMP_CWORD]}" command="" flags="" place
    for ((place = 1; place < COMP_CWORD; place++)); do
        case "${COMP_WORDS[place]}" in -*) ;; *) command="${command:-${COMP_WORDS[place]}}" ;; esac
    done
    case "$command" in
        "") flags="--help --version" ;;
        # help: begin flags
        fingerprint) flags="--help --version --output --update --again --prune --strict --program --jobs --scheduler --memory --largest --seconds --exclude --verbose --no-sources --no-reserved --json" ;;
        verify) flags="--help --version --quiet --quick --root --program --jobs --scheduler --memory --largest --seconds --exclude --verbose --no-sources --no-reserved --json" ;;
        check) flags="--help --version --quiet --program --jobs --scheduler --memory --largest --seconds --exclude --verbose --json" ;;
        duplicates) flags="--help --version --different --json" ;;
        changes) flags="--help --version --quiet --edition --json --stat --pages --root --jobs --program --force" ;;
        diff) flags="--help --version --program --no-sources --no-reserved --force --stem --summary --json --page --geojson --all" ;;
        table) flags="--help --version --program --geojson --output --force" ;;
        explain) flags="--help --version --program" ;;
        # help: end
    esac
    if [[ "$word" == -* ]]; then
        mapfile -t COMPREPLY < <(compgen -W "$flags" -- "$word")
    elif [ -z "$command" ]; then
        mapfile -t COMPREPLY < <(compgen -W "$commands" -- "$word")
    else
        compopt -o filenames
        mapfile -t COMPREPLY < <(compgen -f -- "$word")
    fi
}

complete -F _tigercanon_tools tigercanon-tools

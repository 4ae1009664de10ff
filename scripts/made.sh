# shellcheck shell=sh
# shellcheck disable=SC2034,SC2154
# Sourced by the scripts that make a file from the sources, or look for one that was made from them. $root is the repository's folder.
#
# Such a file lies in a folder with a file built-from, which has the hash of the sources, the kit, and the hash of each file. It counts as
# made from the sources as they are while both hashes are right. The program is proved and built in out/, and the library in
# out/library/lib; prebuilt/ has both, and the page.

# The most memory that one proof of this repository takes, in kB.
a_proof=5000000
# How long it takes on four processors to prove and build the program, and to compile it as the sources are. docs/measurements.md says more.
proving_takes="half an hour or longer"
compiling_takes="three minutes"

say() { printf '%s: %s\n' "${0##*/}" "$*" >&2; }

stop() {
    say "$*"
    exit "${status_of_stop-1}"
}

# Prints the comment at the beginning of the script, and ends the script.
stop_with_usage() {
    sed -n '2,/^set /s/^#\( \|$\)//p' -- "$(readlink -f -- "$0")" >&2
    exit 2
}

# Takes the arguments [--prove | --unproved] [FOLDER] of a script that makes out/$1: sets $has_to_prove, $unproved and $folder.
take_arguments() {
    folder="$root/out/$1"
    has_to_prove=""
    unproved=""
    shift
    case "${1-}" in
        --prove) has_to_prove=yes && shift ;;
        --unproved) unproved=-unproved && shift ;;
    esac
    case "$# ${1-}" in
        "0 ") folder="$folder$unproved" ;;
        "1 "[!-]*) folder="$(readlink -m -- "$1")" ;;
        *) stop_with_usage ;;
    esac
}

# Prints a hash that changes with each source that is edited, added, renamed or removed, and that is the same in each copy of the tree.
# Links are followed. What was proved of code and definitions stays proved, so proofs don't count.
hash_of_sources() (
    CDPATH="" cd -- "$root" && lines="$(find -L crates.txt HANDLES crates/*/src crates/*/specs -type f \
        \( -name '*.rt' -o -name '*.antt' -o -name crates.txt -o -name HANDLES \) -exec sha256sum {} +)" &&
        printf '%s\n' "$lines" | LC_ALL=C sort | sha256sum | cut -c 1-64
)

# Prints the line of built-from for the file $2 of the folder $1.
line_of() (CDPATH="" cd -- "$1" && sha256sum "$2")

# Whether the file $2 of the folder $1 was made from the sources of the hash $sources, and is as it was made.
is_made() {
    [ -f "$1/$2" ] && grep -qxF "sources: $sources" "$1/built-from" && grep -qxF "$(line_of "$1" "$2")" "$1/built-from"
} 2>/dev/null

# Whether that is so, and the kit on the PATH made it.
is_made_by_kit() { is_made "$1" "$2" && grep -qxF "kit: $(rt version)" "$1/built-from"; } 2>/dev/null

# Sets $found to the file $1, made from the sources as they are: the one that was built here, or else the prebuilt one. If there is none,
# $why has the reason.
find_made() {
    why="the sources can't be read, which takes find, sort and sha256sum"
    sources="$(hash_of_sources)" && [ -n "$sources" ] || return 1
    for folder in out out/library/lib prebuilt; do
        found="$root/$folder/$1"
        if is_made "$root/$folder" "$1"; then return 0; fi
    done
    if [ ! -f "$root/prebuilt/built-from" ]; then
        why="there is no prebuilt/built-from, and nothing was built here"
    elif grep -qxF "sources: $sources" "$root/prebuilt/built-from"; then
        why="prebuilt/$1 isn't the file that was made"
    else
        why="the sources were edited since prebuilt/ was made"
    fi
    return 1
}

# Whether the program $found starts here. Respelling nothing is its shortest run. If it doesn't, $why has the reason.
starts() {
    why="$({ "$found" respell /dev/null 2>&1 >/dev/null </dev/null; } 2>/dev/null)"
    case "$?" in 0 | [3-9]) return 0 ;; esac
    case "$why" in
        *"invalid UTF-8"*)
            why="the path $found isn't UTF-8, and the program doesn't start under such a name: rename the folder"
            return 1
            ;;
    esac
    why="$found doesn't start here ($(printf '%s\n' "${why:-it was ended}" | head -n 1)). It needs Linux on x86-64 with the GNU C library 2.34 or"
    why="$why later. In a browser the page $root/prebuilt/tigercanon.html does the same"
    return 1
}

# Puts the files of the folder $1 into the folder $2 of the same file system, with a built-from that has the hash $3 of the sources.
keep() {
    (CDPATH="" cd -- "$1" && { printf 'sources: %s\nkit: %s\n' "$3" "$(rt version)" && sha256sum -- *; } >../built-from.$$ &&
        mv ../built-from.$$ built-from) && mkdir -p -- "$2" && mv -f -- "$1"/* "$2/"
}

# Makes a folder in out/ for files that are being made, and sets $stage to it. It goes when this shell ends.
make_stage() {
    mkdir -p -- "$root/out" 2>/dev/null && stage="$(mktemp -d -- "$root/out/stage.XXXXXX")" || return 1
    trap 'rm -rf -- "$stage"' EXIT
}

# Runs a command or a function in a shell of its own, and waits for it. A signal that ends this shell ends the command first, and with setsid
# in front all that it has started.
attend() {
    "$@" </dev/null &
    attended=$!
    trap 'kill -- "-$attended" 2>/dev/null || kill "$attended"; wait "$attended"; exit 143' HUP INT TERM
    wait "$attended"
    set -- $?
    trap - HUP INT TERM
    return "$1"
}

# To be attended: becomes a command in the folder $1. The caller stays where it is, since $root may be a relative path.
within() {
    CDPATH="" cd -- "$1" && shift && exec "$@"
}

# Whether rt is on the PATH and has the logic that these sources are proved with. Sets $kit to the kit's folder, or $lacking to the
# reason why not.
has_kit() {
    logic="$(sed -n 's/^proved with:.*\(logic [0-9a-f]\{16\}\).*/\1/p' "$root/crates/command_line/src/command.rt")"
    lacking="rt, the command of the Rattle kit, is not on the PATH"
    command -v rt >/dev/null || return 1
    kit="$(rt version 2>/dev/null)"
    lacking="rt on the PATH is of another kit (${kit:-it has no version}): these sources are proved with ${logic:-no logic}"
    case "$kit" in *" ${logic:-no logic}") ;; *) return 1 ;; esac
    kit="$(dirname -- "$(dirname -- "$(readlink -f -- "$(command -v rt)")")")"
}

# Prints how many proofs run side by side: RT_JOBS, or one for each processor, or fewer if there is memory for fewer. If there is too
# little for one, nothing.
jobs_that_fit() {
    if [ -n "${RT_JOBS-}" ]; then
        echo "$RT_JOBS"
        return
    fi
    jobs="$(nproc)"
    fit="$(($(sed -n 's/^MemAvailable: *\([0-9]*\) kB$/\1/p' /proc/meminfo) / a_proof))"
    if [ "$fit" -lt "$jobs" ]; then jobs="$fit"; fi
    if [ "$jobs" -gt 0 ]; then echo "$jobs"; fi
}

# To be attended: proves all crates by the kit, and builds the program and its object into out/, unless this kit did it already, or there is
# none that could do it again. Standard error shows what the kit prints.
prove_program() {
    sources="$(hash_of_sources)" || stop "the sources can't be read"
    if is_made "$root/out" tigercanon; then
        if ! has_kit || is_made_by_kit "$root/out" tigercanon; then return; fi
        say "out/tigercanon was built by another kit, so this one proves and builds it again"
    fi
    has_kit || stop "the program has to be proved and built, and $lacking"
    make_stage || stop "$root/out can't be written"
    jobs="$(jobs_that_fit)"
    say "every crate is proved, and the program is built: $proving_takes on four processors"
    attend within "$root/crates" setsid rt all check --jobs "${jobs:-1}" >&2 &&
        attend within "$root/crates/tigercanon_main" setsid rt run -- respell /dev/null >&2 || stop "the program isn't proved"
    built="$root/crates/tigercanon_main/out/tigercanon_main"
    cp -- "$built" "$stage/tigercanon" || stop "$root/out can't be written"
    if [ -e "$built.o" ]; then cp -- "$built.o" "$stage/tigercanon.o" || stop "$root/out can't be written"; fi
    [ "$(hash_of_sources)" = "$sources" ] || stop "a source was edited meanwhile, so the program isn't that of the sources as they are"
    keep "$stage" "$root/out" "$sources" || stop "$root/out can't be written"
}

# To be attended: compiles the program as the sources are into out/unproved, unless it is there.
compile_program() {
    sources="$(hash_of_sources)" || stop "the sources can't be read"
    if is_made "$root/out/unproved" tigercanon; then return; fi
    has_kit || stop "the program has to be compiled, and $lacking"
    make_stage || stop "$root/out can't be written"
    say "compiling the sources as they are, which takes some $compiling_takes; the program stays in out/unproved until they are edited"
    attend setsid "$root/scripts/compile-unproved" --program "$stage" >&2 || exit "${status_of_stop-1}"
    keep "$stage" "$root/out/unproved" "$sources" || stop "$root/out can't be written"
}

# To be attended: proves and compiles the library for C into crates/tigercanon_c/out, unless this kit did it already: libtigercanon_c.a, and the
# module that the page is made of.
prove_library() {
    sources="$(hash_of_sources)" || stop "the sources can't be read"
    out="$root/crates/tigercanon_c/out"
    if is_made_by_kit "$out" libtigercanon_c.a && is_made "$out" module.bc; then return; fi
    make_stage || stop "$root/out can't be written"
    say "the library for C is proved and compiled: two to four minutes on four processors, over what the gate has proved"
    attend setsid "$root/scripts/prove-library" "$stage" >&2 || stop "the library isn't proved"
    [ "$(hash_of_sources)" = "$sources" ] || stop "a source was edited meanwhile, so the library isn't that of the sources as they are"
    keep "$stage" "$out" "$sources" || stop "$out can't be written"
}

# Prints the line of built-from for what the page's engine is made of besides the library.
hash_of_engine_sources() { printf "engine's sources: %s\n" "$(cat "$root"/page/engine/* | sha256sum | cut -c 1-64)"; }

# Prints the engine in the page $1.
engine_of() { sed -n 's/.* id="engine">\([^<]*\)<.*/\1/p' "$1" | base64 -d | gzip -dc; }

# Prints the program's version, as its own source has it. Fails if it isn't there.
version() { sed -n '/^const VERSION/{n;s/\\*$//p;q;}' "$root/crates/command_line/src/command.rt" | grep -xE '[0-9]+(\.[0-9]+)*'; }

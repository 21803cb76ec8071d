# shellcheck shell=bash disable=SC2034
# What the launcher, the gate and .ci/renew share; they source it. It asks for bash and coreutils alone.
top=$(cd "$(dirname "${BASH_SOURCE[0]}")/.." && pwd) || exit
# The program that the repository carries, and the one that stands built here. Beside each, NAME.from says of what it is.
carried=$top/bin/proud
built=$top/crates/proud_cli/out/proud_cli

# Reads crates.txt: `crates` are its names in order, `needs` what each names. What the file doesn't list is the kit's.
declare -A needs=()
crates=()
read_crates() {
    local line name
    while IFS= read -r line || [ -n "$line" ]; do
        line=${line%%#*}
        name=${line%%:*}
        name=${name%% *}
        [[ $line == *:* && -n $name ]] || continue
        crates+=("$name")
        needs[$name]=${line#*:}
    done <"$top/crates.txt"
}
read_crates

# The crates that a program stands on, and itself, in the order of crates.txt: one a line.
crates_of() {
    local -A wanted=()
    local crate
    mark() {
        local other
        [[ -v needs[$1] && ! -v wanted[$1] ]] || return 0
        wanted[$1]=1
        for other in ${needs[$1]}; do mark "$other"; done
    }
    mark "$1"
    for crate in "${crates[@]}"; do
        [[ ! -v wanted[$crate] ]] || printf '%s\n' "$crate"
    done
}

# The files from which the program is built: crates.txt, and the code, definitions and proofs of its crates. Tests are left out,
# and so is what an editor leaves behind.
source_files() (
    shopt -s globstar nullglob
    LC_ALL=C
    cd "$top" || exit
    printf '%s\n' crates.txt
    for crate in $(crates_of proud_cli); do
        for file in crates/"$crate"/{src,specs,proofs}/**; do
            case $file in */tests/* | */src/*tests.rt | *'~') continue ;; esac
            [ ! -f "$file" ] || printf '%s\n' "$file"
        done
    done
)

# One SHA-256 over all of these files and their names.
sources_sum() (
    cd "$top" || exit
    mapfile -t files < <(source_files)
    sum=$(sha256sum -- "${files[@]}" | sha256sum) && printf '%s\n' "${sum%% *}"
)

sum_of() {
    local sum
    sum=$(sha256sum <"$1") && printf '%s\n' "${sum%% *}"
}

# What PROGRAM.from says: its line of that word, without the word.
said() {
    local word rest
    while read -r word rest; do
        [ "$word" != "$2" ] || printf '%s\n' "$rest"
    done 2>/dev/null <"$1.from"
}

# A program with its .from, and unharmed.
stands() { [ -x "$1" ] && [ -f "$1.from" ] && [ "$(said "$1" program)" = "$(sum_of "$1")" ]; }

# That, and built from the sources with that sum.
is_of() { [ -f "$1.from" ] && [ "$(said "$1" sources)" = "$2" ] && stands "$1"; }

# Notes that the program was built by this kit from the sources with that sum.
note() {
    local kit
    kit=$(rt version) || return
    printf '%s\n' "kit $kit" "program $(sum_of "$1")" "sources $2" >"$1.from"
}

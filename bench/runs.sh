# shellcheck shell=bash
# What the scripts that compare runs share; they source it. It makes a folder `$work` for the time of a script, and in it the
# baseline `$by_hand`, the whole placer by hand (place_cells.rs).
set -eu
bench=$(cd "$(dirname "${BASH_SOURCE[0]}")" && pwd)
work=$(mktemp -d)
trap 'rm -rf "$work"' EXIT
by_hand=$work/place_cells
rustc --edition 2024 -C opt-level=3 -C target-cpu=x86-64-v2 -o "$by_hand" "$bench/place_cells.rs"

# The proved program of a crate, which is made where it is missing.
built() {
    local it=$bench/../crates/$1/out/$1
    [ -x "$it" ] || (cd "$bench/../crates/$1" && rt run >/dev/null </dev/null) || true
    [ -x "$it" ] || { echo "crates/$1 isn't built" >&2; return 1; }
    echo "$it"
}

# The placer as it is proved: the one that was built here, or else bin/proud.
proud() {
    local it=$bench/../crates/proud_cli/out/proud_cli
    [ -x "$it" ] || it=$bench/../bin/proud
    echo "$it"
}

# Makes `$aux` a copy of that design, since a placement goes beside it; `$design` says which one it is.
adopt() {
    design=$(basename "$(dirname "$1")")/$(basename "$1")
    rm -rf "$work/design"
    cp -rL "$(dirname "$1")" "$work/design"
    chmod -R u+w "$work/design"
    aux=$work/design/$(basename "$1")
    placement=${aux%.aux}.proud.pl
}

# Runs a command whose placement goes to `$placement`: its seconds, and its seconds of processor time, go behind those of the
# runs of the same name. What it prints is kept, and its placement, or an empty file where it makes none.
TIMEFORMAT='%R %U'
run() {
    local name=$1
    shift
    rm -f "$placement"
    { time "$@" >"$work/$name.told" 2>"$work/$name.work" || true; } 2>>"$work/$name.seconds"
    [ -e "$placement" ] || : >"$placement"
    mv "$placement" "$work/$name.pl"
}

# Fails where the last runs of two names printed or placed something else.
same() {
    cmp "$work/$1.told" "$work/$2.told"
    cmp "$work/$1.pl" "$work/$2.pl"
}

# The median of the runs of that name in milliseconds: of the time (1), or of the processor time (2).
median() {
    awk -v column="$2" '{ print int($column * 1000 + 0.5) }' "$work/$1.seconds" | sort -n |
        awk '{ all[NR] = $1 } END { print all[int((NR + 1) / 2)] }'
}
ratio() { awk -v a="$1" -v b="$2" 'BEGIN { if (b > 0) printf "%.2f", a / b; else printf "-" }'; }

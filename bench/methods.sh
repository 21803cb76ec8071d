#!/usr/bin/env bash
# What the ways of a crew cost: places designs, and grids without a cut, with one seat and with four, by hand from the ends of the
# boxes with sweeps alone, with coarse numbers first, and with marks besides, and with the proved program, which does as the last.
# It compares byte for byte what they print and place, and prints the relaxations of all seats and the medians of RUNS runs, by
# default three, in milliseconds. Usage: bench/methods.sh [--runs RUNS] [AUX | SIDE ..], by default the designs of designs/ and grids
# of 32 and of 60 cells a side.
. "$(dirname "$0")/runs.sh"
program=$(proud)
runs=3
if [ "${1-}" = --runs ]; then
    runs=$2
    shift 2
fi
[ $# -gt 0 ] || set -- "$bench"/../designs/*/*.aux 32 60

# The relaxations that the last run of that name told, of all seats and all solves.
relaxations() {
    { grep -o '[0-9]*[],]' "$work/$1.work" || true; } | tr -d '],' | awk '{ sum += $1 } END { print sum + 0 }'
}
for given in "$@"; do
    case $given in
        *.aux)
            adopt "$given"
            words=("$aux")
            ;;
        *)
            design="grid of $given by $given" placement=$work/grid.proud.pl
            words=(--levels 0 --out "$placement" --grid "$given,$given,1")
            ;;
    esac
    for seats in 1 4; do
        rm -f "$work"/*.seconds
        for _ in $(seq "$runs"); do
            run sweeps "$by_hand" --tell --seats "$seats" --shift 0 --chases 0 "${words[@]}"
            run coarse "$by_hand" --tell --seats "$seats" --chases 0 "${words[@]}"
            run marks "$by_hand" --tell --seats "$seats" "${words[@]}"
            run proved "$program" --seats "$seats" "${words[@]}"
            same proved sweeps
            same proved coarse
            same proved marks
        done
        line="$design, $seats seats:"
        for name in sweeps coarse marks; do
            line="$line $name $(median $name 1) ms, $(relaxations $name) relaxations;"
        done
        a=$(median proved 1) b=$(median marks 1)
        echo "$line proved $a ms, ratio $(ratio "$a" "$b")"
    done
done

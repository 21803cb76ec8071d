#!/usr/bin/env bash
# Places designs with four cuts three times with the proved program on one seat and three times by hand with a crew of one seat,
# in turn, compares byte for byte what they print and place, and prints the medians in milliseconds and their ratios.
# Usage: bench/levels.sh [AUX ..], by default a grid of 100 by 100.
. "$(dirname "$0")/runs.sh"
program=$(proud)
if [ $# = 0 ]; then
    mkdir "$work/100_by_100"
    python3 "$bench/write_grid.py" "$work/100_by_100" 100 100
    set -- "$work/100_by_100/grid.aux"
fi
for given in "$@"; do
    adopt "$given"
    rm -f "$work"/*.seconds
    for _ in 1 2 3; do
        run proved "$program" --levels 4 --seats 1 "$aux"
        run by_hand "$by_hand" --tell --levels 4 --seats 1 "$aux"
        same proved by_hand
    done
    a=$(median proved 1) b=$(median by_hand 1)
    echo "$design: proved $a ms, by hand $b ms, ratio $(ratio "$a" "$b")"
    a=$(median proved 2) b=$(median by_hand 2)
    echo "  processor time: proved $a ms, by hand $b ms, ratio $(ratio "$a" "$b")"
    sed 's/^/  /' "$work/proved.told"
done

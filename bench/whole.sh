#!/usr/bin/env bash
# Places designs and grids five times with the proved program on four seats and five times by hand with a crew of four, in turn,
# compares byte for byte what they print and place, and prints the medians in milliseconds and their ratios; 1.20 at most is
# wanted. A run of some milliseconds is mostly the start of a process. Usage: bench/whole.sh [AUX | R,C,K ..], by default the designs of
# designs/ and the grid 64,64,1.
. "$(dirname "$0")/runs.sh"
program=$(proud)
[ $# -gt 0 ] || set -- "$bench"/../designs/*/*.aux 64,64,1
for given in "$@"; do
    case $given in
        *.aux)
            adopt "$given"
            words=("$aux")
            ;;
        *)
            design="grid $given" placement=$work/grid.proud.pl
            words=(--out "$placement" --grid "$given")
            ;;
    esac
    rm -f "$work"/*.seconds
    for _ in 1 2 3 4 5; do
        run proved "$program" --seats 4 "${words[@]}"
        run by_hand "$by_hand" --seats 4 "${words[@]}"
        same proved by_hand
    done
    a=$(median proved 1) b=$(median by_hand 1)
    echo "$design: proved $a ms, by hand $b ms, ratio $(ratio "$a" "$b")"
    sed 's/^/  /' "$work/proved.told"
done

#!/usr/bin/env bash
# Times each step of the whole command alone, three times as it is proved (crates/step_bench) and three times by hand
# (steps.rs), in turn, compares what they made, and prints for each step the medians in milliseconds, its share of all, and the
# ratio. The core is cut CUTS times, by default 12, and the wire length is measured TIMES times in each run, by default 5.
# Usage: bench/steps.sh [--cuts CUTS] [--times TIMES] [--cells CELLS | --row SUBROWS | --grid SIDE | AUX ..]. --cells takes a design
# of so many cells with local nets, --row one of so many subrows side by side in one row, under many fixed blocks, --grid a grid of
# so many cells on each side. By default it takes 200,000 cells, and then a grid of 100 by
# 100 cells without a cut, where settling is nearly all. `--cells 1000000` has a .nets file of 110 MB.
. "$(dirname "$0")/runs.sh"
program=$(built step_bench)
cuts=12 times=5

# Prints the table of a design.
compare() {
    rm -f "$work"/*.steps
    for _ in 1 2 3; do
        "$program" "$1" "$cuts" "$times" >"$work/proved.told" 2>>"$work/proved.steps"
        "$by_hand" --steps --levels "$cuts" --times "$times" "$1" >"$work/by_hand.told" 2>>"$work/by_hand.steps"
        cmp "$work/proved.told" "$work/by_hand.told"
    done
    echo "$2, $cuts cuts"
    python3 "$bench/step_table.py" "$work/proved.steps" "$work/by_hand.steps" | sed 's/^/  /'
}
written() {
    rm -rf "$work/design"
    mkdir "$work/design"
    python3 "$bench/write_design.py" "$work/design" "$1" "$2"
    compare "$work/design/d.aux" "$1 $3"
}
grid() {
    rm -rf "$work/grid"
    mkdir "$work/grid"
    python3 "$bench/write_grid.py" "$work/grid" "$1" "$1"
    compare "$work/grid/grid.aux" "a grid of $1 by $1"
}

while [ "${1-}" = --cuts ] || [ "${1-}" = --times ]; do
    [ "$1" = --times ] || cuts=$2
    [ "$1" = --cuts ] || times=$2
    shift 2
done
case ${1-} in
    --cells) written "$2" local cells ;;
    --row) written "$2" row 'subrows in one row' ;;
    --grid) grid "$2" ;;
    '')
        written 200000 local cells
        cuts=0
        grid 100
        ;;
    *)
        for given in "$@"; do
            compare "$given" "$given"
        done
        ;;
esac

#!/usr/bin/env bash
# Reads and plays schedules of EVENTS lines, by default a million, as it is proved (crates/step_bench) and by hand (schedule.rs and
# solving.rs), RUNS times in turn, by default five, compares what they made, and prints the medians and their ratio. The events are
# drawn at random for four seats, or all of them are renewals of outdated means. A play ends with the settling of one seat, which is
# timed with it. Usage: bench/schedules.sh [--runs RUNS] [--events EVENTS] [AUX ..], by default a design of 20,000 cells with local
# nets, with 12 cuts.
. "$(dirname "$0")/runs.sh"
program=$(built step_bench)
runs=5 events=1000000
while [ "${1-}" = --runs ] || [ "${1-}" = --events ]; do
    [ "$1" = --events ] || runs=$2
    [ "$1" = --runs ] || events=$2
    shift 2
done
if [ $# = 0 ]; then
    mkdir "$work/design"
    python3 "$bench/write_design.py" "$work/design" 20000 local
    set -- "$work/design/d.aux"
fi
for aux in "$@"; do
    points=$("$program" "$aux" 0 1 2>/dev/null | awk '$1 == "reach" { print $2 }')
    for kind in random stale; do
        python3 "$bench/schedules.py" "$kind" --points "$points" --events "$events" >"$work/schedule"
        rm -f "$work"/*.steps
        for _ in $(seq "$runs"); do
            "$program" "$aux" 12 1 "$work/schedule" 4 >"$work/proved.told" 2>>"$work/proved.steps"
            "$by_hand" --steps --levels 12 --schedule "$work/schedule" --seats 4 "$aux" >"$work/by_hand.told" 2>>"$work/by_hand.steps"
            cmp "$work/proved.told" "$work/by_hand.told"
        done
        echo "$(basename "$aux"), $points points, $events events, $kind"
        python3 "$bench/step_table.py" "$work/proved.steps" "$work/by_hand.steps" | grep -E 'step|schedule|play|settle' | sed 's/^/  /'
    done
done

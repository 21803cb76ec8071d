#!/usr/bin/env bash
# How the whole command grows: places designs of more and more cells with local nets (write_design.py), with 12 cuts and four seats,
# once with the proved program and once by hand, compares byte for byte what they print and place, and prints for both the
# seconds, the seconds of processor time and the most memory. Then it tells how what isn't solving is shared out among the
# steps (crates/step_bench). It ends behind the first design that takes one of them longer than LIMIT seconds, by default 600.
# Usage: bench/growth.sh [--limit LIMIT] [CELLS ..], by default 1,000 cells and up to a million, each three times as many.
. "$(dirname "$0")/runs.sh"
program=$(proud)
steps=$(built step_bench)
limit=600
if [ "${1-}" = --limit ]; then
    limit=$2
    shift 2
fi
[ $# -gt 0 ] || set -- 1000 3000 10000 30000 100000 300000 1000000

# Runs a command for so many seconds at most, and says what it took. Fails where it was cut off.
measure() {
    local name=$1 status=0
    shift
    rm -f "$placement"
    timeout "$limit" /usr/bin/time -q -o "$work/$name.took" -f '%e s, %U s of processor time, %M KB' "$@" \
        >"$work/$name.told" 2>/dev/null || status=$?
    if [ $status = 124 ]; then
        echo "  $name: longer than $limit s"
        return 1
    fi
    [ -e "$placement" ] || : >"$placement"
    mv "$placement" "$work/$name.pl"
    echo "  $name: $(cat "$work/$name.took")"
}
for cells in "$@"; do
    rm -rf "$work/design"
    mkdir "$work/design"
    python3 "$bench/write_design.py" "$work/design" "$cells" local
    aux=$work/design/d.aux placement=$work/design/d.proud.pl
    echo "$cells cells"
    measure proved "$program" --levels 12 --seats 4 "$aux" || break
    sed 's/^/    /' "$work/proved.told"
    measure by_hand "$by_hand" --levels 12 --seats 4 "$aux" || break
    same proved by_hand
    "$steps" "$aux" 12 1 2>"$work/steps" >/dev/null
    python3 "$bench/step_table.py" "$work/steps" | sed 's/^/    /'
done

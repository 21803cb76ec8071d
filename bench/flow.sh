#!/usr/bin/env bash
# Times the scripts of flow/ on a design of CELLS cells, by default 60,000, with ten pins for three cells: flow.sh [CELLS].
# A line for each: wall-clock seconds, processor seconds, and memory at the peak. It needs GNU time.
set -eu
cd "$(dirname "$0")/.."
cells=${1:-60000}
work=$(mktemp -d)
trap 'rm -rf "$work"' EXIT

timed() {
    local name=$1
    shift
    /usr/bin/time -o "$work/time" -f '%e s, processor %U s, %M kB' "$@" >"$work/told"
    printf '%-12s %s\n' "$name" "$(cat "$work/time")"
}

python3 bench/write_netlist.py "$work/large.json" "$cells"
timed netlist.py python3 flow/netlist.py flow/cells/cells.lef "$work/large.json" -o "$work"
cat "$work/told"
python3 bench/pack_cells.py "$work/large.aux" "$work/a.pl"
python3 bench/pack_cells.py "$work/large.aux" "$work/b.pl" 7
timed draw.py python3 flow/draw.py "$work/large.aux" "$work/a.pl" "$work/large.svg" --longest 20
timed to_def.py python3 flow/to_def.py "$work/large.aux" "$work/a.pl" "$work/large.def"
timed compare.py python3 flow/compare.py "$work/large.aux" "$work/a.pl" "$work/b.pl"
cat "$work/told"
(cd "$work" && wc -c large.json large.nets large.svg large.def)

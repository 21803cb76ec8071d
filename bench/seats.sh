#!/usr/bin/env bash
# Places a grid without a cut with 1, 2 and 4 seats, three times each with the proved program and with a crew by hand, in turn,
# compares byte for byte what they print and place, and prints the medians in milliseconds, the speed-ups against one seat and
# the ratios. With fewer than four processors it leaves out four seats. Usage: bench/seats.sh [SIDE], by default 100.
. "$(dirname "$0")/runs.sh"
program=$(proud)
side=${1-100}
python3 "$bench/write_grid.py" "$work" "$side" "$side"
aux=$work/grid.aux placement=$work/grid.proud.pl
counts="1 2 4"
if [ "$(nproc)" -lt 4 ]; then
    counts="1 2"
    echo "$(nproc) processors: no more than two seats are shown"
fi
for _ in 1 2 3; do
    for seats in $counts; do
        run "proved.$seats" "$program" --levels 0 --seats "$seats" "$aux"
        run "by_hand.$seats" "$by_hand" --tell --levels 0 --seats "$seats" "$aux"
        same "proved.$seats" "by_hand.$seats"
        same "proved.$seats" proved.1
    done
done
for seats in $counts; do
    a=$(median "proved.$seats" 1) b=$(median "by_hand.$seats" 1)
    echo "$seats seats: proved $a ms, speed-up $(ratio "$(median proved.1 1)" "$a");" \
        "by hand $b ms, speed-up $(ratio "$(median by_hand.1 1)" "$b"); ratio $(ratio "$a" "$b")"
    sed 's/^/  by hand, /' "$work/by_hand.$seats.work"
done

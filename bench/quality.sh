#!/usr/bin/env bash
# How wire length and time change with the levels and with the rounds of each: places designs with --levels from 0 to 12 and --passes
# from 1 to 8, where these are at most 26 rounds, and writes to the folder OUT, by default out/quality: runs.tsv with a line for each
# run, and what quality_plot.py makes of it, the tables quality.md and the picture quality.svg. A time is that of the processors in
# the quickest of RUNS runs, by default one. Each placement is looked at by legal.py.
# Usage: bench/quality.sh [--program PROGRAM] [--runs RUNS] [--out OUT] [AUX | FOLDER ..], by default with the proved program and the
# designs of designs/. PROGRAM may have options behind its name, and `hand` is the placer by hand with four seats. A folder stands for
# the designs in its folders.
. "$(dirname "$0")/runs.sh"
program=$(proud) runs=1 out=$bench/../out/quality
while :; do
    case ${1-} in
        --program) program=$2 ;;
        --runs) runs=$2 ;;
        --out) out=$2 ;;
        *) break ;;
    esac
    shift 2
done
[ "$program" != hand ] || program="$by_hand --seats 4"
[ $# -gt 0 ] || set -- "$bench/../designs"
mkdir -p "$out"

# Prints the wire length and the gap that the last run told. Fails where it placed nothing, or not legally.
told() {
    grep -q '^wire ' "$work/it.told" || { echo "$design: $(head -1 "$work/it.told")" >&2; return 1; }
    python3 "$bench/legal.py" "$aux" "$work/it.pl" >"$work/legal" || { echo "$design: $(head -1 "$work/legal")" >&2; return 1; }
    awk '$1 == "wire" { wire = $2 } $3 == "gap" { gap = $4 } END { print wire "\t" gap }' "$work/it.told"
}

# The least processor time of the runs, in milliseconds.
quickest() { awk '{ print int($2 * 1000 + 0.5) }' "$work/it.seconds" | sort -n | head -1; }

for given in "$@"; do
    [ ! -d "$given" ] || { printf '%s\n' "$given"/*/*.aux; continue; }
    printf '%s\n' "$given"
done >"$work/designs"
printf 'design\tlevels\tpasses\twire\tgap\tms\n' >"$out/runs.tsv"
while IFS= read -r given <&3; do
    adopt "$given"
    for passes in 1 2 3 4 5 6 7 8; do
        for ((levels = 0; levels <= 12 && (levels + 1) * passes <= 26; levels++)); do
            rm -f "$work/it.seconds"
            for _ in $(seq "$runs"); do
                # shellcheck disable=SC2086 # the program and its options
                run it $program --levels "$levels" --passes "$passes" "$aux"
            done
            made=$(told) || exit
            printf '%s\t%s\t%s\t%s\t%s\n' "$(basename "$aux" .aux)" "$levels" "$passes" "$made" "$(quickest)" >>"$out/runs.tsv"
        done
    done
    echo "$design"
done 3<"$work/designs"
python3 "$bench/quality_plot.py" "$out/runs.tsv" "$out/quality.md" "$out/quality.svg"

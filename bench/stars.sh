#!/usr/bin/env bash
# Times each step on designs with wide nets, as steps.sh prints it, with 12 cuts: CELLS cells (by default 100,000) whose nets are local,
# with a net of them all besides, and with a net of 500 of them for each 100. Usage: bench/stars.sh [CELLS].
set -eu
bench=$(cd "$(dirname "$0")" && pwd)
designs=$(mktemp -d)
trap 'rm -rf "$designs"' EXIT
for nets in local clock buses; do
    mkdir "$designs/$nets"
    python3 "$bench/write_design.py" "$designs/$nets" "${1-100000}" "$nets"
done
bash "$bench/steps.sh" "$designs/local/d.aux" "$designs/clock/d.aux" "$designs/buses/d.aux"

#!/usr/bin/env python3
"""Tells what levels and rounds do to wire length and time: quality_plot.py RUNS.tsv TABLES.md PICTURE.svg.

RUNS.tsv is what quality.sh writes: a line for each run with the design, the levels, the passes, the wire length, the gap and the
milliseconds. The tables have the levels downwards and the passes across, first over all designs, as the mean of each design's
ratio to the usual 4 levels with 2 passes (the geometric one), and then for each design. The picture has a row for each design,
wire length on the left and time on the right, and in them a line for each number of passes.
"""
from __future__ import annotations

import math
import sys
from typing import Callable, Dict, Iterator, List, NamedTuple, Tuple
from xml.sax.saxutils import escape

USUAL = 4, 2
LEVELS, PASSES = range(13), range(1, 9)
WIDE, HIGH, LEFT, ABOVE, APART = 400, 200, 70, 70, 60
# A colour for each number of passes.
COLOURS = "#9ecae1", "#4292c6", "#08519c", "#fdae6b", "#f16913", "#a63603", "#74c476", "#006d2c"

Way = Tuple[int, int]


class Run(NamedTuple):
    wire: str
    gap: int
    ms: int


Runs = Dict[str, Dict[Way, Run]]


def read(path: str) -> Runs:
    """The runs of each design, by levels and passes."""
    runs: Runs = {}
    with open(path, encoding="utf-8") as file:
        for line in list(file)[1:]:
            design, levels, passes, wire, gap, ms = line.rstrip("\n").split("\t")
            runs.setdefault(design, {})[int(levels), int(passes)] = Run(wire, int(gap), int(ms))
    return runs


def table(ways: List[Way], cell: Callable[[Way], str]) -> Iterator[str]:
    """A table of what is told of each way."""
    yield "| Levels | " + " | ".join(f"{passes} pass{'es' * (passes > 1)}" for passes in PASSES) + " |"
    yield "|---" * (1 + len(PASSES)) + "|"
    for levels in LEVELS:
        yield f"| {levels} | " + " | ".join(cell((levels, passes)) if (levels, passes) in ways else "" for passes in PASSES) + " |"


def mean_ratio(runs: Runs, way: Way, of: Callable[[Run], float]) -> float:
    """The geometric mean over the designs of how many times as much a way gives as the usual one."""
    logs = [math.log(max(of(its[way]), 1) / max(of(its[USUAL]), 1)) for its in runs.values()]
    return math.exp(sum(logs) / len(logs))


def told(runs: Runs) -> Iterator[str]:
    """The tables. The least wire length stands out."""
    ways = [way for way in next(iter(runs.values())) if all(way in its for its in runs.values())]
    for name, of in (("Wire length", wire), ("Time", lambda run: run.ms)):
        ratios = {way: mean_ratio(runs, way, of) for way in ways}
        least = min(ratios.values())
        yield f"## {name}, all designs, by that of {USUAL[0]} levels with {USUAL[1]} passes\n"
        yield from table(ways, lambda way: f"**{ratios[way]:.3f}**" if ratios[way] == least else f"{ratios[way]:.3f}")
        yield ""
    for design, its in runs.items():
        least = min(map(wire, its.values()))
        yield f"## {design}\n\nWire length, and milliseconds:\n"
        yield from table(list(its), lambda way: (f"**{its[way].wire}**" if wire(its[way]) == least else its[way].wire)
                         + f", {its[way].ms}")
        yield ""


def wire(run: Run) -> float:
    return float(run.wire)


def marks(most: float, least: float = 0) -> List[float]:
    """Round numbers from below the least to above the most: two at least, and five of them or so."""
    rough = (most - least or max(most, 1)) / 4
    power = 10 ** math.floor(math.log10(rough))
    step = next(step * power for step in (1, 2, 5, 10) if step * power >= rough)
    first = math.floor(least / step)
    return [step * k for k in range(first, max(first + 1, math.ceil(most / step)) + 1)]


def panel(title: str, its: Dict[Way, Run], of: Callable[[Run], float], scale: List[float]) -> Iterator[str]:
    """A chart over the levels, with a line for each number of passes."""
    low, high = scale[0], scale[-1]
    across = lambda levels: WIDE * levels / LEVELS[-1]
    up = lambda value: HIGH * (high - value) / (high - low)
    yield f'<text x="0" y="-10" font-weight="bold">{escape(title)}</text>'
    for mark in scale:
        yield f'<path d="M0 {up(mark):.1f}h{WIDE}" stroke="#d8dde4"/>'
        yield f'<text x="-6" y="{up(mark) + 4:.1f}" text-anchor="end">{mark:g}</text>'
    for levels in LEVELS:
        yield f'<text x="{across(levels):.1f}" y="{HIGH + 16}" text-anchor="middle">{levels}</text>'
    for passes, colour in zip(PASSES, COLOURS):
        points = [(across(way[0]), up(of(run))) for way, run in sorted(its.items()) if way[1] == passes]
        line = "L".join(f"{x:.1f} {y:.1f}" for x, y in points)
        yield f'<path d="M{line}" fill="none" stroke="{colour}" stroke-width="1.8"/>'
        yield from (f'<circle cx="{x:.1f}" cy="{y:.1f}" r="2.4" fill="{colour}"/>' for x, y in points)


def legend() -> Iterator[str]:
    for number, (passes, colour) in enumerate(zip(PASSES, COLOURS)):
        x = LEFT + 70 + 56 * number
        yield f'<path d="M{x} 26h18" stroke="{colour}" stroke-width="3"/><text x="{x + 23}" y="30">{passes}</text>'
    yield f'<text x="{LEFT}" y="30">passes</text>'


def picture(runs: Runs) -> Iterator[str]:
    width, height = 2 * (LEFT + WIDE) + 30, ABOVE + len(runs) * (HIGH + APART)
    yield f'<svg xmlns="http://www.w3.org/2000/svg" width="{width}" height="{height}" viewBox="0 0 {width} {height}">'
    yield '<title>Wire length and time over the levels, for each number of passes</title>'
    yield '<rect width="100%" height="100%" fill="#ffffff"/><g font-family="sans-serif" font-size="12" fill="#1c2430">'
    yield from legend()
    for number, (design, its) in enumerate(runs.items()):
        wires, times = [wire(run) for run in its.values()], [run.ms / 1000 for run in its.values()]
        for column, (name, of, scale) in enumerate((("wire length", wire, marks(max(wires), min(wires))),
                                                    ("seconds", lambda run: run.ms / 1000, marks(max(times))))):
            x, y = LEFT + column * (LEFT + WIDE), ABOVE + number * (HIGH + APART)
            yield f'<g transform="translate({x} {y})">'
            yield from panel(f"{design}: {name} over the levels", its, of, scale)
            yield "</g>"
    yield "</g></svg>"


def main() -> None:
    if len(sys.argv) != 4:
        sys.exit("usage: quality_plot.py RUNS.tsv TABLES.md PICTURE.svg")
    runs = read(sys.argv[1])
    for path, lines in ((sys.argv[2], told(runs)), (sys.argv[3], picture(runs))):
        with open(path, "w", encoding="utf-8") as file:
            file.writelines(line + "\n" for line in lines)


if __name__ == "__main__":
    main()

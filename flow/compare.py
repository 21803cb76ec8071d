#!/usr/bin/env python3
"""Compares placements of one design: their wire length, whether they are legal, how far cells moved, how dense they are.

wire      the half-perimeter wire length of all nets, unweighted, in Bookshelf units; pins stand at their offsets from the
          middle of their node
ratio     wire by that of the first placement
legal     whether each cell is in sites of a subrow, without area in common with a fixed node that forbids overlap or with
          another cell's sites, and fixed nodes stand and all are turned as in the design; else how many faults there are, which
          are told below the table
mean, max how far cells stand from where the first placement has them, |dx| + |dy|, in Bookshelf units: of all cells, and of
          the one that is the farthest
density   that of the fullest bin: the area of its cells by the area of its sites that are free of fixed nodes which forbid
          overlap. A legal placement has 1 at most. The core is cut into square bins from its lower left corner, as high as --bin
          rows

Status 0: all placements are legal. Status 1: one isn't. Status 2: one line says what is wrong with an input.
"""
from __future__ import annotations

import argparse
import json
from collections import Counter
from dataclasses import dataclass
from typing import Any, Dict, Iterator, List, Optional, Tuple

from bookshelf import (MICRO, Design, Illegal, Placement, Rectangle, faults, printable, read_design, read_placement, run,
                       wire_length)

Bin = Tuple[int, int]


@dataclass
class Measured:
    """What is told of a placement. Lengths are in millionths, and None where a cell is lost."""

    path: str
    wire: Optional[int]
    illegal: List[Illegal]
    moved: List[Tuple[int, str]]
    density: Optional[float]
    fullest: Optional[Bin]

    @property
    def mean(self) -> Optional[float]:
        return sum(way for way, _ in self.moved) / len(self.moved) if self.moved else None

    @property
    def farthest(self) -> Optional[Tuple[int, str]]:
        return max(self.moved, key=lambda entry: entry[0]) if self.moved else None


class Bins:
    """Square bins over the core, and the area of the free sites in each."""

    def __init__(self, design: Design, side: int):
        self.core, self.side = design.rows.core, side
        self.free: Dict[Bin, int] = {}
        blocks = [design.rectangle(node, design.given) for node in range(len(design.nodes.names)) if design.bars(node)]
        rows = design.rows
        for row in rows.subrows:
            area = Rectangle(row.x, row.y, row.x + row.sites * rows.pitch, row.y + rows.height)
            for left, right in free_runs(area, [block for block in blocks if block.shares_area(area)], rows.pitch):
                self.add(self.free, Rectangle(left, row.y, right, row.y + rows.height))

    def add(self, areas: Dict[Bin, int], area: Rectangle) -> None:
        """Adds to each bin the area that the rectangle has in it. What lies outside the core is in no bin."""
        core, side = self.core, self.side
        left, right = max(area.left, core.left) - core.left, min(area.right, core.right) - core.left
        lower, upper = max(area.lower, core.lower) - core.lower, min(area.upper, core.upper) - core.lower
        for column in range(left // side, -(-right // side)):
            width = min(right, (column + 1) * side) - max(left, column * side)
            for row in range(lower // side, -(-upper // side)):
                height = min(upper, (row + 1) * side) - max(lower, row * side)
                areas[column, row] = areas.get((column, row), 0) + width * height

    def fullest(self, design: Design, placement: Placement) -> Tuple[Optional[float], Optional[Bin]]:
        """The greatest density of a bin, and the bin; infinite where there is a cell without free sites."""
        taken: Dict[Bin, int] = {}
        for node in design.cells():
            if node not in placement.lost:
                self.add(taken, design.rectangle(node, placement))
        densities = [(area / self.free[place] if self.free.get(place) else float("inf"), place)
                     for place, area in sorted(taken.items()) if area]
        return max(densities, key=lambda entry: entry[0], default=(None, None))


def free_runs(row: Rectangle, blocks: List[Rectangle], pitch: int) -> Iterator[Tuple[int, int]]:
    """The left and the right end of each run of a subrow's sites that share no area with a block."""
    left = row.left
    for block in sorted(blocks):
        first = row.left + max(0, (block.left - row.left) // pitch) * pitch
        if left < first:
            yield left, first
        left = max(left, row.left - (row.left - block.right) // pitch * pitch)
    if left < row.right:
        yield left, row.right


def measure(design: Design, first: Placement, placement: Placement, bins: Bins) -> Measured:
    lost = first.lost | placement.lost
    moved = [(abs(placement.x[node] - first.x[node]) + abs(placement.y[node] - first.y[node]), design.nodes.names[node])
             for node in design.cells() if node not in lost]
    density, fullest = bins.fullest(design, placement)
    return Measured(placement.path, wire_length(design, placement), faults(design, placement), moved, density, fullest)


def units(millionths: Optional[float], digits: int = 3) -> str:
    return "-" if millionths is None else f"{millionths / MICRO:.{digits}f}".rstrip("0").rstrip(".")


def table(placements: List[Measured]) -> Iterator[str]:
    """The table, its columns lined up."""
    lines = [["placement", "wire", "ratio", "legal", "mean", "max", "density"]]
    first = placements[0].wire
    for it in placements:
        ratio = f"{it.wire / first:.4f}" if it.wire is not None and first else "-"
        legal = f"{len(it.illegal)} faults" if len(it.illegal) > 1 else "1 fault" if it.illegal else "legal"
        lines.append([printable(it.path), units(it.wire, 6), ratio, legal, units(it.mean), units(it.farthest and it.farthest[0]),
                      "-" if it.density is None else f"{it.density:.3f}"])
    widths = [max(len(line[column]) for line in lines) for column in range(len(lines[0]))]
    for name, *others in lines:
        yield "  ".join([name.ljust(widths[0]), *(text.rjust(width) for text, width in zip(others, widths[1:]))])


def faults_told(placements: List[Measured], most: int) -> Iterator[str]:
    """Of each placement that isn't legal: how many faults of each kind, and the first ones."""
    for it in placements:
        if it.illegal:
            kinds = ", ".join(f"{count} {kind}" for kind, count in Counter(fault.kind for fault in it.illegal).items())
            yield f"{printable(it.path)}: {kinds}"
            yield from (f"  {printable(fault.line)}" for fault in it.illegal[:most])
            if len(it.illegal) > most:
                yield f"  and {len(it.illegal) - most} more (--faults N tells so many)"


def number(millionths: Optional[float]) -> Optional[float]:
    return None if millionths is None else millionths / MICRO


def record(it: Measured, first: Measured) -> Dict[str, Any]:
    """A placement as JSON. An infinite density is the text `inf`, since JSON has no such number."""
    return {
        "placement": it.path,
        "wire": number(it.wire),
        "ratio": it.wire / first.wire if it.wire is not None and first.wire else None,
        "legal": not it.illegal,
        "faults": [fault._asdict() for fault in it.illegal],
        "displacement": {"total": number(sum(way for way, _ in it.moved)), "mean": number(it.mean),
                         "max": number(it.farthest and it.farthest[0]), "cell": it.farthest and it.farthest[1]},
        "density": {"greatest": "inf" if it.density == float("inf") else it.density, "bin": it.fullest},
    }


def positive(word: str) -> int:
    if int(word) < 1:
        raise ValueError
    return int(word)


def options() -> argparse.Namespace:
    parser = argparse.ArgumentParser(description=__doc__, formatter_class=argparse.RawDescriptionHelpFormatter)
    parser.add_argument("aux", metavar="DESIGN.aux", help="the design")
    parser.add_argument("placements", metavar="PLACED.pl", nargs="+",
                        help="its placements; the others are compared with the first")
    parser.add_argument("--json", action="store_true",
                        help="print JSON: lengths in Bookshelf units, all faults, a bin by its column and row")
    parser.add_argument("--bin", type=positive, default=5, metavar="ROWS", help="how many rows a bin is high (default 5)")
    parser.add_argument("--faults", type=positive, default=10, metavar="N",
                        help="how many faults of a placement the text tells (default 10)")
    # Options may stand between the other words.
    return parser.parse_intermixed_args()


def main() -> int:
    asked = options()
    design = read_design(asked.aux)
    placements = [read_placement(path, design) for path in asked.placements]
    bins = Bins(design, asked.bin * design.rows.height)
    measured = [measure(design, placements[0], placement, bins) for placement in placements]
    if asked.json:
        found = {"design": design.name, "cells": sum(1 for _ in design.cells()), "nets": len(design.nets.names),
                 "placements": [record(it, measured[0]) for it in measured]}
        print(json.dumps(found, indent=1))
    else:
        for line in (*table(measured), *faults_told(measured, asked.faults)):
            print(line)
    return 1 if any(it.illegal for it in measured) else 0


if __name__ == "__main__":
    run(main)

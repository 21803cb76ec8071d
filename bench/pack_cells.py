#!/usr/bin/env python3
"""Writes some legal placement of a design without fixed blocks, but for such as allow overlap: pack_cells.py AUX PLACEMENT [STEP].

The cells fill the rows in the order of their names' numbers in `.nodes`, from STEP times their number on, one beside the other.
"""
import os
import sys

sys.path.insert(0, os.path.join(os.path.dirname(os.path.abspath(__file__)), "..", "flow"))
from bookshelf import decimal, read_design, write_whole  # noqa: E402  the path comes first

design = read_design(sys.argv[1])
step = int(sys.argv[3]) if len(sys.argv) > 3 else 1
cells = list(design.cells())
rows, places, left = iter(design.rows.subrows), {}, 0
for turn in range(len(cells)):
    cell = cells[turn * step % len(cells)]
    while left < design.sites(cell):
        row = next(rows)
        at, left = row.x, row.sites
    places[cell] = decimal(at), decimal(row.y)
    at += design.sites(cell) * design.rows.pitch
    left -= design.sites(cell)
lines = ["UCLA pl 1.0"]
for node, name in enumerate(design.nodes.names):
    if design.nodes.fixed[node]:
        x, y = decimal(design.given.x[node]), decimal(design.given.y[node])
        lines.append(f"{name} {x} {y} : {design.given.turned[node]}{design.nodes.mark(node)}")
    else:
        lines.append("{} {} {} : N".format(name, *places[node]))
write_whole(sys.argv[2], lines)

#!/usr/bin/env python3
"""Writes a grid of cells between pads: write_grid.py FOLDER ROWS COLUMNS [K], by default K = 1; the design is FOLDER/grid.aux.

Each cell, 2 by 10, has a net to its neighbours to the right and above; each row has a pad at both ends, each column one below
and one above. The core is 4 units wide for each column and 10 high for each row. The weights are 1 to 4: net k has
1 + floor(s / 2^33) mod 4 for the number s that comes k + 1 steps behind K, a step being s * 6364136223846793005 +
1442695040888963407 mod 2^64.
"""
import sys

folder = sys.argv[1]
rows, columns = int(sys.argv[2]), int(sys.argv[3])
state = int(sys.argv[4]) if len(sys.argv) > 4 else 1

cells = [f"c{i}" for i in range(rows * columns)]
pads = {}
for r in range(rows):
    pads[f"l{r}"] = (0, 10 * r + 5)
for r in range(rows):
    pads[f"r{r}"] = (4 * columns, 10 * r + 5)
for c in range(columns):
    pads[f"b{c}"] = (4 * c + 2, 0)
for c in range(columns):
    pads[f"t{c}"] = (4 * c + 2, 10 * rows)


def cell(r, c):
    return cells[r * columns + c]


nets = [(cell(r, c), cell(r, c + 1)) for r in range(rows) for c in range(columns - 1)]
nets += [(cell(r, c), cell(r + 1, c)) for r in range(rows - 1) for c in range(columns)]
nets += [(f"l{r}", cell(r, 0)) for r in range(rows)]
nets += [(f"r{r}", cell(r, columns - 1)) for r in range(rows)]
nets += [(f"b{c}", cell(0, c)) for c in range(columns)]
nets += [(f"t{c}", cell(rows - 1, c)) for c in range(columns)]

weights = []
for k in range(len(nets)):
    state = (state * 6364136223846793005 + 1442695040888963407) % 2**64
    weights.append(1 + (state >> 33) % 4)


def put(kind, head, lines):
    with open(f"{folder}/grid.{kind}", "w") as file:
        file.writelines(line + "\n" for line in [head, *lines])


put("aux", "RowBasedPlacement : grid.nodes grid.nets grid.wts grid.pl grid.scl", [])
put("nodes", "UCLA nodes 1.0", [f"NumNodes : {len(cells) + len(pads)}", f"NumTerminals : {len(pads)}"]
    + [f"{name} 2 10" for name in cells] + [f"{name} 0 0 terminal" for name in pads])
put("nets", "UCLA nets 1.0", [f"NumNets : {len(nets)}", f"NumPins : {2 * len(nets)}"]
    + [line for k, (one, other) in enumerate(nets) for line in (f"NetDegree : 2 n{k}", f"{one} B", f"{other} B")])
put("wts", "UCLA wts 1.0", [f"n{k} {weight}" for k, weight in enumerate(weights)])
put("pl", "UCLA pl 1.0", [f"{name} 0 0 : N" for name in cells] + [f"{name} {x} {y} : N /FIXED" for name, (x, y) in pads.items()])
put("scl", "UCLA scl 1.0", [f"NumRows : {rows}"] + [line for r in range(rows) for line in (
    "CoreRow Horizontal", f"Coordinate : {10 * r}", "Height : 10", "Sitewidth : 1", "Sitespacing : 1",
    f"SubrowOrigin : 0 NumSites : {4 * columns}", "End")])

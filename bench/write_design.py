#!/usr/bin/env python3
"""Writes a design of so many nodes or cells: write_design.py FOLDER COUNT END [SEED]; the design is FOLDER/d.aux.

END `local` gives a design to be placed, of COUNT cells (up to 1,000,000) whose nets are local, as those of a placed netlist are. A
core about as wide as high has places 4 wide and 10 high, but for four fixed macros; COUNT of the places have a cell each, 1 to 4
wide. `.pl` has the cells near their places, up to a place and a half away and not on sites, as a placement that isn't legal
yet has them. Each cell has a net with the next one in its row and up to three more at most three places away, so that nets have
two to five pins, which stand off their nodes' middles. There are pads at both ends of each row and at every fourth column, below and
above, each in a net with the cell beside it; each macro is in a net with a cell at each of its sides. Every third net has a
weight of 1 to 4. SEED, by default 1, is where the numbers without a pattern begin.

END `clock` gives the same with a further net that has a pin at each cell, and `buses` with a further net for each 100 cells, which
has pins at 500 of them.

END `overlap` gives the same as `local`, but two of the macros, by `.nodes`, and all pads, by `.pl`, allow overlap.

END `row` gives a design of COUNT subrows, 8 sites each, side by side in one row, under a fiftieth as many fixed blocks that are as
high as the row, with as many cells, 1 wide, in a chain between two pads.

END `apart` gives a design of COUNT nodes and as many nets of four pins, which is refused at its last node, which is in no net, and
so behind the search for pads.
"""
import random
import sys

folder, count, end = sys.argv[1], int(sys.argv[2]), sys.argv[3]
seed = int(sys.argv[4]) if len(sys.argv) > 4 else 1


def put(kind, lines):
    with open(f"{folder}/d.{kind}", "w") as file:
        file.write("\n".join(lines) + "\n")


def rows_of(rows, height, sites, origins=(0,)):
    lines = ["UCLA scl 1.0", f"NumRows : {rows}"]
    subrows = [f" SubrowOrigin : {x} NumSites : {sites}" for x in origins]
    for r in range(rows):
        lines.extend(["CoreRow Horizontal", f" Coordinate : {height * r}", f" Height : {height}", " Sitewidth : 1",
                      " Sitespacing : 1", " Siteorient : 1", " Sitesymmetry : 1", *subrows, "End"])
    return lines


def refused():
    """Nodes without a pattern of places, and nets across the whole core."""
    terminals = count // 100
    rows = 1000
    in_nets = count - 1
    names = [f"t{i}" if i < terminals else f"o{i}" for i in range(count)]
    put("nodes", ["UCLA nodes 1.0", f"NumNodes : {count}", f"NumTerminals : {terminals}"]
        + [f"\t{names[i]}\t{i % 7 + 1}\t12" + ("\tterminal" if i < terminals else "") for i in range(count)])
    nets = ["UCLA nets 1.0", f"NumNets : {count}", f"NumPins : {4 * count}"]
    for i in range(count):
        nets.append(f"NetDegree : 4 n{i}")
        nets.extend(f"\t{names[(i + k * 7919) % in_nets]}\tI : {k}.500000\t-0.250000" for k in range(4))
    put("nets", nets)
    put("wts", ["UCLA wts 1.0"] + [f"n{i}\t1" for i in range(0, count, 3)])
    put("pl", ["UCLA pl 1.0"] + [f"{names[i]}\t{i % 4001}\t{i % rows * 12}\t: N" + (" /FIXED" if i < terminals else "")
                                  for i in range(count)])
    put("scl", rows_of(rows, 12, 4100))


class Core:
    """The places of a core, row by row, without those under macros."""

    def __init__(self):
        # The macros take a sixteenth of the core, and places are 4 by 10.
        self.rows = max(8, int((count * 16 / 15 / 2.5) ** 0.5) // 8 * 8 + 8)
        self.columns = max(8, -(-count * 16 // (15 * self.rows)) // 8 * 8 + 8)
        high, wide = self.rows // 8, self.columns // 8
        # The row and the column of each macro's lower left place, and those behind its last.
        self.macros = [(r, c, r + high, c + wide) for r, c in
                       ((high, wide), (high, 6 * wide), (5 * high, 2 * wide), (6 * high, 5 * wide))]
        free = [[True] * self.columns for _ in range(self.rows)]
        for bottom, left, top, right in self.macros:
            for r in range(bottom, top):
                free[r][left:right] = [False] * (right - left)
        places = [(r, c) for r in range(self.rows) for c in range(self.columns) if free[r][c]][:count]
        self.places = places
        # The number of the cell at each place, and -1 where there is none.
        self.cells = [[-1] * self.columns for _ in range(self.rows)]
        for i, (r, c) in enumerate(places):
            self.cells[r][c] = i

    def beside(self, r, c):
        """The cell at a place, or one that is near it."""
        r, c = min(max(r, 0), self.rows - 1), min(max(c, 0), self.columns - 1)
        while self.cells[r][c] < 0:
            c, r = (c - 1, r) if c > 0 else (self.columns - 1, r - 1)
        return self.cells[r][c]


def offset(bits):
    """A number from -1 to 0.75 in quarters."""
    quarters = bits % 8 - 4
    return f"{quarters / 4:.6f}"


def local_nets(core, numbers):
    """For each cell a net with the next one in its row, or above it, and some near it."""
    for i, (r, c) in enumerate(core.places):
        bits = numbers.getrandbits(40)
        members = [i, core.beside(r, c + 1) if c + 1 < core.columns else core.beside(r + 1, c)]
        # Half of the nets have two pins, a quarter three, an eighth four, an eighth five.
        more = (0, 0, 0, 0, 1, 1, 2, 3)[bits & 7]
        for k in range(more):
            step = bits >> 3 + 6 * k
            members.append(core.beside(r + step % 7 - 3, c + (step >> 3) % 7 - 3))
        yield [(f"o{member}", bits >> 21 + 3 * k) for k, member in enumerate(members)]


def wide_nets():
    """A clock of all cells, or buses of 500 of them."""
    if end == "clock":
        yield [(f"o{i}", 4) for i in range(count)]
    elif end == "buses":
        for k in range(count // 100):
            yield [(f"o{(100 * k + 7919 * i) % count}", 4) for i in range(500)]


def local():
    core, numbers = Core(), random.Random(seed)
    width, height = 4 * core.columns, 10 * core.rows
    pads = [(f"l{r}", 0, 10 * r + 5, core.beside(r, 0)) for r in range(core.rows)]
    pads += [(f"r{r}", width, 10 * r + 5, core.beside(r, core.columns - 1)) for r in range(core.rows)]
    pads += [(f"b{c}", 4 * c + 2, 0, core.beside(0, c)) for c in range(0, core.columns, 4)]
    pads += [(f"t{c}", 4 * c + 2, height, core.beside(core.rows - 1, c)) for c in range(0, core.columns, 4)]
    macros = [(f"m{k}", *macro) for k, macro in enumerate(core.macros)]
    soft = "_NI" if end == "overlap" else ""
    put("nodes", ["UCLA nodes 1.0", f"NumNodes : {count + len(pads) + len(macros)}", f"NumTerminals : {len(pads) + len(macros)}"]
        + [f"\to{i}\t{i % 4 + 1}\t10" for i in range(count)]
        + [f"\t{name}\t{4 * (right - left)}\t{10 * (top - bottom)}\tterminal{soft if name in ('m0', 'm2') else ''}"
           for name, bottom, left, top, right in macros]
        + [f"\t{name}\t0\t0\tterminal" for name, _, _, _ in pads])
    nets = list(local_nets(core, numbers))
    nets += [[(name, 4), (f"o{cell}", 4)] for name, _, _, cell in pads]
    for name, bottom, left, top, right in macros:
        beside = [(bottom, left - 1), (top, left), (bottom - 1, left), (bottom, right)]
        nets += [[(name, 4), (f"o{core.beside(r, c)}", 4)] for r, c in beside]
    nets += wide_nets()
    lines = ["UCLA nets 1.0", f"NumNets : {len(nets)}", f"NumPins : {sum(map(len, nets))}"]
    for k, net in enumerate(nets):
        lines.append(f"NetDegree : {len(net)} n{k}")
        lines += [f"\t{name}\tB : {OFFSETS[bits & 7]}\t{OFFSETS[bits >> 1 & 7]}" for name, bits in net]
    put("nets", lines)
    put("wts", ["UCLA wts 1.0"] + [f"n{k}\t{numbers.getrandbits(2) + 1}" for k in range(0, len(nets), 3)])
    lines = ["UCLA pl 1.0"]
    for i, (r, c) in enumerate(core.places):
        bits = numbers.getrandbits(20)
        x, y = 4 * c + (bits & 31) / 4 - 2, 10 * r + (bits >> 5 & 63) / 4 - 5
        lines.append(f"o{i}\t{x:.6f}\t{y:.6f}\t: N")
    lines += [f"{name}\t{4 * left}\t{10 * bottom}\t: N /FIXED" for name, bottom, left, _, _ in macros]
    lines += [f"{name}\t{x}\t{y}\t: N /FIXED{soft}" for name, x, y, _ in pads]
    put("pl", lines)
    put("scl", rows_of(core.rows, 10, width))


def one_row():
    """Subrows side by side under many fixed blocks."""
    numbers, blocks = random.Random(seed), count // 50
    put("nodes", ["UCLA nodes 1.0", f"NumNodes : {count + blocks + 2}", f"NumTerminals : {blocks + 2}"]
        + [f"o{i} 1 10" for i in range(count)]
        + [f"b{k} {8 + numbers.getrandbits(4)} 10 terminal" for k in range(blocks)] + ["l 0 0 terminal", "r 0 0 terminal"])
    chain = ["l", *(f"o{i}" for i in range(count)), "r"]
    put("nets", ["UCLA nets 1.0", f"NumNets : {count + 1}", f"NumPins : {2 * count + 2}"]
        + [line for k in range(count + 1) for line in (f"NetDegree : 2 n{k}", f"{chain[k]} B", f"{chain[k + 1]} B")])
    put("wts", ["UCLA wts 1.0"])
    put("pl", ["UCLA pl 1.0"] + [f"o{i} {8 * i + numbers.getrandbits(5) - 16} 0 : N" for i in range(count)]
        + [f"b{k} {int(8 * count * numbers.random())} 0 : N" for k in range(blocks)] + ["l 0 5 : N", f"r {8 * count} 5 : N"])
    put("scl", rows_of(1, 10, 8, range(0, 8 * count, 8)))


OFFSETS = [offset(bits) for bits in range(8)]
put("aux", ["RowBasedPlacement : d.nodes d.nets d.wts d.pl d.scl"])
if end in ("local", "clock", "buses", "overlap"):
    local()
elif end == "row":
    one_row()
else:
    refused()

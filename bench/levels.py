#!/usr/bin/env python3
"""What the program makes of a design, found once more: small and slow, in exact integers, straight from the rules.

levels.py [--levels N] [--passes N] [--out FILE] AUX, by default 4 levels and 2 rounds of each; FILE is by default AUX without its
.aux and with .proud.pl. It shares nothing with place_cells.rs: it sums a weight for each pair of points, renews all entries of a
vector at once until none moves, tests each site against each fixed node, and looks at each segment for each cell. It tests no
design: a fault in one ends in some error of Python. compare_levels.py runs other programs beside it.
"""
import argparse
import itertools
import os
import sys
from decimal import Decimal

COUNTS = "numnodes", "numterminals", "numnets", "numpins", "numrows"


def micro(word):
    return int(Decimal(word) * 1000000)


def lines_of(folder, name):
    """The words of each line behind the header but for the counts, colons left out."""
    with open(os.path.join(folder, name), errors="surrogateescape") as file:
        lines = [[word.strip(":") for word in line.split() if word.strip(":")] for line in file]
    lines = [line for line in lines if line and not line[0].startswith("#")][1:]
    return [line for line in lines if line[0].lower() not in COUNTS]


class Design:
    def __init__(self, aux):
        folder = os.path.dirname(aux)
        with open(aux) as file:
            text = " ".join(line for line in file if not line.lstrip().startswith("#"))
        files = {name.rsplit(".", 1)[1].lower(): name for name in text.split(":", 1)[1].split()}
        self.read_nodes(lines_of(folder, files["nodes"]), lines_of(folder, files["pl"]))
        weights = lines_of(folder, files["wts"]) if "wts" in files else []
        self.read_nets(lines_of(folder, files["nets"]), {line[0]: int(Decimal(line[1])) for line in weights})
        self.read_rows(lines_of(folder, files["scl"]))

    def read_nodes(self, nodes, places):
        place = {line[0]: line[1:] for line in places}
        self.size, self.corner, self.orient, self.cells = {}, {}, {}, []
        # Which nodes are fixed, and over which of them cells may stand.
        self.fixed, self.overlap = set(), set()
        for name, width, height, *mark in nodes:
            x, y, *words = place.get(name, ["0", "0"])
            self.size[name] = micro(width), micro(height)
            self.corner[name] = micro(x), micro(y)
            self.orient[name] = next((word.upper() for word in words if not word.startswith("/")), "N")
            marks = [word.lower() for word in mark + words]
            if {"terminal_ni", "/fixed_ni"}.intersection(marks):
                self.overlap.add(name)
            if {"terminal", "/fixed", "terminal_ni", "/fixed_ni"}.intersection(marks):
                self.fixed.add(name)
            else:
                self.cells.append(name)

    def read_nets(self, lines, weights):
        """A net is its weight and, for each of its nodes, the offset of the node's first pin. Beside it stand all of its pins."""
        self.nets, self.all_pins = [], []
        for line in lines:
            if line[0].lower() == "netdegree":
                pins = {}
                self.nets.append((weights.get(line[2], 1) if len(line) > 2 else 1, pins))
                self.all_pins.append([])
            else:
                offset = (micro(line[2]), micro(line[3])) if len(line) > 2 else (0, 0)
                pins.setdefault(line[0], offset)
                self.all_pins[-1].append((line[0], offset))

    def read_rows(self, lines):
        subrows = []
        for line in lines:
            key = line[0].lower()
            if key == "corerow":
                row = {}
            elif key == "subroworigin":
                subrows.append((row, micro(line[1]), int(line[3])))
            elif len(line) == 2:
                row[key] = line[1]
        # All rows have one height and one pitch.
        self.height, self.pitch = micro(row["height"]), micro(row.get("sitespacing", row.get("sitewidth")))
        self.subrows = [(x, micro(row["coordinate"]), sites) for row, x, sites in subrows]
        wide = [subrow for subrow in self.subrows if subrow[2] > 0]
        xs, ys = [x for x, _, _ in wide], [y for _, y, _ in wide]
        rights = [x + sites * self.pitch for x, _, sites in wide]
        self.core = (min(xs), max(rights)), (min(ys), max(ys) + self.height)

    def centre(self, name, axis):
        return self.corner[name][axis] + self.size[name][axis] // 2


class Network:
    def __init__(self, design):
        self.number = {name: number for number, name in enumerate(design.cells)}
        self.core = design.core
        self.areas = [max(1, -(-design.size[name][0] // design.pitch)) for name in design.cells]
        self.near = [{} for _ in design.cells]
        self.pins = [[] for _ in design.cells]
        for weight, pins in design.nets:
            if len(pins) > 16 and weight > 0 and not design.fixed.issuperset(pins):
                self.join_star(design, 840 * weight * len(pins) // (len(pins) - 1), pins)
            elif 2 <= len(pins) <= 16:
                share = 840 * weight // (len(pins) - 1)
                for one in pins:
                    for other in pins:
                        if share > 0 and one != other and one in self.number:
                            self.join(design, self.number[one], other, share, pins[other])

    def join_star(self, design, spoke, pins):
        """Joins the nodes of a wide net to a point of its own, which takes no site."""
        star = len(self.near)
        self.areas.append(0)
        self.near.append({})
        self.pins.append([])
        for name, offset in pins.items():
            self.join(design, star, name, spoke, offset)
            if name in self.number:
                self.near[self.number[name]][star] = spoke

    def join(self, design, point, other, share, offset):
        if other in self.number:
            near, q = self.near[point], self.number[other]
            near[q] = near.get(q, 0) + share
        else:
            self.pins[point].append((share, [design.centre(other, axis) + offset[axis] for axis in (0, 1)]))


def clamp(value, ends):
    return max(ends[0], min(value, ends[1]))


class Region:
    def __init__(self, ends, points):
        self.ends, self.points = ends, points


def systems(network, axis, regions, mids):
    """For each point: its box, its neighbours, its total weight, and its sum of weight times constant."""
    home = {point: region.ends[axis] for region in regions for point in region.points}
    group = {point: number for number, region in enumerate(regions) for point in region.points}
    for point in range(len(network.near)):
        near, total, anchored = [], 0, 0
        for other, weight in network.near[point].items():
            total += weight
            if group[other] == group[point]:
                near.append((other, weight))
            else:
                anchored += weight * clamp(clamp(mids[axis][other], home[other]), home[point])
        for weight, place in network.pins[point]:
            total += weight
            anchored += weight * clamp(place[axis], home[point])
        yield home[point], near, total, anchored


def least(system):
    """From the bottoms of the boxes up, all at once, until every rounded-down mean is at most its entry."""
    v = [box[0] for box, _, _, _ in system]
    while True:
        means = [(sum(w * v[j] for j, w in near) + b) // total for _, near, total, b in system]
        if all(mean <= entry for mean, entry in zip(means, v)):
            return v
        v = [max(pair) for pair in zip(means, v)]


def greatest(system):
    """The same turned upside down: from the tops, by the means rounded up."""
    turned = [((-box[1], -box[0]), near, total, -b) for box, near, total, b in system]
    return [-entry for entry in least(turned)]


def cut(network, region, mids):
    sides = [high - low for low, high in region.ends]
    if len(region.points) < 2 or max(sides) == 0:
        return [region]
    axis = 0 if sides[0] >= sides[1] else 1
    order = sorted(region.points, key=lambda point: (mids[axis][point], point))
    area = lambda points: sum(network.areas[point] for point in points)
    count = min(n for n in range(1, len(order) + 1) if 2 * area(order[:n]) >= area(order))
    if count == len(order):
        count -= 1
    low, high = region.ends[axis]
    whole = area(order)
    line = low + (sides[axis] * area(order[:count]) // whole if whole > 0 else sides[axis] // 2)
    part = lambda ends, points: Region([ends if k == axis else region.ends[k] for k in (0, 1)], sorted(points))
    return [part((low, line), order[:count]), part((line, high), order[count:])]


def rounds(network, number, passes):
    """For each round, and for each axis, the two vectors. The regions of a level are cut by the mids of its last round."""
    regions = [Region(list(network.core), list(range(len(network.near))))]
    mids = [[None] * len(network.near)] * 2
    for turn in range((number + 1) * passes):
        if turn > 0 and turn % passes == 0:
            regions = [part for region in regions for part in cut(network, region, mids)]
        axes = [list(systems(network, axis, regions, mids)) for axis in (0, 1)]
        solved = [(least(system), greatest(system)) for system in axes]
        mids = [[(lower + upper) // 2 for lower, upper in zip(*pair)] for pair in solved]
        yield solved


class NoRoom(Exception):
    pass


def share_area(one, other):
    """Whether two rectangles, each its ends on x and on y, have a positive width and height in common."""
    return all(max(one[axis][0], other[axis][0]) < min(one[axis][1], other[axis][1]) for axis in (0, 1))


def segments(design):
    """The runs of sites that share no area with a fixed node that forbids overlap: x, y, sites."""
    forbidding = design.fixed - design.overlap
    walls = [[(at, at + side) for at, side in zip(design.corner[name], design.size[name])] for name in forbidding]
    walls = [wall for wall in walls if all(low < high for low, high in wall)]
    for x, y, sites in design.subrows:
        lefts = [x + k * design.pitch for k in range(sites)]
        free = lambda left: not any(share_area(((left, left + design.pitch), (y, y + design.height)), wall) for wall in walls)
        for is_free, run in itertools.groupby(lefts, key=free):
            run = list(run)
            if is_free:
                yield run[0], y, len(run)


def cost(segment, pitch, sites, wish):
    x, y, size = segment
    return abs(wish[1] - y) + abs(wish[0] - clamp(wish[0], (x, x + (size - sites) * pitch)))


def choices(rows, pitch, sites, wishes):
    """The number of each cell's segment."""
    room, chosen = [size for _, _, size in rows], {}
    for cell in sorted(range(len(sites)), key=lambda cell: (-sites[cell], wishes[cell][1], wishes[cell][0], cell)):
        fitting = [s for s in range(len(rows)) if room[s] >= sites[cell]]
        if not fitting:
            raise NoRoom(cell, sites[cell], max(room, default=0))
        chosen[cell] = min(fitting, key=lambda s: (cost(rows[s], pitch, sites[cell], wishes[cell]), s))
        room[chosen[cell]] -= sites[cell]
    return chosen


def sites_in(segment, pitch, row, sites, wishes):
    """The first site of each cell of a row, which is in order."""
    x, _, size = segment
    desired = [max(0, (wishes[cell][0] - x + pitch // 2) // pitch) for cell in row]
    width = [sites[cell] for cell in row]
    for i in range(len(row)):
        earliest = max(desired[j] + sum(width[j:i]) for j in range(i + 1))
        yield min(earliest, size - sum(width[i:]))


def corners(design, network, solved):
    """The lower left corner of each cell."""
    mids = [[(lower + upper) // 2 for lower, upper in zip(*pair)] for pair in solved]
    wishes = [tuple(mids[axis][point] - design.size[name][axis] // 2 for axis in (0, 1))
              for point, name in enumerate(design.cells)]
    rows, sites, found = list(segments(design)), network.areas[:len(design.cells)], {}
    chosen = choices(rows, design.pitch, sites, wishes)
    for s, segment in enumerate(rows):
        row = sorted((cell for cell in chosen if chosen[cell] == s), key=lambda cell: (wishes[cell][0], cell))
        for cell, site in zip(row, sites_in(segment, design.pitch, row, sites, wishes)):
            found[design.cells[cell]] = segment[0] + site * design.pitch, segment[1]
    return found


def decimal(millionths):
    whole, rest = divmod(abs(millionths), 1000000)
    return f"{'-' if millionths < 0 else ''}{whole}" + (f".{rest:06}".rstrip("0") if rest else "")


def placement(design, places):
    yield "UCLA pl 1.0"
    for name in design.size:
        x, y = design.corner[name] if name in design.fixed else places[name]
        mark = " /FIXED_NI" if name in design.overlap else " /FIXED" if name in design.fixed else ""
        yield f"{name} {decimal(x)} {decimal(y)} : {design.orient[name]}{mark}"


def wire_length(design, places):
    """The width plus the height of the smallest rectangle around each net's pins, together."""
    corner = {**design.corner, **places}
    total = 0
    for net in design.all_pins:
        for axis in (0, 1):
            at = [corner[name][axis] + design.size[name][axis] // 2 + offset[axis] for name, offset in net]
            total += max(at, default=0) - min(at, default=0)
    return total


def spread(found):
    """How far two entries stand apart at most."""
    return max((upper - lower for solved in found for pair in solved for lower, upper in zip(*pair)), default=0)


def text(lines):
    return "".join(line + "\n" for line in lines).encode(errors="surrogateescape")


def answer(aux, number, passes):
    """With so many levels, and rounds of each: the status, the bytes that are printed, and those of the placement or None."""
    design = Design(aux)
    network = Network(design)
    found = list(rounds(network, number, passes))
    try:
        places = corners(design, network, found[-1])
    except NoRoom as fault:
        cell, sites, largest = fault.args
        return 2, text([f"proud: node {design.cells[cell]}: no room for {sites} sites, {largest} left"]), None
    pins = sum(map(len, design.all_pins))
    counts = f"cells {len(design.cells)} terminals {len(design.fixed)} nets {len(design.nets)} pins {pins}"
    wire = f"wire {decimal(wire_length(design, places))}"
    return 0, text([counts, f"levels {number} gap {spread(found)}", wire]), text(placement(design, places))


def main():
    parser = argparse.ArgumentParser()
    parser.add_argument("--levels", type=int, default=4)
    parser.add_argument("--passes", type=int, default=2)
    parser.add_argument("--out")
    parser.add_argument("aux")
    options = parser.parse_args()
    status, printed, made = answer(options.aux, options.levels, options.passes)
    if made is not None:
        with open(options.out or options.aux.removesuffix(".aux") + ".proud.pl", "wb") as file:
            file.write(made)
    os.write(1, printed)
    return status


if __name__ == "__main__":
    sys.exit(main())

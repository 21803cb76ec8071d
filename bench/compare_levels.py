#!/usr/bin/env python3
"""Runs programs on small random designs, and compares what they answer with what levels.py finds.

compare_levels.py [--count N] [--seed K] PROGRAM .., by default 200 designs. Each program, which may have options
behind its name, is run as PROGRAM --levels N --passes N AUX. Compared are its status, what it prints, and the placement that it
makes beside the design, which is looked at by legal.py too.

The designs have cores from a millionth to some hundred thousand units wide, so that means round, mids tie, sides of regions
come to 0, and sums pass 64 bits; pads inside the core and far outside, cells of no width, nets with a node twice, nets of
15 to 20 nodes, and weights of 0. Rows have one or more subrows, some without sites, stand in any order, with gaps between them or
in columns that are shifted against each other, so that wishes lie beside them all. Fixed blocks, some of them flat, cover sites
in whole or in part, and touch others; in two designs of three some of them, and of the pads, allow overlap. Now and then there is
no room for all cells.
"""
import argparse
import collections
import os
import random
import subprocess
import sys
import tempfile

import legal
import levels

MOST = 1000000000000
ORIENTS = "N", "S", "E", "W", "FN", "FS", "FE", "FW"
# What may stand behind the mark of a fixed node: nothing, or that it allows overlap.
ENDS = [""], ["", "_NI"], ["", "", "", "_NI", "_ni", "_nI"]


def decimal(millionths):
    return f"{'-' if millionths < 0 else ''}{abs(millionths) // 1000000}.{abs(millionths) % 1000000:06}"


def random_subrows(rng, unit, pitch, height):
    """Subrows (x, y, sites), of which none overlap, in columns; the first one has sites."""
    subrows, x = [], rng.choice([0, 0, -7, 3]) * unit
    for _ in range(rng.choice([1, 1, 2, 3])):
        sites, y = rng.randint(1, 12), rng.choice([0, 0, -5, 2]) * unit
        for _ in range(rng.randint(1, 4)):
            fewer = rng.randint(0, sites) if subrows and rng.random() < 0.3 else sites
            subrows.append((x, y, fewer))
            y += height + rng.choice([0, 0, 0, 1, height // 2, height])
        x += pitch * sites + rng.choice([0, 0, 1, pitch // 2, 3 * pitch])
    return subrows


def scl_of(rng, subrows, pitch, height):
    """The lines of `.scl`: subrows of one y share a block or have their own, and the blocks stand in any order."""
    together = collections.defaultdict(list)
    for number, subrow in enumerate(subrows):
        together[subrow[1], rng.choice([0, number])].append(subrow)
    blocks = list(together.values())
    rng.shuffle(blocks)
    lines = ["UCLA scl 1.0", f"NumRows : {len(blocks)}"]
    for block in blocks:
        lines += ["CoreRow Horizontal", f"Coordinate : {decimal(block[0][1])}", f"Height : {decimal(height)}"]
        lines += [f"Sitewidth : {decimal(pitch)}"]
        lines += [f"SubrowOrigin : {decimal(x)} NumSites : {sites}" for x, _, sites in block] + ["End"]
    return lines


def pl_of(rng, names, marks, places):
    """Lines for the fixed nodes, and for some of the cells; the last line of a node counts, and its mark."""
    some = lambda: f"{rng.randint(-9, 9)} {rng.randint(-9, 9)}"
    turned = lambda: rng.choice(["", " : N", f" : {rng.choice(ORIENTS)}"])
    lines = ["UCLA pl 1.0"]
    for name in names:
        if name in places or rng.random() < 0.7:
            x, y = places.get(name, (rng.randint(-9, 9) * 1000000, rng.randint(-9, 9) * 1000000))
            for _ in range(rng.choice([0, 0, 0, 1])):
                lines.append(f"{name} {some()}{turned()}{rng.choice(['', ' /FIXED', ' /FIXED_NI'])}")
            lines.append(f"{name} {decimal(x)} {decimal(y)}{turned()}{marks.get(name, '')}")
    return lines


def random_marks(rng, names):
    """How each of these fixed nodes is marked in `.nodes` and in `.pl`: in the one, in the other, or in both."""
    ends, marks = rng.choice(ENDS), {}
    for name in names:
        mark = " terminal" + rng.choice(ends), " /FIXED" + rng.choice(ends)
        marks[name] = rng.choice([mark, (mark[0], ""), ("", mark[1])])
    return marks


def random_design(rng):
    """The texts of a design in which a chain of nets leads from each cell to a pad."""
    unit = rng.choice([1, 1, 2, 5, 1000, 1000000, 5000000000])
    pitch, height = rng.randint(1, 3) * unit, rng.randint(1, 20) * unit
    subrows = random_subrows(rng, unit, pitch, height)
    wide = [subrow for subrow in subrows if subrow[2] > 0]
    left, right = min(x for x, _, _ in wide), max(x + sites * pitch for x, _, sites in wide)
    bottom, top = min(y for _, y, _ in wide), max(y for _, y, _ in wide) + height
    cells = [f"c{i}" for i in range(rng.randint(0, rng.choice([14, 14, 40])))]
    pads = [f"p{i}" for i in range(rng.choice([1, 2, 3, 4, 18]))]
    clear = rng.random() < 0.2
    blocks = [] if clear else [f"b{i}" for i in range(rng.randint(0, 3))]
    place = lambda low, side: max(-MOST, min(rng.randint(low - side, low + 2 * side), MOST))
    on_site = lambda: rng.choice([(x + k * pitch, y) for x, y, sites in wide for k in range(sites + 1)])
    places = {pad: (place(left, right - left), place(bottom, top - bottom)) for pad in pads}
    places |= {block: rng.choice([on_site(), (rng.randint(left, right), rng.randint(bottom, top))]) for block in blocks}
    pins = [[rng.choice(cells[:i] + pads), cell] for i, cell in enumerate(cells)]
    pins += [rng.choices(cells + pads + blocks, k=rng.randint(1, 5)) for _ in range(rng.randint(0, 2 * len(cells)))]
    for _ in range(rng.choice([0, 0, 1, 2])):
        everyone = cells + pads + blocks
        pins.append(rng.sample(everyone, min(len(everyone), rng.randint(15, 20))))
    rng.shuffle(pins)
    # A net of two nodes may be one of a chain, so it weighs something.
    scale, named = rng.choice([(1, 0.5), (20000, 1)])
    weights = {f"n{k}": scale * rng.choice([len(net) == 2, 1, 2, 3]) for k, net in enumerate(pins) if rng.random() < named}
    offset = lambda: rng.choice(["", " B", f" I : {decimal(rng.randint(-unit, unit))} {decimal(rng.randint(-unit, unit))}"])
    widest = rng.choice([1, 2, 4])
    sizes = {cell: (rng.randint(0, widest * pitch), rng.randint(0, height)) for cell in cells}
    sizes |= {pad: (0 if clear else rng.randint(0, pitch), rng.randint(0, height)) for pad in pads}
    sizes |= {block: (rng.choice([0, pitch, rng.randint(0, 4 * pitch)]), rng.choice([0, height, rng.randint(0, 2 * height)]))
              for block in blocks}
    marks = random_marks(rng, pads + blocks)
    order = cells + pads + blocks
    if rng.random() < 0.3:
        rng.shuffle(order)
    nodes = [f"{name} {' '.join(map(decimal, sizes[name]))}{marks.get(name, ('',))[0]}" for name in order]
    nets = [line for k, net in enumerate(pins) for line in [f"NetDegree : {len(net)} n{k}"] + [node + offset() for node in net]]
    return {
        "d.aux": ["RowBasedPlacement : d.nodes d.nets d.wts d.pl d.scl"],
        "d.nodes": ["UCLA nodes 1.0", f"NumNodes : {len(order)}", f"NumTerminals : {len(pads + blocks)}"] + nodes,
        "d.nets": ["UCLA nets 1.0", f"NumNets : {len(pins)}", f"NumPins : {sum(map(len, pins))}"] + nets,
        "d.wts": ["UCLA wts 1.0"] + [f"{net} {weight}" for net, weight in weights.items()],
        "d.pl": pl_of(rng, order, {name: mark for name, (_, mark) in marks.items()}, places),
        "d.scl": scl_of(rng, subrows, pitch, height),
    }


def random_counts(rng):
    """How many levels, and rounds of each: at most 26 together."""
    number = rng.choice([0, 1, 2, 3, 4, 4, 12])
    return number, rng.choice([passes for passes in (1, 2, 2, 3, 4, 8) if (number + 1) * passes <= 26])


def answer_of(program, aux, number, passes):
    """What a program answers, in the form of levels.answer; in place of a placement that is not legal, why it is not."""
    made = aux.removesuffix(".aux") + ".proud.pl"
    run = subprocess.run([*program.split(), "--levels", str(number), "--passes", str(passes), aux], stdout=subprocess.PIPE)
    if not os.path.exists(made):
        return run.returncode, run.stdout, None
    with open(made, "rb") as file:
        placement = file.read()
    not_legal = legal.faults(aux, made)
    os.remove(made)
    return run.returncode, run.stdout, not_legal or placement


def main():
    parser = argparse.ArgumentParser()
    parser.add_argument("--count", type=int, default=200)
    parser.add_argument("--seed", type=int, default=1)
    parser.add_argument("programs", nargs="+")
    options = parser.parse_args()
    failed = placed = overlap = 0
    for seed in range(options.seed, options.seed + options.count):
        rng = random.Random(seed)
        with tempfile.TemporaryDirectory() as folder:
            for name, lines in random_design(rng).items():
                with open(os.path.join(folder, name), "w") as file:
                    file.writelines(line + "\n" for line in lines)
            aux, (number, passes) = os.path.join(folder, "d.aux"), random_counts(rng)
            due = levels.answer(aux, number, passes)
            placed += due[0] == 0
            overlap += b" /FIXED_NI\n" in (due[2] or b"")
            for program in options.programs:
                answer = answer_of(program, aux, number, passes)
                if answer != due:
                    failed += 1
                    print(f"seed {seed}, {number} levels, {passes} passes, {program}: {answer} instead of {due}")
    print(f"{options.count} designs, {placed} placed, {overlap} of them with nodes that allow overlap; {failed} answers differ")
    return min(failed, 1)


if __name__ == "__main__":
    sys.exit(main())

#!/usr/bin/env python3
"""Says whether a placement is legal: legal.py AUX PLACEMENT. It prints `legal`, or a line for each thing that isn't, with status 1.

The placement has a line for each node, in the order of `.nodes`. A fixed node stands where `.pl` puts it, and is marked as
`/FIXED_NI` where it allows overlap, and else as `/FIXED`. A movable one isn't marked. It stands on a subrow, a whole number of
pitches from the subrow's origin, with all its sites in the subrow: as many as its width needs, and at least one. The sites of a
cell share no area with a fixed node that forbids overlap, nor with those of another cell. Each is turned as in `.pl`, a movable
one without a line there as N. It shares no code with a placer. `.nets` and `.wts` say nothing of this.
"""
import os
import sys
from decimal import Decimal


def micro(word):
    return int(Decimal(word.decode()) * 1000000)


def lines_of(path):
    """The words of each line behind the header but for the counts, without colons at their ends."""
    with open(path, "rb") as file:
        lines = [[word.strip(b":") for word in line.split() if word.strip(b":")] for line in file]
    lines = [line for line in lines if line and not line[0].startswith(b"#")][1:]
    return [line for line in lines if line[0].lower() not in (b"numnodes", b"numterminals", b"numrows")]


def places_of(path):
    """Of each line: the name; then x, y, how the node is turned, and its mark or none."""
    for name, x, y, *words in lines_of(path):
        words = [word.upper() for word in words]
        marks = [word for word in words if word.startswith(b"/")] or [b""]
        turned = [word for word in words if not word.startswith(b"/")] or [b"N"]
        yield name, (micro(x), micro(y), turned[0], marks[0])


def due_mark(*marks):
    """The mark in a placement of a node with these marks in `.nodes` and in its line of `.pl`; none for a movable one."""
    marks = {mark.upper() for mark in marks} - {b""}
    return b"/FIXED_NI" if marks & {b"TERMINAL_NI", b"/FIXED_NI"} else b"/FIXED" if marks else b""


def rows_of(path):
    """The height and the pitch of all rows, and for each y the origins and sites of its subrows."""
    subrows, row = {}, {}
    for key, *words in lines_of(path):
        if key.lower() == b"subroworigin":
            subrows.setdefault(micro(row[b"coordinate"]), []).append((micro(words[0]), int(words[2])))
        elif key.lower() == b"corerow":
            row = {}
        elif words:
            row[key.lower()] = words[0]
    return micro(row[b"height"]), micro(row.get(b"sitespacing", row.get(b"sitewidth"))), subrows


def overlaps(rectangles, height):
    """The names of two (name, left, right, lower, upper) that share area: band by band, from left to right."""
    bands = {}
    for rectangle in rectangles:
        _, left, right, lower, upper = rectangle
        if left < right and lower < upper:
            for band in range(lower // height, -(-upper // height)):
                bands.setdefault(band, []).append(rectangle)
    for band in bands.values():
        band.sort(key=lambda rectangle: rectangle[1])
        for i, (one, _, right, lower, upper) in enumerate(band):
            for other, left, _, other_lower, other_upper in band[i + 1:]:
                if left >= right:
                    break
                if max(lower, other_lower) < min(upper, other_upper):
                    yield one, other


def faults(aux, placement):
    """What isn't legal, a line for each."""
    with open(aux, "rb") as file:
        names = b" ".join(line for line in file if not line.lstrip().startswith(b"#")).split(b":", 1)[1].split()
    folder = os.path.dirname(os.fsencode(aux))
    files = {name.lower().rsplit(b".", 1)[1]: os.path.join(folder, name) for name in names}
    nodes, before, after = lines_of(files[b"nodes"]), dict(places_of(files[b"pl"])), list(places_of(placement))
    height, pitch, subrows = rows_of(files[b"scl"])
    if [name for name, _ in after] != [node[0] for node in nodes]:
        return ["the placement's lines aren't those of the nodes in their order"]
    found, cells, blocks = [], [], []
    for (name, width, high, *marks), (_, (x, y, turned, mark)) in zip(nodes, after):
        told, width, high = name.decode(errors="backslashreplace"), micro(width), micro(high)
        old_x, old_y, old_turned, old_mark = before.get(name, (0, 0, b"N", b""))
        due = due_mark(*marks, old_mark)
        if turned != old_turned:
            found.append(f"{told} is turned")
        if mark != due:
            found.append(f"{told} is marked as {mark.decode() or 'movable'}, and is {due.decode() or 'movable'}")
        if due:
            # Cells may stand over a node that allows overlap.
            blocks += [(told, x, x + width, y, y + high)] if due == b"/FIXED" else []
            if (x, y) != (old_x, old_y):
                found.append(f"{told} is fixed and was moved")
        else:
            wide = max(1, -(-width // pitch)) * pitch
            cells.append((told, x, x + wide, y, y + height))
            if high > height:
                found.append(f"{told} is higher than a row")
            stands = [left for left, sites in subrows.get(y, []) if left <= x and x + wide <= left + sites * pitch]
            if not any((x - left) % pitch == 0 for left in stands):
                found.append(f"{told} isn't on the sites of a subrow" if stands else f"{told} isn't in a subrow")
    movable = {cell[0] for cell in cells}
    pairs = {pair for pair in overlaps(cells + blocks, height) if not movable.isdisjoint(pair)}
    return found + sorted(f"{one} and {other} overlap" for one, other in pairs)


def main():
    if len(sys.argv) != 3:
        sys.exit("usage: legal.py AUX PLACEMENT")
    found = faults(sys.argv[1], sys.argv[2])
    for line in found or ["legal"]:
        print(line)
    return 1 if found else 0


if __name__ == "__main__":
    sys.exit(main())

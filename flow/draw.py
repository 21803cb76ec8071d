#!/usr/bin/env python3
"""Draws a placed design as an SVG, which a browser shows without anything else.

Shown are the rows, the fixed blocks, the pads, the cells, and a legend with the wire length. A fixed node is a block where it
shares area with the core, and else a pad; pads smaller than a mark are drawn as marks. Those that allow overlap are lighter and
dashed, and cells may stand over such a block. --longest and --net draw nets, each in a colour of its own, as lines from each pin
to the middle of its pins; their cells stand out. Without PLACED.pl the cells stand where the design's own `.pl` has them.

Status 0: OUT.svg is written. Status 2: one line says what is wrong with an input.
"""
from __future__ import annotations

import argparse
import os
from collections import Counter
from typing import Iterable, Iterator, List, Set, Tuple
from xml.sax.saxutils import escape

from bookshelf import (MICRO, Design, Fault, Placement, Rectangle, decimal, net_lengths, printable, read_design, read_placement,
                       run, without_loss, write_whole)

SIDE, MARGIN, LEGEND = 900, 20, 280
LISTED = 24
COLOURS = {"row": "#eef1f5", "block": "#9aa5b5", "cell": "#8fbbe8", "chosen": "#f5b942", "pad": "#2f3b4c",
           "open-block": "#dde2e9", "open-pad": "#b4bdc9"}
NET_COLOURS = "#c0392b", "#1e8449", "#7d3c98", "#b9770e", "#117a65", "#a93226", "#1f618d", "#6c3483"


class View:
    """How Bookshelf units come to stand in the picture: so many pixels a unit, y upwards from below."""

    def __init__(self, shown: Rectangle):
        self.shown = shown
        width, height = max(1, shown.right - shown.left), max(1, shown.upper - shown.lower)
        self.scale = SIDE * MICRO / max(width, height)
        self.width, self.height = width / MICRO * self.scale, height / MICRO * self.scale
        # A mark is 6 pixels wide.
        self.mark = int(6 * MICRO / self.scale)

    def transform(self) -> str:
        left, upper = self.shown.left / MICRO, self.shown.upper / MICRO
        moved = f"translate({MARGIN - left * self.scale:.4f} {MARGIN + upper * self.scale:.4f})"
        return f"{moved} scale({self.scale:.6g} {-self.scale:.6g})"


def around(rectangles: Iterable[Rectangle]) -> Rectangle:
    """The smallest rectangle around these."""
    lefts, lowers, rights, uppers = zip(*rectangles)
    return Rectangle(min(lefts), min(lowers), max(rights), max(uppers))


def piece(area: Rectangle) -> str:
    """The rectangle as a part of a path."""
    width = decimal(area.right - area.left)
    return f"M{decimal(area.left)} {decimal(area.lower)}h{width}v{decimal(area.upper - area.lower)}h-{width}z"


def kind_of(design: Design, node: int) -> str:
    """What a node is drawn as. A fixed node is open where it allows overlap."""
    if not design.nodes.fixed[node]:
        return "cell"
    return "open-" * design.nodes.overlap[node] + ("block" if design.is_block(node) else "pad")


def path(kind: str, areas: Iterable[Rectangle], stroke: float) -> Iterator[str]:
    """All of these rectangles as one path, a line for each."""
    pieces = [piece(area) for area in areas]
    if pieces:
        edge = 'stroke="#ffffff"'
        if kind.startswith("open-"):
            edge = f'stroke="{COLOURS[kind[len("open-"):]]}" stroke-dasharray="{6 * stroke:.6g} {4 * stroke:.6g}"'
        yield f'<path class="{kind}" fill="{COLOURS[kind]}" {edge} stroke-width="{stroke:.6g}" d="'
        yield from pieces
        yield '"/>'


def as_mark(area: Rectangle, mark: int) -> Rectangle:
    """The rectangle, or one as large as a mark around its middle where it is smaller."""
    wider, higher = max(0, mark - (area.right - area.left)) // 2, max(0, mark - (area.upper - area.lower)) // 2
    return Rectangle(area.left - wider, area.lower - higher, area.right + wider, area.upper + higher)


def nodes_of(design: Design, nets: List[int]) -> Set[int]:
    return {design.nets.node[pin] for net in nets for pin in design.nets.pins(net)}


def net_lines(design: Design, placement: Placement, net: int, colour: str) -> Iterator[str]:
    """A net as lines from each pin to the middle of its pins."""
    nodes, nets = design.nodes, design.nets
    pins = []
    for pin in nets.pins(net):
        node = nets.node[pin]
        pins.append((placement.x[node] + nodes.width[node] // 2 + nets.x[pin],
                     placement.y[node] + nodes.height[node] // 2 + nets.y[pin]))
    if pins:
        middle = [sum(axis) // len(pins) for axis in zip(*pins)]
        lines = "".join(f"M{decimal(middle[0])} {decimal(middle[1])}L{decimal(x)} {decimal(y)}" for x, y in pins)
        yield (f'<path class="net" fill="none" stroke="{colour}" stroke-width="1.2" vector-effect="non-scaling-stroke" '
               f'd="{lines}"/>')


def drawing(design: Design, placement: Placement, view: View, chosen: List[int]) -> Iterator[str]:
    """The drawing in Bookshelf units: rows, blocks, cells, pads, nets."""
    rows, fixed = design.rows, design.nodes.fixed
    stroke = rows.height / MICRO / 25
    marked = nodes_of(design, chosen)
    groups = {"open-block": [], "block": [], "cell": [], "chosen": [], "open-pad": [], "pad": []}
    for node in range(len(fixed)):
        area, kind = design.rectangle(node, placement), kind_of(design, node)
        if kind == "cell" and node in marked:
            kind = "chosen"
        groups[kind].append(as_mark(area, view.mark) if kind.endswith("pad") else area)
    subrows = [Rectangle(row.x, row.y, row.x + row.sites * rows.pitch, row.y + rows.height) for row in rows.subrows]
    yield f'<g transform="{view.transform()}">'
    yield from path("row", subrows, stroke)
    for kind, areas in groups.items():
        yield from path(kind, areas, stroke)
    for number, net in enumerate(chosen):
        yield from net_lines(design, placement, net, NET_COLOURS[number % len(NET_COLOURS)])
    yield "</g>"


def shown(text: str, most: int = 40) -> str:
    """The text as it can stand in the picture."""
    text = printable(text)
    return escape(text if len(text) <= most else text[:most - 2] + "..")


def legend_lines(design: Design, placement: Placement, lengths: List[int], chosen: List[int]) -> Iterator[Tuple[str, str]]:
    """The legend: of each line its colour, if it has one, and its text."""
    nodes = design.nodes
    kinds = Counter(kind_of(design, node) for node in range(len(nodes.names)))
    yield "", f"wire length {decimal(sum(lengths))}"
    yield "", f"nets {len(lengths)}, pins {len(design.nets.node)}"
    yield COLOURS["cell"], f"cells {kinds['cell']}"
    yield COLOURS["pad"], f"pads {kinds['pad']}"
    for kind, told in (("open-pad", "pads that allow overlap"), ("block", "fixed blocks"),
                       ("open-block", "blocks that allow overlap")):
        if kinds[kind]:
            yield COLOURS[kind], f"{told} {kinds[kind]}"
    yield COLOURS["row"], f"rows {len({row.y for row in design.rows.subrows})}"
    if chosen:
        on_nets = sum(1 for node in nodes_of(design, chosen) if not nodes.fixed[node])
        yield COLOURS["chosen"], f"cells on the nets below {on_nets}"
    for number, net in enumerate(chosen[:LISTED]):
        yield NET_COLOURS[number % len(NET_COLOURS)], f"net {design.nets.names[net] or net}: {decimal(lengths[net])}"
    if len(chosen) > LISTED:
        yield "", f"and {len(chosen) - LISTED} nets more"


def legend(design: Design, placement: Placement, view: View, lengths: List[int], chosen: List[int]) -> Iterator[str]:
    left = 2 * MARGIN + view.width
    yield f'<g class="legend" font-family="sans-serif" font-size="13" fill="#1c2430">'
    yield f'<text x="{left:.1f}" y="{MARGIN + 16}" font-size="18" font-weight="bold">{shown(design.name, 26)}</text>'
    yield f'<text x="{left:.1f}" y="{MARGIN + 36}" fill="#5a6675">{shown(os.path.basename(placement.path))}</text>'
    for number, (colour, text) in enumerate(legend_lines(design, placement, lengths, chosen)):
        y = MARGIN + 64 + 20 * number
        if colour:
            yield (f'<rect x="{left:.1f}" y="{y - 10}" width="12" height="12" fill="{colour}" stroke="#5a6675" '
                   f'stroke-width="0.5"/>')
        yield f'<text x="{left + (20 if colour else 0):.1f}" y="{y}">{shown(text)}</text>'
    yield "</g>"


def picture(design: Design, placement: Placement, chosen: List[int], lengths: List[int]) -> Iterator[str]:
    nodes = range(len(design.nodes.names))
    view = View(around([design.rows.core, *(design.rectangle(node, placement) for node in nodes)]))
    lines = list(legend(design, placement, view, lengths, chosen))
    width = 3 * MARGIN + view.width + LEGEND
    height = max(2 * MARGIN + view.height, MARGIN + 84 + 20 * sum(1 for line in lines if line.startswith("<text")))
    yield '<?xml version="1.0" encoding="UTF-8"?>'
    size = f'width="{width:.0f}" height="{height:.0f}" viewBox="0 0 {width:.0f} {height:.0f}"'
    yield f'<svg xmlns="http://www.w3.org/2000/svg" {size}>'
    yield f"<title>{shown(design.name)}, placed: wire length {decimal(sum(lengths))}</title>"
    yield '<rect width="100%" height="100%" fill="#ffffff"/>'
    yield from drawing(design, placement, view, chosen)
    yield from lines
    yield "</svg>"


def choose_nets(design: Design, lengths: List[int], longest: int, named: List[str]) -> List[int]:
    """The numbers of the nets to be drawn: the named ones, and then the longest of the others."""
    chosen = []
    for name in named:
        found = [net for net, its in enumerate(design.nets.names) if its == name]
        if not found:
            raise Fault(f"there is no net {name}")
        chosen += [net for net in found if net not in chosen]
    order = sorted(range(len(lengths)), key=lambda net: (-lengths[net], net))
    return chosen + [net for net in order if net not in chosen][:longest]


def count(word: str) -> int:
    if int(word) < 0:
        raise ValueError
    return int(word)


def options() -> argparse.Namespace:
    parser = argparse.ArgumentParser(description=__doc__, formatter_class=argparse.RawDescriptionHelpFormatter)
    parser.add_argument("aux", metavar="DESIGN.aux", help="the design")
    parser.add_argument("placed", metavar="PLACED.pl", nargs="?", help="the placement (default: the design's own .pl)")
    parser.add_argument("out", metavar="OUT.svg", help="the picture")
    parser.add_argument("--longest", type=count, default=0, metavar="N", help="draw the N longest nets, too")
    parser.add_argument("--net", action="append", default=[], metavar="NAME",
                        help="draw the net of this name, too; may be given again")
    # Options may stand between the other words.
    return parser.parse_intermixed_args()


def main() -> int:
    asked = options()
    design = read_design(asked.aux)
    placement = without_loss(read_placement(asked.placed, design), design) if asked.placed else design.given
    lengths = list(net_lengths(design, placement))
    chosen = choose_nets(design, lengths, asked.longest, asked.net)
    write_whole(asked.out, picture(design, placement, chosen, lengths))
    return 0


if __name__ == "__main__":
    run(main)

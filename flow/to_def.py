#!/usr/bin/env python3
"""Writes a placed Bookshelf design as a DEF 5.8 file, with DIEAREA, ROW, COMPONENTS, PINS and NETS.

Cells are PLACED and fixed blocks FIXED, each at its lower left corner and turned as in the placement; a pad, which is a fixed
node outside the core or without area, is a PIN at its middle. The die is the smallest rectangle around the core and all nodes.

Where DESIGN.names.json stands beside the design, as netlist.py writes it, macros, ports, pins and the site have the names of
the library, and the nets that were left out of the design are there, too; pins at constants aren't. Otherwise names are made
up: a macro by its size, as cell_4.8x20, a pin by its offset from the middle, as at_-1.6_2, and the site is that of --site. A
coordinate that isn't a whole number of database units is refused, and the line says which --units would do.

Status 0: OUT.def is written. Status 2: one line says what is wrong with an input.
"""
from __future__ import annotations

import argparse
import json
import os
from dataclasses import dataclass, field
from typing import Any, Dict, Iterator, List, Tuple

from bookshelf import (MICRO, Design, Fault, Placement, decimal, micro, read_design, read_placement, read_text, run, without_loss,
                       write_whole)

# What DEF 5.8 knows as database units in a micron.
UNITS = 100, 200, 400, 800, 1000, 2000, 4000, 8000, 10000, 20000


@dataclass
class Names:
    """What Bookshelf has no place for. Without a file of names, each is made up."""

    site: str
    layer: Tuple[str, int] = ("", 0)
    macros: Dict[str, str] = field(default_factory=dict)
    ports: Dict[str, Tuple[str, str]] = field(default_factory=dict)
    pins: List[List[str]] = field(default_factory=list)
    others: List[Tuple[str, List[Tuple[str, str]]]] = field(default_factory=list)


def read_names(path: str, design: Design, site: str) -> Names:
    """The names of the file, which has to be of this design."""
    if not os.path.exists(path):
        return Names(site or "site")
    try:
        names = names_of(json.loads(read_text(path)), site)
        on_nets = [node for _, pins in names.others for node, _ in pins]
        fits = [len(pins) for pins in names.pins] == [len(design.nets.pins(net)) for net in range(len(design.nets.names))]
    except (json.JSONDecodeError, RecursionError) as error:
        raise Fault(f"{path}: broken JSON: {error}") from None
    except (KeyError, TypeError, AttributeError, ValueError):
        raise Fault(f"{path}: not a file of names as netlist.py writes it") from None
    unknown = [name for name in (*names.macros, *names.ports, *on_nets) if name not in design.nodes.number]
    if unknown or not fits:
        raise Fault(f"{path}: it belongs to another design" + (f", which has a node {unknown[0]}" if unknown else ""))
    return names


def names_of(its: Dict[str, Any], site: str) -> Names:
    """The names in a file's JSON; an error of Python where it has another form."""
    layer, width = its["layer"] or ("", "0")
    return Names(
        site or word(its["site"]),
        (word(layer), micro(width)),
        {node: word(macro) for node, macro in its["macros"].items()},
        {pad: (word(name), word(direction).upper()) for pad, (name, direction) in its["ports"].items()},
        [[word(pin) for pin in pins] for pins in its["pins"]],
        [(word(net), [(word(node), word(pin)) for node, pin in pins]) for net, pins in its["others"]])


def word(value: Any) -> str:
    if not isinstance(value, str):
        raise TypeError
    return value


class Writer:
    """The lines of the DEF file, each part in turn."""

    def __init__(self, design: Design, placement: Placement, names: Names, units: int):
        self.design, self.placement, self.names, self.units = design, placement, names, units
        fixed = design.nodes.fixed
        self.is_pin = [is_fixed and not design.is_block(node) for node, is_fixed in enumerate(fixed)]

    def place(self, what: str, *millionths: int) -> str:
        """Coordinates in database units."""
        found = []
        for coordinate in millionths:
            whole, rest = divmod(coordinate * self.units, MICRO)
            if rest:
                fitting = [str(units) for units in UNITS if coordinate * units % MICRO == 0]
                raise Fault(f"{what}: {decimal(coordinate)} isn't a whole number of database units of {self.units} a unit; "
                            + (f"--units {fitting[0]} has it" if fitting else "no --units has it"))
            found.append(str(whole))
        return " ".join(found)

    def name(self, text: str) -> str:
        """A name that can stand in a DEF file."""
        if text in (";", "(", ")", "+", "-", "*") or text[:1] in ("#", '"') or text.split() != [text]:
            raise Fault(f"the name {text!r} can't stand in a DEF file")
        return text

    def macro(self, node: int) -> str:
        nodes = self.design.nodes
        size = f"cell_{decimal(nodes.width[node])}x{decimal(nodes.height[node])}"
        return self.name(self.names.macros.get(nodes.names[node], size))

    def port(self, node: int) -> Tuple[str, str]:
        """A pad's name and direction, as the design is seen from outside."""
        name = self.design.nodes.names[node]
        return self.names.ports.get(name, (name, "INOUT"))

    def head(self) -> Iterator[str]:
        core, design = self.design.rows.core, self.design
        areas = [core, *(design.rectangle(node, self.placement) for node in range(len(design.nodes.names)))]
        low = self.place("DIEAREA", min(area.left for area in areas), min(area.lower for area in areas))
        high = self.place("DIEAREA", max(area.right for area in areas), max(area.upper for area in areas))
        yield from ["VERSION 5.8 ;", 'DIVIDERCHAR "/" ;', 'BUSBITCHARS "[]" ;', f"DESIGN {self.name(design.name)} ;",
                    f"UNITS DISTANCE MICRONS {self.units} ;", f"DIEAREA ( {low} ) ( {high} ) ;"]

    def rows(self) -> Iterator[str]:
        rows = self.design.rows
        for number, row in enumerate(rows.subrows):
            if row.sites:
                place, step = self.place(f"row {number}", row.x, row.y), self.place("the pitch", rows.pitch)
                yield f"ROW row_{number} {self.name(self.names.site)} {place} N DO {row.sites} BY 1 STEP {step} 0 ;"

    def components(self) -> Iterator[str]:
        nodes, placement = self.design.nodes, self.placement
        those = [node for node, is_pin in enumerate(self.is_pin) if not is_pin]
        yield f"COMPONENTS {len(those)} ;"
        for node in those:
            name = self.name(nodes.names[node])
            place = self.place(f"node {name}", placement.x[node], placement.y[node])
            status = "FIXED" if nodes.fixed[node] else "PLACED"
            yield f"- {name} {self.macro(node)} + {status} ( {place} ) {placement.turned[node]} ;"
        yield "END COMPONENTS"

    def pins(self) -> Iterator[str]:
        nodes, placement, nets = self.design.nodes, self.placement, self.design.nets
        net_of = {nets.node[pin]: self.net_name(net) for net in range(len(nets.names)) for pin in nets.pins(net)}
        net_of.update((nodes.number[node], self.name(net)) for net, pins in self.names.others for node, _ in pins)
        those = [node for node, is_pin in enumerate(self.is_pin) if is_pin]
        shape = self.shape()
        yield f"PINS {len(those)} ;"
        for node in those:
            name, direction = self.port(node)
            middle = placement.x[node] + nodes.width[node] // 2, placement.y[node] + nodes.height[node] // 2
            place = self.place(f"pad {name}", *middle)
            net = net_of.get(node) or self.name(name)
            yield (f"- {self.name(name)} + NET {net} + DIRECTION {direction} + USE SIGNAL{shape} + FIXED ( {place} ) "
                   f"{placement.turned[node]} ;")
        yield "END PINS"

    def shape(self) -> str:
        """A pin's shape: a square as wide as a wire of the layer, if one is known."""
        layer, width = self.names.layer
        if not layer:
            return ""
        low, high = self.place("LAYER", -width // 2, -width // 2), self.place("LAYER", width // 2, width // 2)
        return f" + LAYER {self.name(layer)} ( {low} ) ( {high} )"

    def net_name(self, net: int) -> str:
        return self.name(self.design.nets.names[net] or f"net_{net}")

    def net_pins(self, net: int) -> Iterator[Tuple[int, str]]:
        """The node and the name of each pin."""
        nets = self.design.nets
        for number, pin in enumerate(nets.pins(net)):
            made_up = f"at_{decimal(nets.x[pin])}_{decimal(nets.y[pin])}"
            yield nets.node[pin], self.names.pins[net][number] if self.names.pins else made_up

    def nets(self) -> Iterator[str]:
        """The design's nets, those that were left out of it, and one for each port that is on none."""
        nodes = self.design.nodes
        nets = [(self.net_name(net), list(self.net_pins(net))) for net in range(len(self.design.nets.names))]
        nets += [(net, [(nodes.number[node], pin) for node, pin in pins]) for net, pins in self.names.others]
        joined = {node for _, pins in nets for node, _ in pins}
        nets += [(self.port(node)[0], [(node, "")]) for node, is_pin in enumerate(self.is_pin) if is_pin and node not in joined]
        yield f"NETS {len(nets)} ;"
        for name, pins in nets:
            yield f"- {self.name(name)}"
            for node, pin in pins:
                yield f"  ( PIN {self.port(node)[0]} )" if self.is_pin[node] else f"  ( {nodes.names[node]} {self.name(pin)} )"
            yield "  + USE SIGNAL ;"
        yield "END NETS"

    def lines(self) -> Iterator[str]:
        for part in (self.head, self.rows, self.components, self.pins, self.nets):
            yield from part()
        yield "END DESIGN"


def options() -> argparse.Namespace:
    parser = argparse.ArgumentParser(description=__doc__, formatter_class=argparse.RawDescriptionHelpFormatter)
    parser.add_argument("aux", metavar="DESIGN.aux", help="the design")
    parser.add_argument("placed", metavar="PLACED.pl", help="the placement")
    parser.add_argument("out", metavar="OUT.def", help="the DEF file")
    parser.add_argument("--units", type=int, choices=UNITS, default=1000, metavar="U",
                        help="database units in a micron, which is a Bookshelf unit: 100 to 20000 as DEF has them (default 1000)")
    parser.add_argument("--site", default="", help="the rows' site (default: that of the names, or `site`)")
    return parser.parse_args()


def main() -> int:
    asked = options()
    design = read_design(asked.aux)
    placement = without_loss(read_placement(asked.placed, design), design)
    beside = os.path.join(os.path.dirname(asked.aux), f"{design.name}.names.json")
    writer = Writer(design, placement, read_names(beside, design, asked.site), asked.units)
    write_whole(asked.out, writer.lines())
    return 0


if __name__ == "__main__":
    run(main)

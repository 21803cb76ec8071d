#!/usr/bin/env python3
"""Makes a Bookshelf design of a netlist in JSON, as yosys' write_json has it, and of the cells' sizes in a LEF file.

The netlist has to be flat and mapped to the cells of the LEF file. A Bookshelf unit is a micron. Each cell is a movable node of
its MACRO's SIZE. A pin stands in the middle of the smallest rectangle around the RECTs (and POLYGONs) of its PORTs. Each bit of
a port is a pad without size on the edge of the core: the pads go evenly around it, clockwise from its lower left corner, in the
order of the ports, or stand as a file says (--pads). Rows of equal length lie one on another, and have room for the cells at
the asked utilization.

Pins at a constant are left out, and so are nets of fewer than two pins; how many is printed. DIR gets NAME.aux, .nodes, .nets,
.pl and .scl, and NAME.names.json with what Bookshelf has no place for, which to_def.py reads: macros, ports, the names of pins,
and the nets that were left out. Status 0: all are written. Status 2: one line says what is wrong with an input.
"""
from __future__ import annotations

import argparse
import json
import math
import os
import re
from dataclasses import dataclass, field
from fractions import Fraction
from typing import Any, Dict, List, Optional, Tuple

from bookshelf import Fault, decimal, numbers, read_text, run, write_whole
from lef import Library, Macro, read_library

PADS_HELP = """a line of the file of pads is `left NAME ..`, `right NAME ..`, `bottom NAME ..` or `top NAME ..`, whose pads are
spread evenly over that side, from below or from the left, or `at X Y NAME`; `#` begins a comment. NAME is a port or one of its
bits, as `data[3]`. Each bit has to have a place."""
# A pad stands at a whole number of these, so that its place comes out even in a DEF of 1000 units a micron.
GRID = 1000
DIRECTIONS = {"INPUT": "I", "OUTPUT": "O"}


@dataclass
class Pad:
    """A bit of a port: its name, its direction as the netlist has it, its net's bit, and the name of its node."""

    port: str
    name: str
    direction: str
    bit: Any
    node: str = ""
    x: int = 0
    y: int = 0


@dataclass
class Net:
    name: str
    pins: List[Tuple[str, str, int, int, str]] = field(default_factory=list)

    def add(self, node: str, direction: str, x: int, y: int, pin: str) -> None:
        self.pins.append((node, direction, x, y, pin))


@dataclass
class Rows:
    count: int
    sites: int
    pitch: int
    height: int

    @property
    def right(self) -> int:
        return self.sites * self.pitch

    @property
    def top(self) -> int:
        return self.count * self.height


# The netlist


def read_netlist(path: str) -> Dict[str, Any]:
    try:
        with open(path, encoding="utf-8") as file:
            netlist = json.load(file)
        if not isinstance(netlist["modules"], dict):
            raise TypeError
    except (ValueError, RecursionError) as error:
        raise Fault(f"{path}: broken JSON: {error}") from None
    except (KeyError, TypeError):
        raise Fault(f"{path}: no netlist: it has no modules") from None
    return netlist["modules"]


def choose_top(path: str, modules: Dict[str, Any], asked: Optional[str]) -> str:
    """The module that is asked for, the one that is marked as the top, or the only one."""
    if asked is not None:
        if asked not in modules:
            raise Fault(f"{path}: there is no module {asked}")
        return asked
    marked = [name for name, module in modules.items() if re.fullmatch("0*1", str(module.get("attributes", {}).get("top", "")))]
    for names in (marked, list(modules)):
        if len(names) == 1:
            return names[0]
    raise Fault(f"{path}: which of its {len(modules)} modules is the top isn't marked; --top NAME says it")


def net_names(module: Dict[str, Any]) -> Dict[int, List[str]]:
    """All names of each net bit: those of ports, then those that the Verilog text has, then those that yosys gave."""
    nets = module.get("netnames", {})
    visible = {name: net for name, net in nets.items() if not net.get("hide_name")}
    hidden = {name: net for name, net in nets.items() if net.get("hide_name")}
    names: Dict[int, List[str]] = {}
    for group in (module.get("ports", {}), visible, hidden):
        for name, net in group.items():
            for bit, bit_name in zip(net["bits"], bit_names(name, net)):
                names.setdefault(bit, []).append(bit_name)
    return names


def bit_names(name: str, net: Dict[str, Any]) -> List[str]:
    """The names of a bus' bits, from its least to its greatest place in `bits`."""
    count, offset = len(net["bits"]), net.get("offset", 0)
    if count == 1 and offset == 0:
        return [name]
    numbers = range(offset, offset + count)
    return [f"{name}[{number}]" for number in (reversed(numbers) if net.get("upto") else numbers)]


def is_constant(bit: Any) -> bool:
    return isinstance(bit, str)


def read_pads(module: Dict[str, Any]) -> List[Pad]:
    pads = []
    for port, its in module.get("ports", {}).items():
        for name, bit in zip(bit_names(port, its), its["bits"]):
            pads.append(Pad(port, name, its["direction"], bit))
    return pads


def macro_of(library: Library, modules: Dict[str, Any], name: str, kind: str) -> Macro:
    """The macro of a cell's type."""
    if kind in library.macros:
        macro = library.macros[kind]
        if macro.height > library.site.height:
            raise Fault(f"cell {name}: MACRO {kind} is higher than a row")
        return macro
    if kind in modules:
        raise Fault(f"cell {name} is a module, {kind}: the netlist has to be flat (yosys: flatten)")
    if kind.startswith("$"):
        raise Fault(f"cell {name} is a {kind}, which isn't mapped to the library (yosys: abc -liberty, dfflibmap)")
    raise Fault(f"cell {name}: {library.path} has no MACRO {kind}")


class Builder:
    """The nodes and nets of a design, as they are gathered from a module."""

    def __init__(self, library: Library, modules: Dict[str, Any], top: str, left_out: List[str]):
        self.library, self.modules, self.module = library, modules, modules[top]
        self.names = net_names(self.module)
        self.left_out = self.bits_to_leave(left_out)
        self.macros: Dict[str, Macro] = {}
        self.nets: Dict[int, Net] = {}
        self.constants = 0
        self.pads = read_pads(self.module)

    def bits_to_leave(self, left_out: List[str]) -> set:
        """The bits of the nets of these names; the name of a bus stands for all its bits."""
        bits = {name: bit for bit, names in self.names.items() for name in names}
        buses = {**self.module.get("netnames", {}), **self.module.get("ports", {})}
        found = set()
        for name in left_out:
            if name not in bits and name not in buses:
                raise Fault(f"there is no net {name} to be left out")
            found.update([bits[name]] if name in bits else buses[name]["bits"])
        return {bit for bit in found if not is_constant(bit)}

    def net(self, bit: int) -> Net:
        if not isinstance(bit, int):
            raise TypeError(f"a bit is {bit}")
        if bit not in self.nets:
            self.nets[bit] = Net(self.names.get(bit, [f"net_{bit}"])[0])
        return self.nets[bit]

    def placed_nets(self) -> Tuple[List[Net], List[Net]]:
        """The nets of the design, and the others: those left out by name, and those of fewer than two pins."""
        placed = {bit: net for bit, net in self.nets.items() if bit not in self.left_out and len(net.pins) > 1}
        return list(placed.values()), [net for bit, net in self.nets.items() if bit not in placed]

    def add_pads(self) -> None:
        taken = set(self.module.get("cells", {}))
        for pad in self.pads:
            pad.node = pad.name
            while pad.node in taken:
                pad.node += ".pad"
            taken.add(pad.node)
            if not is_constant(pad.bit):
                # What the netlist calls an input drives a net from outside.
                drives = {"input": "O", "output": "I"}.get(pad.direction, "B")
                self.net(pad.bit).add(pad.node, drives, 0, 0, "")

    def add_cells(self) -> None:
        for name, cell in self.module.get("cells", {}).items():
            if cell["type"] == "$scopeinfo":
                continue
            macro = macro_of(self.library, self.modules, name, cell["type"])
            self.macros[name] = macro
            for pin, bits in cell["connections"].items():
                for number, bit in enumerate(bits):
                    self.add_pin(name, macro, pin if len(bits) == 1 else f"{pin}[{number}]", bit)

    def add_pin(self, cell: str, macro: Macro, pin: str, bit: Any) -> None:
        if pin not in macro.pins:
            raise Fault(f"cell {cell}: MACRO {macro.name} has no PIN {pin}")
        direction, place = macro.pins[pin]
        if place is None:
            raise Fault(f"cell {cell}: PIN {pin} of MACRO {macro.name} has no place: no PORT with a RECT")
        if is_constant(bit):
            self.constants += 1
        else:
            x, y = place[0] - macro.width // 2, place[1] - macro.height // 2
            self.net(bit).add(cell, DIRECTIONS.get(direction, "B"), x, y, pin)


# The core


def make_rows(library: Library, macros: List[Macro], utilization: Fraction, aspect: Fraction) -> Rows:
    """Rows for the cells: as many sites as they take by the utilization, and a core of this height by its width."""
    pitch, height = library.site.width, library.site.height
    taken = [-(-macro.width // pitch) for macro in macros]
    sites = math.ceil(max(1, sum(taken)) / utilization)
    # The height in rows is the root of sites * pitch * aspect / height, to the nearest.
    count = max(1, (1 + math.isqrt(int(4 * sites * pitch * aspect / height))) // 2)
    return Rows(count, max(-(-sites // count), max(taken, default=1)), pitch, height)


def place_around(pads: List[Pad], rows: Rows) -> None:
    """Spreads the pads evenly around the core, clockwise from its lower left corner."""
    right, top = rows.right, rows.top
    for number, pad in enumerate(pads):
        way = (2 * number + 1) * (right + top) // len(pads)
        if way < top:
            pad.x, pad.y = 0, on_grid(way)
        elif way < top + right:
            pad.x, pad.y = on_grid(way - top), top
        elif way < 2 * top + right:
            pad.x, pad.y = right, top - on_grid(way - top - right)
        else:
            pad.x, pad.y = right - on_grid(way - 2 * top - right), 0


def on_grid(place: int) -> int:
    return place // GRID * GRID


def place_by_file(path: str, pads: List[Pad], rows: Rows) -> None:
    """Puts the pads where the file says."""
    by_name: Dict[str, List[Pad]] = {}
    for pad in pads:
        for name in {pad.port, pad.name}:
            by_name.setdefault(name, []).append(pad)
    sides: Dict[str, List[Pad]] = {"left": [], "right": [], "bottom": [], "top": []}
    placed = set()
    lines = [line.partition("#")[0].split() for line in read_text(path).split("\n")]
    for number, (key, *words) in [(number, line) for number, line in enumerate(lines, 1) if line]:
        named = words[2:] if key == "at" else words
        for name in named:
            if name not in by_name or not placed.isdisjoint(pad.name for pad in by_name[name]):
                raise Fault(f"{path}:{number}: {name} {'has two places' if name in by_name else 'is no port'}")
            placed.update(pad.name for pad in by_name[name])
        these = [pad for name in named for pad in by_name[name]]
        if key in sides:
            sides[key] += these
        elif key != "at" or len(these) != 1:
            raise Fault(f"{path}:{number}: neither a side with its ports nor `at X Y` with one bit")
        else:
            these[0].x, these[0].y = numbers(path, number, *words[:2])
    for pad in pads:
        if pad.name not in placed:
            raise Fault(f"{path}: port {pad.name} has no place")
    for side, these in sides.items():
        place_on_side(side, these, rows)


def place_on_side(side: str, pads: List[Pad], rows: Rows) -> None:
    along = rows.right if side in ("bottom", "top") else rows.top
    for number, pad in enumerate(pads):
        place = on_grid((2 * number + 1) * along // (2 * len(pads)))
        pad.x = place if side in ("bottom", "top") else rows.right if side == "right" else 0
        pad.y = place if side in ("left", "right") else rows.top if side == "top" else 0


# The design's files


def checked(name: str) -> str:
    """A name that can stand in a Bookshelf file."""
    if not name or re.search(r"[ \t\r\n]|^[#:]|:$", name):
        raise Fault(f"the name {name!r} can't stand in a Bookshelf file: it is empty or has a blank, or a # or : at an end")
    return name


def texts_of(name: str, builder: Builder, rows: Rows) -> Dict[str, List[str]]:
    """The lines of each file of the design, by its ending."""
    cells, pads = builder.macros, builder.pads
    nets, others = builder.placed_nets()
    pins = [f"NetDegree : {len(net.pins)} {checked(net.name)}\n" + "\n".join(
        f"\t{node} {direction} : {decimal(x)} {decimal(y)}" for node, direction, x, y, _ in net.pins) for net in nets]
    scl = []
    for row in range(rows.count):
        scl += ["CoreRow Horizontal", f"  Coordinate : {decimal(row * rows.height)}", f"  Height : {decimal(rows.height)}",
                f"  Sitewidth : {decimal(rows.pitch)}", f"  Sitespacing : {decimal(rows.pitch)}", "  Siteorient : 1",
                "  Sitesymmetry : 1", f"  SubrowOrigin : 0 NumSites : {rows.sites}", "End"]
    return {
        "nodes": ["UCLA nodes 1.0", f"NumNodes : {len(cells) + len(pads)}", f"NumTerminals : {len(pads)}"]
                 + [f"\t{checked(cell)} {decimal(macro.width)} {decimal(macro.height)}" for cell, macro in cells.items()]
                 + [f"\t{checked(pad.node)} 0 0 terminal" for pad in pads],
        "nets": ["UCLA nets 1.0", f"NumNets : {len(nets)}", f"NumPins : {sum(len(net.pins) for net in nets)}", *pins],
        "pl": ["UCLA pl 1.0"] + [f"{cell} 0 0 : N" for cell in cells]
              + [f"{pad.node} {decimal(pad.x)} {decimal(pad.y)} : N /FIXED" for pad in pads],
        "scl": ["UCLA scl 1.0", f"NumRows : {rows.count}", *scl],
        "names.json": [names_text(builder, nets, others)],
        # The last one: a design is there when it is.
        "aux": [f"RowBasedPlacement : {name}.nodes {name}.nets {name}.pl {name}.scl"],
    }


def names_text(builder: Builder, nets: List[Net], others: List[Net]) -> str:
    """What to_def.py needs beside the design. Of each of its nets there are the names of the pins; a pad's pin has none."""
    site, layer = builder.library.site, builder.library.layer
    return json.dumps({
        "site": site.name,
        "layer": [layer.name, decimal(layer.width)] if layer else None,
        "macros": {cell: macro.name for cell, macro in builder.macros.items()},
        "ports": {pad.node: [pad.name, pad.direction] for pad in builder.pads},
        "pins": [[pin for *_, pin in net.pins] for net in nets],
        "others": [[net.name, [[node, pin] for node, *_, pin in net.pins]] for net in others],
    }, separators=(",", ":"))


def write_design(folder: str, name: str, texts: Dict[str, List[str]]) -> None:
    os.makedirs(folder, exist_ok=True)
    for ending, lines in texts.items():
        write_whole(os.path.join(folder, f"{name}.{ending}"), lines)


def ratio(word: str) -> Fraction:
    if "/" in word or Fraction(word) <= 0:
        raise ValueError
    return Fraction(word)


def utilization(word: str) -> Fraction:
    if ratio(word) > 1:
        raise ValueError
    return Fraction(word)


def options() -> argparse.Namespace:
    parser = argparse.ArgumentParser(description=__doc__, epilog=PADS_HELP,
                                     formatter_class=argparse.RawDescriptionHelpFormatter)
    parser.add_argument("cells", metavar="CELLS", help="the LEF file: SITE, and for each cell MACRO with SIZE and PINs")
    parser.add_argument("netlist", metavar="NETLIST.json", help="the netlist")
    parser.add_argument("-o", dest="folder", metavar="DIR", required=True,
                        help="the folder for the design; it is made where it isn't there")
    parser.add_argument("--name",
                        help="the design's name (default: the top module's, other signs than letters, digits and ._- as _)")
    parser.add_argument("--top", metavar="MODULE",
                        help="the module (default: the one that is marked as the top, or the only one)")
    parser.add_argument("--utilization", type=utilization, default=Fraction(7, 10), metavar="U",
                        help="which part of the sites the cells take, above 0 and at most 1 (default 0.7)")
    parser.add_argument("--aspect", type=ratio, default=Fraction(1), metavar="A",
                        help="the core's height by its width (default 1)")
    parser.add_argument("--pads", metavar="FILE", help="where the pads stand (see below)")
    parser.add_argument("--leave-out", action="append", default=[], metavar="NET",
                        help="leave out this net, as that of a clock or a reset; may be given again")
    parser.add_argument("--site", help="which SITE the rows are of (default: that of the first MACRO that the netlist uses)")
    return parser.parse_args()


def main() -> int:
    asked = options()
    modules = read_netlist(asked.netlist)
    try:
        top = choose_top(asked.netlist, modules, asked.top)
        used = [cell["type"] for cell in modules[top].get("cells", {}).values()]
        builder = Builder(read_library(asked.cells, asked.site, used), modules, top, asked.leave_out)
        builder.add_pads()
        builder.add_cells()
    except (KeyError, TypeError, AttributeError) as error:
        raise Fault(f"{asked.netlist}: it isn't as yosys writes it ({type(error).__name__}: {error})") from None
    rows = make_rows(builder.library, list(builder.macros.values()), asked.utilization, asked.aspect)
    if asked.pads:
        place_by_file(asked.pads, builder.pads, rows)
    else:
        place_around(builder.pads, rows)
    name = asked.name or re.sub(r"[^\w.-]", "_", top, flags=re.ASCII)
    write_design(asked.folder, name, texts_of(checked(name), builder, rows))
    tell(builder, rows)
    return 0


def tell(builder: Builder, rows: Rows) -> None:
    nets, others = builder.placed_nets()
    print(f"cells {len(builder.macros)} pads {len(builder.pads)} nets {len(nets)} pins {sum(len(net.pins) for net in nets)}")
    print(f"rows {rows.count} of {rows.sites} sites of {decimal(rows.pitch)} by {decimal(rows.height)}")
    by_name = [builder.nets[bit] for bit in builder.left_out if bit in builder.nets]
    print(f"left out: {len(by_name)} nets by name with {sum(len(net.pins) for net in by_name)} pins, "
          f"{len(others) - len(by_name)} nets of fewer than two pins, {builder.constants} pins at constants")


if __name__ == "__main__":
    run(main)

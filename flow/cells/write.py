#!/usr/bin/env python3
"""Writes the small cell library of the flow: write.py [FOLDER], by default the folder of this script.

cells.lib is the Liberty file, with which yosys maps a netlist, and cells.lef the LEF file, which has the sizes. Both come from
one table, so that they have the same cells and pins. The cells are made up: they have functions and areas, and neither times
nor transistors.
"""
import os
import sys

SITE, HEIGHT = 0.4, 4.0
# Of each cell: its sites; its inputs, each with the site and the tenth of the height where it stands; its output in the same
# way; and the output's function, or what the flip-flop does.
CELLS = {
    "INV": (3, {"A": (0, 4)}, {"Y": (2, 5)}, "A'"),
    "BUF": (4, {"A": (0, 4)}, {"Y": (3, 5)}, "A"),
    "NAND2": (4, {"A": (0, 4), "B": (2, 6)}, {"Y": (3, 5)}, "(A B)'"),
    "NAND3": (5, {"A": (0, 4), "B": (2, 5), "C": (3, 6)}, {"Y": (4, 4)}, "(A B C)'"),
    "NOR2": (4, {"A": (0, 6), "B": (2, 4)}, {"Y": (3, 5)}, "(A + B)'"),
    "NOR3": (5, {"A": (0, 6), "B": (2, 5), "C": (3, 4)}, {"Y": (4, 6)}, "(A + B + C)'"),
    "XOR2": (8, {"A": (0, 4), "B": (5, 6)}, {"Y": (7, 5)}, "(A ^ B)"),
    "XNOR2": (8, {"A": (0, 6), "B": (5, 4)}, {"Y": (7, 5)}, "(A ^ B)'"),
    "AOI21": (5, {"A": (0, 4), "B": (1, 6), "C": (3, 4)}, {"Y": (4, 5)}, "((A B) + C)'"),
    "OAI21": (5, {"A": (0, 6), "B": (1, 4), "C": (3, 6)}, {"Y": (4, 5)}, "((A + B) C)'"),
    "MUX2": (9, {"A": (1, 4), "B": (3, 6), "S": (5, 4)}, {"Y": (8, 5)}, "((A S') + (B S))"),
    "DFF": (16, {"C": (0, 6), "D": (2, 4)}, {"Q": (15, 5)}, {}),
    "DFFR": (18, {"C": (0, 6), "D": (2, 4), "R": (9, 3)}, {"Q": (17, 5)}, {"clear": "R'"}),
}


def number(value):
    return f"{value:.6f}".rstrip("0").rstrip(".")


def liberty_cell(name, sites, inputs, output, does):
    yield f"  cell({name}) {{"
    yield f"    area : {number(sites * SITE * HEIGHT)};"
    if isinstance(does, dict):
        states = {"clocked_on": "C", "next_state": "D", **does}
        yield "    ff(IQ, IQN) {"
        yield from (f'      {key} : "{value}";' for key, value in states.items())
        yield "    }"
    for pin in inputs:
        clock = " clock : true;" if isinstance(does, dict) and pin == "C" else ""
        yield f"    pin({pin}) {{ direction : input;{clock} }}"
    for pin in output:
        yield f'    pin({pin}) {{ direction : output; function : "{"IQ" if isinstance(does, dict) else does}"; }}'
    yield "  }"


def lef_pin(name, direction, use, rectangle):
    words = " ".join(number(value) for value in rectangle)
    return [f"  PIN {name}", f"    DIRECTION {direction} ;", f"    USE {use} ;", "    PORT", "      LAYER metal1 ;",
            f"        RECT {words} ;", "    END", f"  END {name}"]


def lef_cell(name, sites, inputs, output):
    width = sites * SITE
    yield from [f"MACRO {name}", "  CLASS CORE ;", "  ORIGIN 0 0 ;", f"  SIZE {number(width)} BY {number(HEIGHT)} ;",
                "  SYMMETRY X Y ;", "  SITE core ;"]
    for pins, direction in ((inputs, "INPUT"), (output, "OUTPUT")):
        for pin, (site, tenth) in pins.items():
            x, y = (site + 0.5) * SITE, tenth * HEIGHT / 10
            use = "CLOCK" if "D" in inputs and pin == "C" else "SIGNAL"
            yield from lef_pin(pin, direction, use, (x - 0.1, y - 0.1, x + 0.1, y + 0.1))
    yield from lef_pin("VDD", "INOUT", "POWER", (0, HEIGHT - 0.2, width, HEIGHT + 0.2))
    yield from lef_pin("VSS", "INOUT", "GROUND", (0, -0.2, width, 0.2))
    yield from [f"END {name}", ""]


def layer(name, direction):
    return [f"LAYER {name}", "  TYPE ROUTING ;", f"  DIRECTION {direction} ;", "  PITCH 0.4 ;", "  WIDTH 0.2 ;",
            "  SPACING 0.2 ;", f"END {name}", ""]


def liberty():
    yield "/* The cells of the flow, as flow/cells/write.py writes them. */"
    yield "library(cells) {"
    for name, (sites, inputs, output, does) in CELLS.items():
        yield from liberty_cell(name, sites, inputs, output, does)
    yield "}"


def lef():
    yield "# The cells of the flow, as flow/cells/write.py writes them."
    yield from ["VERSION 5.8 ;", 'BUSBITCHARS "[]" ;', 'DIVIDERCHAR "/" ;', ""]
    yield from ["UNITS", "  DATABASE MICRONS 1000 ;", "END UNITS", ""]
    yield from layer("metal1", "HORIZONTAL") + layer("metal2", "VERTICAL")
    yield from ["SITE core", "  CLASS CORE ;", f"  SIZE {number(SITE)} BY {number(HEIGHT)} ;", "END core", ""]
    for name, (sites, inputs, output, _) in CELLS.items():
        yield from lef_cell(name, sites, inputs, output)
    yield "END LIBRARY"


def main():
    folder = sys.argv[1] if len(sys.argv) > 1 else os.path.dirname(os.path.abspath(__file__))
    for name, lines in (("cells.lib", liberty()), ("cells.lef", lef())):
        with open(os.path.join(folder, name), "w", encoding="ascii") as file:
            file.writelines(line + "\n" for line in lines)


if __name__ == "__main__":
    main()

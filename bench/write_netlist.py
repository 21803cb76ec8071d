#!/usr/bin/env python3
"""Writes a netlist in JSON, as yosys has it, of the cells of flow/cells: write_netlist.py FILE CELLS.

Two thirds are NAND2 and one third AOI21, so that three cells have ten pins. The first input of a cell is driven by the cell
before, and each other one by a cell at most 200 places before, drawn anew, or by one of 64 input ports for the first ones. The
last 64 cells drive output ports.
"""
import json
import random
import sys

path, count = sys.argv[1], int(sys.argv[2])
draw = random.Random(count)
PORTS = 64
inputs = list(range(2, 2 + PORTS))
first = 2 + PORTS
cells = {}
for number in range(count):
    kind, pins = ("AOI21", "ABC") if number % 3 == 2 else ("NAND2", "AB")
    drivers = [first + number - 1] + [draw.randint(max(2, first + number - 200), first + number - 1) for _ in pins[1:]]
    connections = {pin: [driver] for pin, driver in zip(pins, drivers)}
    connections["Y"] = [first + number]
    cells[f"g{number}"] = {"hide_name": 0, "type": kind, "parameters": {}, "attributes": {}, "connections": connections}
outputs = list(range(first + count - PORTS, first + count))
module = {
    "attributes": {"top": "1"},
    "ports": {"in": {"direction": "input", "bits": inputs}, "out": {"direction": "output", "bits": outputs}},
    "cells": cells,
    "netnames": {f"n{number}": {"hide_name": 0, "bits": [first + number]} for number in range(count)},
}
with open(path, "w", encoding="ascii") as file:
    json.dump({"creator": "bench/write_netlist.py", "modules": {"large": module}}, file, indent=1)

"""What the tests share: a hand-made library and netlist, with their coordinates worked out beside, and how scripts are run."""
import importlib
import io
import json
import os
import subprocess
import sys
import tempfile
import unittest
from contextlib import redirect_stderr, redirect_stdout
from unittest import mock

FLOW = os.path.dirname(os.path.dirname(os.path.abspath(__file__)))
TOP = os.path.dirname(FLOW)
sys.dont_write_bytecode = True
sys.path.insert(0, FLOW)

import bookshelf  # noqa: E402  the path comes first

# A row is 10 high, a site 2 wide. The offsets from the middle: GATE, 4 wide: A at (0.5, 2) -> (-1.5, -3), Y in the middle of
# (2, 4) to (4, 9) -> (1, 1.5). FLOP, 7 wide, its origin at (1, 0): D at (0.5, 0.5) -> (-3, -4.5), CLK at (3.5, 2.5) -> (0, -2.5),
# Q at (6, 6) -> (2.5, 1).
LEF = """VERSION 5.8 ; # a comment ; with a semicolon
UNITS DATABASE MICRONS 1000 ; END UNITS
LAYER poly TYPE MASTERSLICE ; END poly
LAYER metal1
  TYPE ROUTING ; DIRECTION HORIZONTAL ; WIDTH 0.5 ;
END metal1
VIA cut DEFAULT LAYER metal1 ; RECT -1 -1 1 1 ; END cut
SITE io CLASS PAD ; SIZE 50 BY 60 ; END io
SITE unit CLASS CORE ; SIZE 2 BY 10 ; END unit
MACRO GATE
  CLASS CORE ; SIZE 4 BY 10 ; SITE unit ;
  PIN A DIRECTION INPUT ; PORT LAYER metal1 ; RECT 0 1 1 3 ; END END A
  PIN Y DIRECTION OUTPUT ; PORT LAYER metal1 ; RECT 2 4 3 6 ; RECT MASK 1 3 4 4 9 ; END END Y
  OBS LAYER metal1 ; RECT 0 0 4 10 ; END
END GATE
MACRO FLOP
  CLASS CORE ; ORIGIN 1 0 ; SIZE 7 BY 10 ; SITE unit ;
  PIN D DIRECTION INPUT ; PORT LAYER metal1 ; RECT -1 0 0 1 ; END END D
  PIN CLK DIRECTION INPUT ; USE CLOCK ; PORT LAYER metal1 ; RECT 2 2 3 3 ; END END CLK
  PIN Q DIRECTION OUTPUT TRISTATE ; PORT LAYER metal1 ; POLYGON 4 4 6 4 6 8 4 8 ; END END Q
END FLOP
MACRO BARE SIZE 4 BY 10 ; PIN A DIRECTION INPUT ; END A END BARE
MACRO TALL SIZE 4 BY 20 ; PIN A DIRECTION INPUT ; PORT LAYER metal1 ; RECT 0 0 1 1 ; END END A END TALL
END LIBRARY
"""


def cell(kind, **pins):
    return {"type": kind, "connections": {pin: [bit] for pin, bit in pins.items()}}


def netlist():
    """Nets `in` (2), `clk` (3), `mid` (4), `out[0]` (5), `out[1]` (6); pin A of g3 is at a constant, and its Y leads nowhere."""
    return {"modules": {
        "cells_of_another": {"attributes": {}, "ports": {}, "cells": {}},
        "chip": {
            "attributes": {"top": "00000000000000000000000000000001"},
            "ports": {"in": {"direction": "input", "bits": [2]}, "clk": {"direction": "input", "bits": [3]},
                      "out": {"direction": "output", "bits": [5, 6]}},
            "cells": {"g1": cell("GATE", A=2, Y=4), "f1": cell("FLOP", D=4, CLK=3, Q=5), "g2": cell("GATE", A=5, Y=6),
                      "g3": cell("GATE", A="0", Y=7)},
            "netnames": {"$hidden": {"hide_name": 1, "bits": [4]}, "mid": {"hide_name": 0, "bits": [4]}},
        }}}


# Legal in two rows of ten sites. Pins: in (0, 10), g1.A (0.5, 2): 8.5. clk (10, 20), f1.CLK (7.5, 2.5): 20. out[0] (20, 10),
# f1.Q (10, 6), g2.A (12.5, 2): 18. out[1] (10, 0), g2.Y (15, 6.5): 11.5. g1.Y (3, 6.5), f1.D (4.5, 0.5): 7.5. Together 65.5.
PLACED = """UCLA pl 1.0
g1 0 0 : N
f1 4 0 : N
g2 12 0 : N
g3 0 10 : N
in 0 10 : N /FIXED
clk 10 20 : N /FIXED
out[0] 20 10 : N /FIXED
out[1] 10 0 : N /FIXED
"""
WIRE = 65500000


class Case(unittest.TestCase):
    """A test with a folder of its own, which has a blank in its name."""

    def setUp(self):
        folder = tempfile.TemporaryDirectory(prefix="flow of proud ")
        self.addCleanup(folder.cleanup)
        self.folder = folder.name

    def path(self, *names):
        return os.path.join(self.folder, *names)

    def write(self, name, text):
        with open(self.path(name), "w", encoding="utf-8") as file:
            file.write(text)
        return self.path(name)

    def read(self, *names):
        with open(self.path(*names), encoding="utf-8") as file:
            return file.read()

    def script(self, name, *words, status=0):
        """Runs a script of the flow as its command would, but in this process, which is quicker.

        It is to end with this status. What it printed and complained of is answered. An exception comes out.
        """
        script = importlib.import_module(name[:-len(".py")])
        printed, complained, before = io.StringIO(), io.StringIO(), os.getcwd()
        os.chdir(self.folder)
        try:
            with mock.patch("sys.argv", [name, *words]), redirect_stdout(printed), redirect_stderr(complained):
                with self.assertRaises(SystemExit) as end:
                    bookshelf.run(script.main)
        finally:
            os.chdir(before)
        self.assertEqual(end.exception.code, status, f"{name} {words}: {printed.getvalue()}{complained.getvalue()}")
        return printed.getvalue(), complained.getvalue()

    def command(self, *words, status=0, **environment):
        """Runs a command in a process of its own, which is to end with this status; what it printed and complained of."""
        ran = subprocess.run(words, stdout=subprocess.PIPE, stderr=subprocess.PIPE, cwd=self.folder,
                             env={**os.environ, "PYTHONDONTWRITEBYTECODE": "1", **environment})
        printed, complained = ran.stdout.decode(), ran.stderr.decode()
        self.assertEqual(ran.returncode, status, f"{words}: {printed}{complained}")
        return printed, complained

    def refused(self, name, *words):
        """Runs a script that is to refuse its input: status 2, nothing printed, and one line of complaint, which it answers."""
        printed, complained = self.script(name, *words, status=2)
        self.assertEqual(printed, "")
        self.assertEqual(complained.count("\n"), 1, complained)
        self.assertNotIn("Traceback", complained)
        return complained

    def chip(self, modules=None, *words, utilization="0.5"):
        """The hand-made design in the folder `chip`, and its placement; the path of the design."""
        self.write("cells.lef", LEF)
        self.write("chip.json", json.dumps(modules or netlist()))
        self.write("placed.pl", PLACED)
        self.told, _ = self.script("netlist.py", "cells.lef", "chip.json", "-o", "chip", "--utilization", utilization, *words)
        return self.path("chip", "chip.aux")


def proud():
    """The program, or None where it can't be run here."""
    for path in (os.environ.get("PROUD"), os.path.join(TOP, "bin", "proud")):
        if path and os.access(path, os.X_OK):
            return path
    return None

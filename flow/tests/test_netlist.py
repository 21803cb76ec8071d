"""netlist.py on a hand-made LEF and JSON: every coordinate, the core, the pads, and what is refused."""
import json
import unittest

from support import LEF, Case, cell, netlist
from bookshelf import decimal, read_design


class Netlist(Case):
    def lines(self, ending):
        return [line.strip() for line in self.read("chip", "chip." + ending).split("\n") if line.strip()]

    def test_every_line_of_the_design(self):
        # Ten sites of cells at a half: twenty, 2 by 10, as high as wide: two rows of ten sites, 20 by 20.
        self.chip()
        self.assertEqual(self.lines("nodes")[1:], ["NumNodes : 8", "NumTerminals : 4", "g1 4 10", "f1 7 10", "g2 4 10", "g3 4 10",
                                                   "in 0 0 terminal", "clk 0 0 terminal", "out[0] 0 0 terminal",
                                                   "out[1] 0 0 terminal"])
        self.assertEqual(self.lines("nets")[1:], [
            "NumNets : 5", "NumPins : 11",
            "NetDegree : 2 in", "in O : 0 0", "g1 I : -1.5 -3",
            "NetDegree : 2 clk", "clk O : 0 0", "f1 I : 0 -2.5",
            "NetDegree : 3 out[0]", "out[0] I : 0 0", "f1 O : 2.5 1", "g2 I : -1.5 -3",
            "NetDegree : 2 out[1]", "out[1] I : 0 0", "g2 O : 1 1.5",
            "NetDegree : 2 mid", "g1 O : 1 1.5", "f1 I : -3 -4.5"])
        self.assertEqual(self.lines("pl")[5:], ["in 0 10 : N /FIXED", "clk 10 20 : N /FIXED", "out[0] 20 10 : N /FIXED",
                                                "out[1] 10 0 : N /FIXED"])
        self.assertEqual([line for line in self.lines("scl") if line[:5] in ("NumRo", "Coord", "Heigh", "Sites", "Subro")][:7], [
            "NumRows : 2", "Coordinate : 0", "Height : 10", "Sitespacing : 2", "Sitesymmetry : 1",
            "SubrowOrigin : 0 NumSites : 10", "Coordinate : 10"])
        self.assertEqual(self.told, "cells 4 pads 4 nets 5 pins 11\nrows 2 of 10 sites of 2 by 10\n"
                                    "left out: 0 nets by name with 0 pins, 1 nets of fewer than two pins, 1 pins at constants\n")

    def test_the_core_follows_utilization_and_aspect(self):
        # Sites of cells by U; rows: the root of sites * 2 / 10 * A, to the nearest; a row has room for the widest cell.
        for utilization, aspect, rows, sites in (("0.5", "1", 2, 10), ("1", "1", 1, 10), ("0.1", "1", 4, 25), ("0.5", "4", 4, 5),
                                                 ("1", "100", 14, 4), ("0.7", "1", 2, 8)):
            aux = self.chip(None, "--aspect", aspect, utilization=utilization)
            subrows = read_design(aux).rows.subrows
            self.assertEqual((len(subrows), subrows[0].sites), (rows, sites), (utilization, aspect))

    def test_nets_are_left_out_by_any_name(self):
        for name, left in (("clk", ["clk"]), ("$hidden", ["mid"]), ("out[1]", ["out[1]"]), ("out", ["out[0]", "out[1]"])):
            names = read_design(self.chip(None, "--leave-out", name)).nets.names
            self.assertEqual(names, [net for net in ("in", "clk", "out[0]", "out[1]", "mid") if net not in left])
        self.assertIn("left out: 2 nets by name with 5 pins", self.told)
        self.assertIn("no net mist", self.refused("netlist.py", "cells.lef", "chip.json", "-o", "chip", "--leave-out", "mist"))

    def test_buses_are_counted_from_their_offset_and_either_way(self):
        modules = netlist()
        modules["modules"]["chip"]["ports"]["out"].update(offset=3, upto=1)
        design = read_design(self.chip(modules))
        self.assertEqual(design.nodes.names[-2:], ["out[4]", "out[3]"])

    def test_a_pad_and_a_cell_of_one_name_are_two_nodes(self):
        modules = netlist()
        modules["modules"]["chip"]["cells"]["in"] = cell("GATE", A=2, Y=8)
        design = read_design(self.chip(modules))
        self.assertEqual(design.nodes.names[-4:], ["in.pad", "clk", "out[0]", "out[1]"])

    def places(self, aux):
        design = read_design(aux)
        return {name: (decimal(design.given.x[node]), decimal(design.given.y[node]))
                for node, name in enumerate(design.nodes.names) if design.nodes.fixed[node]}

    def test_pads_go_clockwise_from_the_lower_left_corner(self):
        # Eight pads around 80 units: the first 5 from the corner, the others 10 apart.
        modules = netlist()
        modules["modules"]["chip"]["ports"]["more"] = {"direction": "input", "bits": [20, 21, 22, 23]}
        self.assertEqual(list(self.places(self.chip(modules)).values()), [
            ("0", "5"), ("0", "15"), ("5", "20"), ("15", "20"), ("20", "15"), ("20", "5"), ("15", "0"), ("5", "0")])

    def test_pads_stand_where_their_file_says(self):
        self.write("pads", "# sides\nleft clk\ntop out # both\nat 7.25 -3 in\n")
        self.assertEqual(self.places(self.chip(None, "--pads", "pads")),
                         {"in": ("7.25", "-3"), "clk": ("0", "10"), "out[0]": ("5", "20"), "out[1]": ("15", "20")})
        self.write("pads", "bottom in out[0]\nright clk out[1]\n")
        self.assertEqual(self.places(self.chip(None, "--pads", "pads")),
                         {"in": ("5", "0"), "clk": ("20", "5"), "out[0]": ("15", "0"), "out[1]": ("20", "15")})

    def test_files_of_pads_that_are_wrong(self):
        self.chip()
        for text, told in (("left in clk out[0]\n", "pads: port out[1] has no place"),
                           ("left in\ntop in\n", "pads:2: in has two places"),
                           ("left it\n", "pads:1: it is no port"), ("middle in\n", "pads:1: neither a side"),
                           ("at 1 out\n", "pads:1: neither a side"), ("at 1 2 out\n", "pads:1: neither a side"),
                           ("at 1 y in\n", "pads:1: bad number y")):
            self.write("pads", text)
            self.assertIn(told, self.refused("netlist.py", "cells.lef", "chip.json", "-o", "chip", "--pads", "pads"))

    def test_the_top_is_marked_or_asked_for_or_alone(self):
        modules = netlist()
        modules["modules"]["chip"]["attributes"] = {}
        self.assertEqual(len(read_design(self.chip(modules, "--top", "chip")).nodes.names), 8)
        self.assertIn("--top NAME", self.refused("netlist.py", "cells.lef", "chip.json", "-o", "chip"))
        self.assertIn("no module cheap", self.refused("netlist.py", "cells.lef", "chip.json", "-o", "chip", "--top", "cheap"))
        del modules["modules"]["cells_of_another"]
        self.assertEqual(len(read_design(self.chip(modules, "--name", "chip")).nodes.names), 8)

    def test_netlists_that_are_wrong(self):
        self.chip()
        for change, told in (
                (cell("NAND9", A=2), "cell g1: cells.lef has no MACRO NAND9"),
                (cell("$_AND_", A=2), "cell g1 is a $_AND_, which isn't mapped"),
                (cell("cells_of_another", A=2), "cell g1 is a module, cells_of_another: the netlist has to be flat"),
                (cell("GATE", B=2), "cell g1: MACRO GATE has no PIN B"),
                (cell("BARE", A=2), "cell g1: PIN A of MACRO BARE has no place"),
                (cell("TALL", A=2), "cell g1: MACRO TALL is higher than a row"),
                ({"type": "GATE"}, "chip.json: it isn't as yosys writes it (KeyError: 'connections')"),
                (cell("GATE", A=None), "it isn't as yosys writes it (TypeError: a bit is None)"),
                (5, "it isn't as yosys writes it")):
            modules = netlist()
            modules["modules"]["chip"]["cells"]["g1"] = change
            self.write("chip.json", json.dumps(modules))
            self.assertIn(told, self.refused("netlist.py", "cells.lef", "chip.json", "-o", "new"))
        for text, told in (("{", "broken JSON"), ("[" * 100000, "broken JSON"), ("[]", "no modules"),
                           ('{"modules": 5}', "no modules")):
            self.write("chip.json", text)
            self.assertIn(told, self.refused("netlist.py", "cells.lef", "chip.json", "-o", "new"))
        modules = netlist()
        modules["modules"]["chip"]["cells"]["a name"] = cell("GATE", A=2, Y=9)
        self.write("chip.json", json.dumps(modules))
        self.assertIn("the name 'a name' can't stand", self.refused("netlist.py", "cells.lef", "chip.json", "-o", "new"))

    def test_without_a_site_in_the_macros_it_is_the_one_for_cells(self):
        self.chip()
        self.write("cells.lef", LEF.replace("BY 10 ; SITE unit ;", "BY 10 ;"))
        self.script("netlist.py", "cells.lef", "chip.json", "-o", "chip")
        self.assertEqual(read_design(self.path("chip", "chip.aux")).rows.pitch, 2000000)
        self.write("cells.lef", self.read("cells.lef").replace("CLASS PAD", "CLASS CORE"))
        self.assertIn("it has 2 SITEs for cells", self.refused("netlist.py", "cells.lef", "chip.json", "-o", "chip"))

    def test_libraries_that_are_wrong(self):
        self.chip()
        for old, new, told in (("SIZE 4 BY 10 ; SITE", "SITE", "MACRO GATE has no SIZE"),
                               ("SIZE 4 BY 10 ; SITE", "SIZE 4 10 ; SITE", "SIZE isn't W BY H"),
                               ("SIZE 2 BY 10 ; END unit", "END unit", "SITE unit has no SIZE"),
                               ("RECT 0 1 1 3", "RECT 0 1 1", "RECT has 3 numbers"),
                               ("RECT 0 1 1 3", "RECT 0 1 1 x", "MACRO GATE: PIN A: bad number x"),
                               ("END GATE", "END", "MACRO GATE isn't ended"),
                               ("END unit", "END other", "SITE unit isn't ended"),
                               ("END LIBRARY", "MACRO Z", "it ends in the middle")):
            self.assertIn(old, LEF)
            self.write("cells.lef", LEF.replace(old, new, 1))
            self.assertIn(told, self.refused("netlist.py", "cells.lef", "chip.json", "-o", "chip"))
        self.write("cells.lef", LEF)
        self.assertIn("there is no SITE row", self.refused("netlist.py", "cells.lef", "chip.json", "-o", "chip", "--site", "row"))


if __name__ == "__main__":
    unittest.main()

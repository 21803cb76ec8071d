"""to_def.py: the DEF read back, statement by statement."""
import os
import unittest

from support import PLACED, TOP, Case, netlist


def sections(text):
    """The statements outside of sections, and those of each section, as words; each section has as many as it says."""
    statements = [statement.split() for statement in text.replace("\n", " ").split(" ;")]
    outside, inside, name = [], {}, None
    for words in statements:
        if words[:1] == ["END"]:
            assert words[1] == (name or "DESIGN"), words
            if name is None:
                break
            assert len(inside[name]) == stated, name
            words, name = words[2:], None
            if words[:2] == ["END", "DESIGN"]:
                break
        if words and words[0] in ("COMPONENTS", "PINS", "NETS"):
            name, stated = words[0], int(words[1])
            inside[name] = []
        elif name is not None:
            assert words[0] == "-", words
            inside[name].append(words[1:])
        elif words:
            outside.append(words)
    return outside, inside


class Def(Case):
    def made(self, *words):
        self.script("to_def.py", *words[:2], "out.def", *words[2:])
        return sections(self.read("out.def"))

    def test_every_statement_of_the_hand_made_design(self):
        self.write("turned.pl", PLACED.replace("g3 0 10 : N", "g3 0 10 : FS"))
        outside, inside = self.made(self.chip(), "turned.pl")
        self.assertEqual(outside, [line.split() for line in (
            "VERSION 5.8", 'DIVIDERCHAR "/"', 'BUSBITCHARS "[]"', "DESIGN chip", "UNITS DISTANCE MICRONS 1000",
            "DIEAREA ( 0 0 ) ( 20000 20000 )",
            "ROW row_0 unit 0 0 N DO 10 BY 1 STEP 2000 0", "ROW row_1 unit 0 10000 N DO 10 BY 1 STEP 2000 0")])
        self.assertEqual(inside["COMPONENTS"], [line.split() for line in (
            "g1 GATE + PLACED ( 0 0 ) N", "f1 FLOP + PLACED ( 4000 0 ) N", "g2 GATE + PLACED ( 12000 0 ) N",
            "g3 GATE + PLACED ( 0 10000 ) FS")])
        shape = "+ LAYER metal1 ( -250 -250 ) ( 250 250 )"
        self.assertEqual(inside["PINS"], [line.split() for line in (
            f"in + NET in + DIRECTION INPUT + USE SIGNAL {shape} + FIXED ( 0 10000 ) N",
            f"clk + NET clk + DIRECTION INPUT + USE SIGNAL {shape} + FIXED ( 10000 20000 ) N",
            f"out[0] + NET out[0] + DIRECTION OUTPUT + USE SIGNAL {shape} + FIXED ( 20000 10000 ) N",
            f"out[1] + NET out[1] + DIRECTION OUTPUT + USE SIGNAL {shape} + FIXED ( 10000 0 ) N")])
        self.assertEqual(inside["NETS"], [line.split() for line in (
            "in ( PIN in ) ( g1 A ) + USE SIGNAL", "clk ( PIN clk ) ( f1 CLK ) + USE SIGNAL",
            "out[0] ( PIN out[0] ) ( f1 Q ) ( g2 A ) + USE SIGNAL", "out[1] ( PIN out[1] ) ( g2 Y ) + USE SIGNAL",
            "mid ( g1 Y ) ( f1 D ) + USE SIGNAL", "net_7 ( g3 Y ) + USE SIGNAL")])

    def test_nets_that_were_left_out_are_there(self):
        _, inside = self.made(self.chip(None, "--leave-out", "clk"), "placed.pl")
        self.assertIn("clk ( PIN clk ) ( f1 CLK ) + USE SIGNAL".split(), inside["NETS"])
        self.assertEqual(len(inside["NETS"]), 6)

    def test_two_ports_may_be_on_one_net(self):
        modules = netlist()
        modules["modules"]["chip"]["ports"]["clk_out"] = {"direction": "output", "bits": [3]}
        for left_out in ([], ["--leave-out", "clk"]):
            aux = self.chip(modules, "--pads", self.write("pads", "left in\nright out\ntop clk\nat 0 0 clk_out\n"), *left_out)
            _, inside = self.made(aux, self.path("chip", "chip.pl"))
            self.assertEqual([words[:4] for words in inside["PINS"] if words[0] == "clk_out"], [["clk_out", "+", "NET", "clk"]])
            self.assertIn("clk ( PIN clk ) ( PIN clk_out ) ( f1 CLK ) + USE SIGNAL".split(), inside["NETS"])

    def test_without_names_they_are_made_up(self):
        aux = self.chip()
        os.remove(self.path("chip", "chip.names.json"))
        outside, inside = self.made(aux, "placed.pl", "--site", "core")
        self.assertEqual(outside[-1][:3], ["ROW", "row_1", "core"])
        self.assertEqual([words[1] for words in inside["COMPONENTS"]], ["cell_4x10", "cell_7x10", "cell_4x10", "cell_4x10"])
        self.assertIn("mid ( g1 at_1_1.5 ) ( f1 at_-3_-4.5 ) + USE SIGNAL".split(), inside["NETS"])
        self.assertIn("in + NET in + DIRECTION INOUT + USE SIGNAL + FIXED ( 0 10000 ) N".split(), inside["PINS"])

    def test_every_design_is_written(self):
        for folder in sorted(os.listdir(os.path.join(TOP, "designs"))):
            files = os.path.join(TOP, "designs", folder)
            if os.path.isdir(files):
                aux = next(os.path.join(files, name) for name in os.listdir(files) if name.endswith(".aux"))
                outside, inside = self.made(aux, os.path.join(files, "expected.pl"))
                with open(os.path.join(files, "expected.pl"), encoding="utf-8") as file:
                    lines = [line.split() for line in file if line.strip()][1:]
                self.assertEqual(len(inside["COMPONENTS"]) + len(inside["PINS"]), len(lines), folder)
                places = {words[0]: words[words.index("(") + 1:words.index(")")] for words in inside["COMPONENTS"]}
                for name, x, y, *_ in lines:
                    self.assertIn(places.get(name), (None, [str(int(float(x) * 1000)), str(int(float(y) * 1000))]))
        self.assertIn("FIXED", {words[3] for words in self.made(*self.blocks())[1]["COMPONENTS"]})

    def test_a_block_that_allows_overlap_is_fixed_where_it_stands(self):
        aux = self.chip()
        self.write("chip/chip.pl", self.read("chip", "chip.pl") + "g3 6 10 : N /FIXED_NI\n")
        _, inside = self.made(aux, self.path("chip", "chip.pl"))
        self.assertIn("g3 GATE + FIXED ( 6000 10000 ) N".split(), inside["COMPONENTS"])

    def blocks(self):
        folder = os.path.join(TOP, "designs", "macro_block")
        return os.path.join(folder, "macro_block.aux"), os.path.join(folder, "expected.pl")

    def test_what_does_not_come_out_in_database_units(self):
        aux = self.chip()
        self.write("fine.pl", PLACED.replace("g1 0 0", "g1 0.0005 0"))
        self.assertIn("node g1: 0.0005 isn't a whole number of database units of 1000 a unit; --units 2000 has it",
                      self.refused("to_def.py", aux, "fine.pl", "out.def"))
        _, inside = self.made(aux, "fine.pl", "--units", "2000")
        self.assertEqual(inside["COMPONENTS"][0][4:8], ["(", "1", "0", ")"])
        self.write("finest.pl", PLACED.replace("g1 0 0", "g1 0.000001 0"))
        self.assertIn("no --units has it", self.refused("to_def.py", aux, "finest.pl", "out.def"))

    def test_names_of_another_design_are_refused(self):
        aux = self.chip()
        names = self.read("chip", "chip.names.json")
        for text, told in ((names.replace('"g1"', '"g7"'), "another design, which has a node g7"),
                           (names.replace('"pins":[', '"pins":[["A"],'), "another design"),
                           ("{", "broken JSON"), ("[]", "not a file of names"), ("{}", "not a file of names")):
            self.write("chip/chip.names.json", text)
            self.assertIn(told, self.refused("to_def.py", aux, "placed.pl", "out.def"))

    def test_a_lost_cell_is_named(self):
        self.write("part.pl", PLACED.replace("f1 4 0 : N\n", ""))
        self.assertIn("part.pl: cell f1 has no place", self.refused("to_def.py", self.chip(), "part.pl", "out.def"))


if __name__ == "__main__":
    unittest.main()

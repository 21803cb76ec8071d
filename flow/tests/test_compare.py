"""compare.py: its table, its own check of legality beside bench/legal.py, displacement and density, and proud's report."""
import json
import os
import random
import shutil
import subprocess
import sys
import unittest

from support import PLACED, TOP, Case, proud
from bookshelf import decimal, faults, micro, read_design, read_placement

sys.path.insert(0, os.path.join(TOP, "bench"))
import legal  # noqa: E402  the path comes first


class Compare(Case):
    def compared(self, aux, *paths, status=0):
        printed, _ = self.script("compare.py", aux, *paths, "--json", status=status)
        return json.loads(printed)["placements"]

    def faults(self, text):
        """The lines of the faults of a placement of the hand-made design."""
        aux = self.chip()
        self.write("other.pl", text)
        (found,) = self.compared(aux, "other.pl", status=1)
        return [fault["line"] for fault in found["faults"]]

    def test_the_table(self):
        aux = self.chip()
        # g2 two sites to the right: out[0] grows by 4 - 2.5 = 1.5 units on x (from 20 to 16.5), and out[1] by 4.
        self.write("other.pl", PLACED.replace("g2 12 0", "g2 16 0"))
        printed, _ = self.script("compare.py", aux, "placed.pl", "other.pl", "placed.pl")
        self.assertEqual(printed.split("\n"), [
            "placement  wire   ratio  legal  mean  max  density",
            "placed.pl  65.5  1.0000  legal     0    0    0.475",
            "other.pl   69.5  1.0611  legal     1    4    0.475",
            "placed.pl  65.5  1.0000  legal     0    0    0.475", ""])

    def test_an_overlap_is_named(self):
        self.assertEqual(self.faults(PLACED.replace("g2 12 0", "g2 10 0")), ["f1 and g2 overlap"])
        # f1 is 7 wide and takes four sites of 2, so the last of them ends at 12.
        self.assertEqual(self.faults(PLACED.replace("f1 4 0", "f1 6 0")), ["f1 and g2 overlap"])

    def test_a_cell_off_its_site_is_named(self):
        self.assertEqual(self.faults(PLACED.replace("g2 12 0", "g2 13 0")), ["g2 is off its site"])
        self.assertEqual(self.faults(PLACED.replace("g3 0 10", "g3 0.000001 10")), ["g3 is off its site"])

    def test_a_cell_outside_the_rows_is_named(self):
        for place in ("18 0", "-4 0", "16 10.5", "16 20"):
            self.assertEqual(self.faults(PLACED.replace("g2 12 0", "g2 " + place)), ["g2 is outside the rows"], place)

    def test_a_lost_cell_is_named(self):
        aux = self.chip()
        self.write("other.pl", PLACED.replace("g2 12 0 : N\n", ""))
        printed, _ = self.script("compare.py", aux, "placed.pl", "other.pl", status=1)
        lines = printed.split("\n")
        self.assertEqual(lines[2].split(), ["other.pl", "-", "-", "1", "fault", "0", "0", "0.375"])
        self.assertEqual(lines[3:5], ["other.pl: 1 lost", "  g2 is lost"])
        self.assertIsNone(self.compared(aux, "placed.pl", "other.pl", status=1)[1]["wire"])

    def test_what_is_fixed_stays_and_nothing_is_turned(self):
        self.assertEqual(self.faults(PLACED.replace("clk 10 20", "clk 12 20")), ["clk is fixed and was moved"])
        self.assertEqual(self.faults(PLACED.replace("g1 0 0 : N", "g1 0 0 : FN")), ["g1 is turned"])

    def test_all_faults_are_in_the_json_and_the_first_in_the_text(self):
        aux = self.chip()
        self.write("other.pl", "UCLA pl 1.0\n")
        printed, _ = self.script("compare.py", aux, "other.pl", "--faults", "2", status=1)
        self.assertEqual(printed.split("\n")[2:], ["other.pl: 4 lost", "  g1 is lost", "  f1 is lost",
                                                   "  and 2 more (--faults N tells so many)", ""])
        self.assertEqual(len(self.compared(aux, "other.pl", status=1)[0]["faults"]), 4)

    def test_displacement_is_of_cells_by_both_axes(self):
        aux = self.chip()
        self.write("other.pl", PLACED.replace("g3 0 10", "g3 6 10").replace("g2 12 0", "g2 14 10"))
        found = self.compared(aux, "placed.pl", "other.pl")[1]["displacement"]
        self.assertEqual(found, {"total": 18, "mean": 4.5, "max": 12, "cell": "g2"})

    def test_density_is_of_the_fullest_bin(self):
        aux = self.chip()
        printed, _ = self.script("compare.py", aux, "placed.pl", "--bin", "1", "--json")
        # Bins of 10 by 10: in the lower left one stand g1 (0 to 4) and f1 up to 10: all of it.
        self.assertEqual(json.loads(printed)["placements"][0]["density"], {"greatest": 1.0, "bin": [0, 0]})
        printed, _ = self.script("compare.py", aux, "placed.pl", "--bin", "2", "--json")
        self.assertEqual(json.loads(printed)["placements"][0]["density"], {"greatest": 190 / 400, "bin": [0, 0]})

    def chip_with_a_block(self, mark):
        """The hand-made design with a block from 7 to 9 in the row at 10."""
        aux = self.chip()
        for ending, line in (("nodes", f"\tblock 2 10 {mark}"), ("pl", "block 7 10 : N /FIXED")):
            text = self.read("chip", "chip." + ending).replace("NumNodes : 8", "NumNodes : 9").rstrip("\n")
            self.write("chip/chip." + ending, f"{text}\n{line}\n")
        return aux

    def test_cells_may_stand_over_a_block_that_allows_overlap(self):
        aux = self.chip_with_a_block("terminal_NI")
        self.write("over.pl", PLACED.replace("g3 0 10", "g3 6 10") + "block 7 10 : N /FIXED_NI\n")
        (found,) = self.compared(aux, "over.pl", "--bin", "2")
        # Its sites are free, so all 400 of the bin's area are.
        self.assertEqual((found["legal"], found["density"]["greatest"]), (True, 190 / 400))
        self.write("moved.pl", PLACED + "block 8 10 : N /FIXED_NI\n")
        (found,) = self.compared(aux, "moved.pl", status=1)
        self.assertEqual([fault["line"] for fault in found["faults"]], ["block is fixed and was moved"])

    def test_density_goes_by_free_sites(self):
        # The block takes the sites from 6 to 10: 5 sites of 2 less 2 are free in its row's left half.
        aux = self.chip_with_a_block("terminal")
        self.write("more.pl", PLACED + "block 7 10 : N /FIXED\n")
        printed, _ = self.script("compare.py", aux, "more.pl", "--bin", "2", "--json")
        self.assertEqual(json.loads(printed)["placements"][0]["density"]["greatest"], 190 / 360)
        self.write("over.pl", PLACED.replace("g3 0 10", "g3 6 10") + "block 7 10 : N /FIXED\n")
        printed, _ = self.script("compare.py", aux, "over.pl", "--json", status=1)
        self.assertEqual([fault["line"] for fault in json.loads(printed)["placements"][0]["faults"]], ["g3 and block overlap"])

    def test_a_heap_of_cells_is_told_quickly(self):
        cells = 10000
        self.write("d.aux", "RowBasedPlacement : d.nodes d.nets d.pl d.scl\n")
        self.write("d.nodes", f"UCLA nodes 1.0\nNumNodes : {cells}\n" + "".join(f"c{i} 1 1\n" for i in range(cells)))
        self.write("d.nets", "UCLA nets 1.0\nNumNets : 0\nNumPins : 0\n")
        self.write("d.pl", "UCLA pl 1.0\n" + "".join(f"c{i} 0 0\n" for i in range(cells)))
        self.write("d.scl", "UCLA scl 1.0\nNumRows : 1\nCoreRow Horizontal\nCoordinate : 0\nHeight : 1\nSitewidth : 1\n"
                            "SubrowOrigin : 0 NumSites : 9\nEnd\n")
        (found,) = self.compared("d.aux", "d.pl", status=1)
        self.assertEqual(len(found["faults"]), cells - 1)
        self.assertEqual(found["density"], {"greatest": cells / 5, "bin": [0, 0]})


class Beside(Case):
    """Beside the gate's own check of legality, and the program's report."""

    def folders(self):
        for folder in sorted(os.listdir(os.path.join(TOP, "designs"))):
            files = os.path.join(TOP, "designs", folder)
            if os.path.isdir(files):
                copy = shutil.copytree(files, self.path("copy of " + folder))
                yield next(os.path.join(copy, name) for name in os.listdir(copy) if name.endswith(".aux"))

    def opened(self):
        """A design in which some pads, and a block over the sites of a row, allow overlap, with its placement."""
        copy = shutil.copytree(os.path.join(TOP, "designs", "macro_block"), self.path("opened"))
        for name, word, mark in (("macro_block.nodes", "pad_q", "terminal"), ("macro_block.pl", "buf", "/FIXED"),
                                 ("expected.pl", "pad_q", "/FIXED"), ("expected.pl", "buf", "/FIXED")):
            lines = self.read("opened", name).split("\n")
            lines = [line.replace(mark, mark + "_NI") if line.strip().startswith(word) else line for line in lines]
            self.write("opened/" + name, "\n".join(lines))
        return os.path.join(copy, "macro_block.aux")

    def test_the_same_is_legal_as_in_bench(self):
        # Placements of the designs with some cells moved: for each that is told here something is told there, and the reverse.
        draw = random.Random(20)
        legals = 0
        for aux in (*self.folders(), self.opened()):
            design = read_design(aux)
            expected = os.path.join(os.path.dirname(aux), "expected.pl")
            with open(expected, encoding="utf-8") as file:
                lines = file.read().rstrip("\n").split("\n")
            for _ in range(40):
                moved = list(lines)
                for _ in range(draw.choice((0, 1, 1, 2))):
                    node = draw.randrange(len(design.nodes.names))
                    name, x, y, *rest = moved[node + 1].split()
                    x = decimal(micro(x) + draw.choice((0, -2, -1, 1, 2, 5)) * design.rows.pitch // draw.choice((1, 1, 1, 2)))
                    y = decimal(micro(y) + draw.choice((0, 0, -1, 1)) * design.rows.height)
                    moved[node + 1] = " ".join([name, x, y, *rest])
                path = self.write("moved.pl", "\n".join(moved) + "\n")
                its = [fault.line for fault in faults(design, read_placement(path, design))]
                beside = legal.faults(aux, path)
                self.assertEqual(not its, not beside, (its, beside, moved))
                legals += not its
                self.assertLessEqual(pairs(its), pairs(beside))
        self.assertGreater(legals, 20)

    def test_a_cell_over_a_block_that_allows_overlap_is_legal_in_both(self):
        aux = self.opened()
        design, text = read_design(aux), self.read("opened", "expected.pl")
        for mark, told in (("/FIXED_NI", 0), ("/FIXED", 1)):
            path = self.write("over.pl", text.replace("mux1 51 66", "mux1 57 66").replace("FS /FIXED_NI", "FS " + mark))
            self.assertEqual(faults(design, read_placement(path, design)), [])
            # The gate's own also wants the mark itself.
            self.assertEqual(len(legal.faults(aux, path)), told)

    def test_wire_length_is_that_of_the_report(self):
        program = proud()
        if program is None:
            self.skipTest("there is no program")
        for aux in self.folders():
            ran = subprocess.run([program, aux], stdout=subprocess.PIPE)
            if ran.returncode == 126 or ran.returncode < 0:
                self.skipTest("the program doesn't run on this machine")
            self.assertEqual(ran.returncode, 0, aux)
            printed, _ = self.script("compare.py", aux, aux[:-len(".aux")] + ".proud.pl", "--json")
            wire = json.loads(printed)["placements"][0]["wire"]
            self.assertEqual(wire, sum_of_rectangles(aux, aux[:-len(".aux")] + ".proud.pl"))
            report = dict(line.split(" ", 1) for line in ran.stdout.decode().splitlines())
            # The report has had this line since the program knows --out.
            if "wire" in report:
                self.assertEqual(micro(report["wire"]), round(wire * 1000000), aux)


def pairs(lines):
    """The pairs of names that overlap by these lines."""
    return {frozenset(line[:-len(" overlap")].split(" and ")) for line in lines if line.endswith(" overlap")}


def sum_of_rectangles(aux, placement):
    """The wire length once more, straight from the words of the files, whose sizes and offsets are multiples of a half here."""
    def all_lines(path):
        with open(path, encoding="utf-8") as file:
            return [line.replace(":", " ").split() for line in file if line.strip() and not line.lstrip().startswith("#")]

    def lines(path):
        return all_lines(path)[1:]

    files = {name.rsplit(".", 1)[1]: os.path.join(os.path.dirname(aux), name) for name in all_lines(aux)[0][1:]}
    size = {words[0]: (float(words[1]), float(words[2])) for words in lines(files["nodes"]) if not words[0].startswith("Num")}
    middle = {name: (float(x) + size[name][0] / 2, float(y) + size[name][1] / 2) for name, x, y, *_ in lines(placement)}
    nets = []
    for words in lines(files["nets"]):
        if words[0] == "NetDegree":
            nets.append(([], []))
        elif not words[0].startswith("Num"):
            for axis in (0, 1):
                nets[-1][axis].append(middle[words[0]][axis] + (float(words[2 + axis]) if len(words) > 2 else 0))
    return sum(max(axis) - min(axis) for net in nets for axis in net if axis)


if __name__ == "__main__":
    unittest.main()

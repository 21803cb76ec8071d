"""The flow as a whole: place.sh from the examples, what it says is missing, installing, and how the scripts are written."""
import ast
import glob
import os
import re
import shutil
import stat
import sys
import unittest

from support import FLOW, TOP, Case, proud
from bookshelf import read_design

SCRIPTS = "netlist.py", "draw.py", "to_def.py", "compare.py"
LEFT_OUT = {"uart": ["--leave-out", "clk", "--leave-out", "reset_n"], "cpu": ["--leave-out", "clk", "--leave-out", "reset"]}
ENDINGS = "aux", "nodes", "nets", "pl", "scl", "names.json", "proud.pl", "report", "svg", "def"


def needs_proud(test):
    return unittest.skipIf(proud() is None, "there is no program")(test)


class Place(Case):
    def place(self, *words, status=0, **environment):
        return self.command(os.path.join(FLOW, "place.sh"), *words, status=status, PROUD=proud() or "", **environment)

    def example(self, name):
        return shutil.copy(os.path.join(FLOW, "examples", name), self.path("a copy of " + name))

    @needs_proud
    def test_the_examples_from_their_netlists(self):
        for top, left_out in LEFT_OUT.items():
            # One cut, and one round of each level, are enough here.
            options = ["--levels", "1", "--passes", "1", *left_out]
            printed, _ = self.place(self.example(top + ".json"), top, f"out of {top}/", *options)
            self.assertEqual(sorted(os.listdir(self.path("out of " + top))), sorted(f"{top}.{ending}" for ending in ENDINGS))
            self.assertEqual(printed.split("\n")[1].split()[-4:], ["legal", "0", "0", printed.split()[-1]])
            self.script("compare.py", f"out of {top}/{top}.aux", f"out of {top}/{top}.proud.pl")
        self.assertEqual(self.folders_beside(), [])

    @needs_proud
    def test_clock_and_reset_may_stay(self):
        # Each of the two nets has more than 16 nodes, and so a star point, which isn't placed.
        self.place(self.example("uart.json"), "uart", "out", "--levels", "1")
        nets = read_design(self.path("out", "uart.aux")).nets
        for name in ("clk", "reset_n"):
            net = nets.names.index(name)
            self.assertGreater(len({nets.node[pin] for pin in nets.pins(net)}), 16, name)
        self.script("compare.py", "out/uart.aux", "out/uart.proud.pl")

    def folders_beside(self):
        return glob.glob(self.path("*.part*"))

    @needs_proud
    def test_a_folder_that_is_there_keeps_its_other_files(self):
        os.mkdir(self.path("out"))
        self.write("out/mine", "mine")
        self.write("out/uart.def", "old")
        self.place(self.example("uart.json"), "uart", "out", "--seats", "1", "--levels", "0", "--longest", "3", *LEFT_OUT["uart"])
        self.assertEqual(self.read("out", "mine"), "mine")
        self.assertTrue(self.read("out", "uart.def").startswith("VERSION 5.8 ;"))
        self.assertIn("levels 0 ", self.read("out", "uart.report"))

    @needs_proud
    def test_levels_and_passes_reach_the_program(self):
        wires = set()
        for passes in ("1", "3"):
            self.place(self.example("uart.json"), "uart", "out", "--levels", "2", "--passes", passes, *LEFT_OUT["uart"])
            wires.add(self.read("out", "uart.report").split("wire ")[1])
        self.assertEqual(len(wires), 2)

    @needs_proud
    def test_what_fails_leaves_all_as_it_was(self):
        self.write("bad.json", "{")
        os.mkdir(self.path("out"))
        self.write("out/uart.def", "old")
        uart = self.example("uart.json")
        for words, told in ((["bad.json", "uart", "out"], "broken JSON"), ([uart, "cpu", "out"], "no module cpu"),
                            ([uart, "uart", "out", "--levels", "13"], "usage: proud"),
                            ([uart, "uart", "out", "--passes", "9"], "usage: proud"),
                            ([uart, "uart", "out", "--seats", "1", "--seats", "1"], "usage: proud"),
                            ([uart, "uart", "out/uart.def"], "isn't a folder"),
                            ([uart, "uart", "out", "--leave-out", "mist"], "no net mist"),
                            (["none.json", "uart", "out"], "there is no file none.json"),
                            ([uart, "u art", "out"], "the name of a module"), ([uart, "uart"], "usage: place.sh"),
                            ([uart, "uart", "out", "--cells", "none.lef"], "there is no file none.lef"),
                            (["--cells"], "needs a word"), (["--mist"], "unknown option")):
            status = 1 if told == "usage: proud" else 2
            printed, complained = self.place(*words, status=status)
            self.assertEqual(printed, "")
            self.assertIn(told, complained)
        self.assertEqual(os.listdir(self.path("out")), ["uart.def"])
        self.assertEqual(self.folders_beside(), [])

    def test_each_missing_program_is_named(self):
        os.mkdir(self.path("bin"))
        place, uart = os.path.join(FLOW, "place.sh"), os.path.join(FLOW, "examples", "uart.json")
        for name in ("bash", "basename", "dirname", "readlink"):
            os.symlink(shutil.which(name), self.path("bin", name))
        _, complained = self.command(place, uart, "uart", "out", status=70, PATH=self.path("bin"))
        self.assertIn("python3 isn't on the PATH", complained)
        os.symlink(sys.executable, self.path("bin", "python3"))
        _, complained = self.command(place, "uart.v", "uart", "out", status=70, PATH=self.path("bin"))
        self.assertIn("yosys isn't on the PATH", complained)
        _, complained = self.command(place, uart, "uart", "out", status=70, PATH=self.path("bin"), PROUD=self.path("no proud"))
        self.assertIn("no program " + self.path("no proud"), complained)

    @needs_proud
    @unittest.skipIf(shutil.which("yosys") is None, "there is no yosys")
    def test_the_examples_from_verilog(self):
        self.place(self.example("uart.v"), "uart", "out", *LEFT_OUT["uart"])
        self.assertEqual(sorted(os.listdir(self.path("out"))), sorted(f"uart.{ending}" for ending in (*ENDINGS, "json")))
        self.assertNotIn(self.folder, self.read("out", "uart.json"))
        # The examples' netlists are those of these designs: as many flip-flops, whichever yosys it is.
        for path in (self.path("out", "uart.json"), os.path.join(FLOW, "examples", "uart.json")):
            with open(path, encoding="utf-8") as file:
                self.assertEqual(len(re.findall('"type": "DFF', file.read())), 82, path)
        _, complained = self.place(self.example("uart.v"), "mist", "out2", status=2)
        self.assertIn("ERROR", complained)
        self.assertFalse(os.path.exists(self.path("out2")))


class Install(Case):
    @unittest.skipIf(shutil.which("make") is None, "there is no make")
    def test_what_is_installed_runs_and_goes_again(self):
        prefix = self.path("a prefix")
        os.makedirs(os.path.join(prefix, "bin"))
        self.write("a prefix/bin/other", "")
        self.command("make", "-s", "-C", TOP, "install", f"PREFIX={prefix}")
        installed = sorted(os.listdir(os.path.join(prefix, "bin")))
        self.assertEqual(installed, ["other", "proud", "proud-compare", "proud-draw", "proud-netlist", "proud-place",
                                     "proud-to-def"])
        for name in installed[1:]:
            self.assertTrue(os.stat(os.path.join(prefix, "bin", name)).st_mode & stat.S_IXOTH, name)
        self.assertTrue(os.path.isfile(os.path.join(prefix, "share", "man", "man1", "proud.1")))
        printed, _ = self.command(os.path.join(prefix, "bin", "proud-draw"), "--help")
        self.assertIn("OUT.svg", printed)
        if proud():
            example = os.path.join(prefix, "share", "proud", "flow", "examples", "uart.json")
            self.command(os.path.join(prefix, "bin", "proud-place"), example, "uart", "out", *LEFT_OUT["uart"])
            self.assertTrue(os.path.isfile(self.path("out", "uart.svg")))
        self.command("make", "-s", "-C", TOP, "uninstall", f"PREFIX={prefix}")
        left = [os.path.join(folder, name) for folder, folders, files in os.walk(prefix) for name in folders + files]
        self.assertEqual([os.path.relpath(path, prefix) for path in left], ["bin", "bin/other"])

    def test_the_man_page_has_all_options_and_statuses(self):
        with open(os.path.join(TOP, "man", "proud.1"), encoding="utf-8") as file:
            page = file.read()
        for option in ("levels", "passes", "seats", "out", "schedule", "grid"):
            self.assertIn(f"\\-\\-{option}", page)
        self.assertEqual(re.findall(r"^\.B (\d)$", page, re.M), ["0", "1", "2", "3", "4", "5"])


class Written(Case):
    """How the scripts are written."""

    def sources(self):
        return sorted(glob.glob(os.path.join(FLOW, "*.py")) + glob.glob(os.path.join(FLOW, "*", "*.py")))

    def test_each_script_tells_what_it_does(self):
        for name in SCRIPTS:
            printed, _ = self.command(sys.executable, os.path.join(FLOW, name), "--help")
            self.assertGreater(len(printed), 800, name)
            self.assertIn("Status 0:", printed)
        printed, _ = self.command(os.path.join(FLOW, "place.sh"), "--help")
        self.assertIn("--leave-out NET", printed)

    def test_a_fault_is_one_line_in_a_process_of_its_own(self):
        for name, words in (("netlist.py", ["none.lef", "none.json", "-o", "out"]), ("draw.py", ["none.aux", "out.svg"]),
                            ("to_def.py", ["none.aux", "none.pl", "out.def"]), ("compare.py", ["none.aux", "none.pl"])):
            printed, complained = self.command(sys.executable, os.path.join(FLOW, name), *words, status=2)
            self.assertEqual(printed, "")
            self.assertRegex(complained, rf"\A{name}: none\.\w+: No such file or directory\n\Z")

    def test_functions_and_files_are_short_and_for_python_3_8(self):
        for path in self.sources():
            with open(path, encoding="utf-8") as file:
                text = file.read()
            self.assertLessEqual(text.count("\n"), 800, path)
            self.assertLessEqual(max(map(len, text.split("\n"))), 130, path)
            for node in ast.walk(ast.parse(text, path, feature_version=(3, 8))):
                if isinstance(node, ast.FunctionDef):
                    self.assertLess(node.end_lineno - node.lineno, 41, f"{path}: {node.name}")

    def test_the_cells_are_what_their_script_writes(self):
        self.command(sys.executable, os.path.join(FLOW, "cells", "write.py"), self.folder)
        for name in ("cells.lib", "cells.lef"):
            with open(os.path.join(FLOW, "cells", name), encoding="ascii") as file:
                self.assertEqual(self.read(name), file.read(), name)

    @needs_proud
    def test_the_picture_of_the_documents_is_what_its_line_makes(self):
        with open(os.path.join(TOP, "docs", "FLOW.md"), encoding="utf-8") as file:
            lines = file.read().split("\n")
        begin = lines.index("## The picture in the README")
        commands = [line[4:] for line in lines[begin:begin + 12] if line.startswith("    ")]
        self.assertEqual(len(commands), 3)
        copy = shutil.copytree(TOP, self.path("copy"), ignore=shutil.ignore_patterns(".git", "crates", "out"))
        with open(os.path.join(copy, "docs", "placement.svg"), encoding="utf-8") as file:
            before = file.read()
        os.remove(os.path.join(copy, "docs", "placement.svg"))
        self.command("bash", "-ec", "cd copy\n" + "\n".join(commands), PROUD=os.path.abspath(proud()))
        told = "docs/placement.svg is another picture than the lines in docs/FLOW.md make: run them anew"
        self.assertEqual(self.read("copy", "docs", "placement.svg"), before, told)


if __name__ == "__main__":
    unittest.main()

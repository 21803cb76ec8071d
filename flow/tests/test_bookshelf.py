"""Numbers, words and files of designs, and wire length."""
import os
import unittest

from support import PLACED, WIRE, Case
from bookshelf import WORD, Fault, decimal, micro, net_lengths, read_design, read_placement, wire_length, write_whole


class Numbers(unittest.TestCase):
    def test_values_in_millionths_are_dropped_towards_zero(self):
        for word, value in (("0", 0), ("+1.6", 1600000), ("-.5", -500000), ("2.", 2000000), ("1e3", 1000000000),
                            ("25E-1", 2500000), ("0.0000019", 1), ("-0.0000019", -1), ("1000000", 10**12),
                            ("0e99999999999999", 0), ("1e-999999999", 0)):
            self.assertEqual(micro(word), value, word)

    def test_other_words_are_no_numbers(self):
        for word in ("", ".", "e5", "1e", "1.2.3", "0x10", "1_000", "inf", "nan", "٣", "1000000.000001", "1e999999999",
                     "0" * 31):
            with self.assertRaises(ValueError, msg=word):
                micro(word)

    def test_decimals_are_canonical(self):
        for value, text in ((0, "0"), (1600000, "1.6"), (-500000, "-0.5"), (1, "0.000001"), (-10000000, "-10")):
            self.assertEqual(decimal(value), text)
            self.assertEqual(micro(text), value)

    def test_colons_at_the_ends_of_a_run_are_words(self):
        for line, words in (("a\tI : 1 2\r", ["a", "I", ":", "1", "2"]), ("NumNets:5", ["NumNets:5"]),
                            ("NumNets: 5", ["NumNets", ":", "5"]), (":5", [":", "5"]), ("a:b", ["a:b"]),
                            (":: a::", [":", ":", "a", ":", ":"]), ("x\u00a0y", ["x\u00a0y"])):
            self.assertEqual(WORD.findall(line), words, line)


class Designs(Case):
    def test_wire_length_of_the_hand_made_design(self):
        design = read_design(self.chip())
        placement = read_placement(self.path("placed.pl"), design)
        self.assertEqual(dict(zip(design.nets.names, net_lengths(design, placement))),
                         {"in": 8500000, "clk": 20000000, "out[0]": 18000000, "out[1]": 11500000, "mid": 7500000})
        self.assertEqual(wire_length(design, placement), WIRE)

    def test_centres_are_rounded_down(self):
        self.write("d.aux", "RowBasedPlacement : d.nodes d.nets d.pl d.scl\n")
        self.write("d.nodes", "UCLA nodes 1.0\nNumNodes : 2\na 0.000003 0.000005\np 0 0 terminal\n")
        self.write("d.nets", "UCLA nets 1.0\nNumNets : 3\nNumPins : 3\nNetDegree : 2\na\np\nNetDegree : 1\na\nNetDegree : 0\n")
        self.write("d.pl", "UCLA pl 1.0\np 0 0\n")
        self.write("d.scl", "UCLA scl 1.0\nNumRows : 1\nCoreRow Horizontal\nCoordinate : 0\nHeight : 1\nSitewidth : 1\n"
                            "SubrowOrigin : 0 NumSites : 1\nEnd\n")
        design = read_design(self.path("d.aux"))
        self.assertEqual(list(net_lengths(design, design.given)), [3, 0, 0])

    def test_a_node_marked_in_pl_alone_is_fixed_and_the_last_line_counts(self):
        aux = self.chip()
        self.write("chip/chip.pl", self.read("chip", "chip.pl") + "g3 6 10 : FN /FIXED\n# a comment\n")
        design = read_design(aux)
        g3 = design.nodes.number["g3"]
        self.assertTrue(design.nodes.fixed[g3] and design.is_block(g3))
        self.assertEqual((design.given.x[g3], design.given.turned[g3]), (6000000, "FN"))
        # A fixed node without a line in a placement stands where the design has it; a cell without one is lost.
        placement = read_placement(self.write("part.pl", "UCLA pl 1.0\ng1 0 0\n"), design)
        self.assertEqual(placement.x[g3], 6000000)
        self.assertEqual({design.nodes.names[node] for node in placement.lost}, {"f1", "g2"})
        self.assertIsNone(wire_length(design, placement))

    def test_either_file_says_who_is_fixed_and_who_allows_overlap(self):
        aux = self.chip()
        nodes, places = self.read("chip", "chip.nodes"), self.read("chip", "chip.pl")
        # g3 is movable. Of its lines in `.pl` the last one counts.
        for mark, lines, fixed, overlap in (
                ("", ["g3 6 10"], False, False), (" terminal", ["g3 6 10"], True, False), ("", ["g3 6 10 /FIXED"], True, False),
                (" terminal_NI", ["g3 6 10"], True, True), ("", ["g3 6 10 : FN /FIXED_NI"], True, True),
                (" Terminal_ni", ["g3 6 10 /FIXED"], True, True), (" TERMINAL", ["g3 6 10 /fixed_Ni"], True, True),
                ("", ["g3 6 10 /FIXED_NI", "g3 6 10 /FIXED"], True, False),
                ("", ["g3 6 10 /FIXED_NI", "g3 6 10 : S"], False, False),
                ("", ["g3 6 10 /FIXED", "g3 6 10 /FIXED_NI"], True, True)):
            with self.subTest(mark + " ".join(lines)):
                self.write("chip/chip.nodes", nodes.replace("\tg3 4 10", "\tg3 4 10" + mark))
                self.write("chip/chip.pl", places + "\n".join(lines) + "\n")
                its = read_design(aux).nodes
                g3 = its.number["g3"]
                self.assertEqual((its.fixed[g3], its.overlap[g3]), (fixed, overlap))
                self.assertEqual(its.mark(g3), " /FIXED_NI" if overlap else " /FIXED" if fixed else "")
                self.assertEqual(sum(its.overlap), overlap)

    def test_faults_are_told_at_their_line(self):
        aux = self.chip()
        for ending, old, new, told in (
                ("nodes", "\tg2 4 10", "\tg1 4 10", "chip.nodes:6: name given twice: g1"),
                ("nodes", "\tg2 4 10", "\tg2 4 ten", "chip.nodes:6: bad number ten"),
                ("nodes", "\tg2 4 10", "\tg2 4 10 terminal_N", "chip.nodes:6: bad line"),
                ("nodes", "\tg2 4 10", "\tg2 4 10 /FIXED_NI", "chip.nodes:6: bad line"),
                ("nodes", "\tg2 4 10", "", "numnodes 8, but there are 7"),
                ("nodes", "UCLA nodes", "UCLA nets", "chip.nodes:1: bad header"),
                ("nets", "\tg2 I", "\tg9 I", "unknown name g9"),
                ("nets", "NetDegree : 2 mid", "NetDegree : 3 mid", "the net before has 2 pins instead of 3"),
                ("nets", "\tg1 I : -1.5 -3", "\tg1 I : -1.5", "bad line"),
                ("pl", "clk 10 20 : N /FIXED\n", "", "node clk: no position"),
                ("pl", "g1 0 0 : N", "g1 0 0 : M", "chip.pl:2: bad line"),
                ("pl", "g1 0 0 : N", "g1 0 0 : N /FIXED_N", "chip.pl:2: bad line"),
                ("pl", "g1 0 0 : N", "g1 0 0 terminal_NI", "chip.pl:2: bad line"),
                ("scl", "  Height : 10", "  Height : 0", "chip.scl:5: bad number 0"),
                ("scl", "  Sitespacing : 2", "  Sitespacing : 3", "rows of several heights or pitches"),
                ("scl", "NumSites : 10", "NumSites : ten", "bad line"),
                ("scl", "NumSites : 10", "NumSites : 1099511627777", "bad line"),
                ("aux", "chip.scl", "chip.xyz", "chip.aux:1: chip.xyz isn't a file of a design"),
                ("aux", " chip.scl", "", "no .scl file is named")):
            with self.subTest(told):
                before = self.read("chip", "chip." + ending)
                self.assertIn(old, before)
                self.write("chip/chip." + ending, before.replace(old, new, 1))
                with self.assertRaises(Fault) as caught:
                    read_design(aux)
                self.assertIn(told, str(caught.exception))
                self.write("chip/chip." + ending, before)

    def test_a_file_name_with_a_nul_or_that_is_not_utf_8_is_refused(self):
        aux = self.chip()
        for name in (b"\0.scl", b"\xff.scl"):
            with open(aux, "wb") as file:
                file.write(b"RowBasedPlacement : chip.nodes chip.nets chip.pl " + name + b"\n")
            with self.assertRaisesRegex(Fault, "chip.aux:1: .*isn't a file of a design"):
                read_design(aux)

    def test_a_placement_of_another_design_is_refused(self):
        aux = self.chip()
        self.write("other.pl", PLACED + "g9 0 0 : N\n")
        self.assertIn("other.pl:10: unknown name g9", self.refused("compare.py", aux, "other.pl"))


class Files(Case):
    def test_what_fails_halfway_leaves_the_file_as_it_was(self):
        self.write("out", "before\n")

        def lines():
            yield "half"
            raise Fault("no more")

        with self.assertRaises(Fault):
            write_whole(self.path("out"), lines())
        self.assertEqual(self.read("out"), "before\n")
        write_whole(self.path("out"), ["after"])
        self.assertEqual(self.read("out"), "after\n")
        self.assertEqual(os.listdir(self.folder), ["out"])

    def test_a_link_stays_and_what_it_names_is_written(self):
        self.write("real", "before\n")
        os.symlink("real", self.path("link"))
        write_whole(self.path("link"), ["after"])
        self.assertTrue(os.path.islink(self.path("link")))
        self.assertEqual(self.read("real"), "after\n")

    def test_a_file_or_folder_that_is_not_there_is_named(self):
        aux = self.chip()
        self.assertIn("nowhere.pl: No such file", self.refused("draw.py", aux, "nowhere.pl", "out.svg"))
        self.assertIn("no folder/out.svg", self.refused("draw.py", aux, "placed.pl", "no folder/out.svg"))


if __name__ == "__main__":
    unittest.main()

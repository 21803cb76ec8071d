"""draw.py: the picture read as XML, with a piece of path for each node, at its place."""
import os
import re
import unittest
import xml.etree.ElementTree as ElementTree

from support import PLACED, TOP, Case

SVG = "{http://www.w3.org/2000/svg}"
PIECE = re.compile(r"M(\S+) (\S+?)h(\S+?)v(\S+?)h-(\S+?)z")


class Picture:
    """A picture as it stands in the file: the rectangles of each path of its drawing, and the texts of its legend."""

    def __init__(self, path):
        self.root = ElementTree.parse(path).getroot()
        drawing, legend = self.root.findall(SVG + "g")
        paths = drawing.findall(SVG + "path")
        self.areas = {path.get("class"): [tuple(map(float, piece[:4])) for piece in PIECE.findall(path.get("d"))]
                      for path in paths if path.get("class") != "net"}
        self.nets = [path.get("d") for path in paths if path.get("class") == "net"]
        self.fills = [path.get("fill") for path in paths if path.get("class") != "net"]
        self.dashed = [path.get("class") for path in paths if path.get("stroke-dasharray")]
        self.texts = [text.text for text in legend.findall(SVG + "text")]


class Draw(Case):
    def picture(self, *words):
        self.script("draw.py", *words, "out.svg")
        return Picture(self.path("out.svg"))

    def test_each_node_stands_at_its_place(self):
        picture = self.picture(self.chip(), "placed.pl")
        self.assertEqual(picture.areas["cell"], [(0, 0, 4, 10), (4, 0, 7, 10), (12, 0, 4, 10), (0, 10, 4, 10)])
        self.assertEqual(picture.areas["row"], [(0, 0, 20, 10), (0, 10, 20, 10)])
        # A pad without size is a mark around its place.
        middles = [(x + width / 2, y + height / 2) for x, y, width, height in picture.areas["pad"]]
        self.assertEqual([(round(x, 4), round(y, 4)) for x, y in middles], [(0, 10), (10, 20), (20, 10), (10, 0)])
        self.assertEqual(set(picture.areas), {"row", "cell", "pad"})

    def test_the_legend_tells_what_is_shown(self):
        picture = self.picture(self.chip(), "placed.pl")
        self.assertEqual(picture.texts, ["chip", "placed.pl", "wire length 65.5", "nets 5, pins 11", "cells 4", "pads 4",
                                         "rows 2"])

    def test_y_goes_up_and_all_is_in_the_frame(self):
        picture = self.picture(self.chip(), "placed.pl")
        group = picture.root.find(SVG + "g")
        left, top, across, up = map(float, re.findall(r"-?[\d.]+", group.get("transform")))
        self.assertLess(up, 0)
        for areas in picture.areas.values():
            for x, y, width, height in areas:
                for place in (left + x * across, left + (x + width) * across):
                    self.assertTrue(0 <= place <= float(picture.root.get("width")), (x, y, place))
                for place in (top + y * up, top + (y + height) * up):
                    self.assertTrue(0 <= place <= float(picture.root.get("height")), (x, y, place))

    def test_nets_by_length_and_by_name(self):
        aux = self.chip()
        self.assertEqual(self.picture(aux, "placed.pl").nets, [])
        picture = self.picture(aux, "placed.pl", "--longest", "2")
        self.assertEqual(picture.texts[-3:], ["cells on the nets below 2", "net clk: 20", "net out[0]: 18"])
        # The middle of (10, 20) and (7.5, 2.5).
        self.assertEqual(picture.nets[0], "M8.75 11.25L10 20M8.75 11.25L7.5 2.5")
        self.assertEqual(picture.areas["chosen"], [(4, 0, 7, 10), (12, 0, 4, 10)])
        self.assertEqual(len(picture.areas["cell"]), 2)
        picture = self.picture(aux, "placed.pl", "--net", "mid", "--net", "in", "--longest", "1")
        self.assertEqual([text.split(":")[0] for text in picture.texts[-3:]], ["net mid", "net in", "net clk"])
        self.assertIn("no net mist", self.refused("draw.py", aux, "placed.pl", "out.svg", "--net", "mist"))

    def test_a_lost_cell_is_named(self):
        aux = self.chip()
        self.write("part.pl", PLACED.replace("g2 12 0 : N\n", ""))
        self.assertIn("part.pl: cell g2 has no place", self.refused("draw.py", aux, "part.pl", "out.svg"))
        self.assertFalse(os.path.exists(self.path("out.svg")))

    def test_names_with_signs_of_xml(self):
        aux = self.chip()
        for ending in ("nodes", "nets", "pl"):
            self.write("chip/chip." + ending, self.read("chip", "chip." + ending).replace("mid", "<&\">").replace("g1", "g&1"))
        self.write("placed.pl", PLACED.replace("g1", "g&1"))
        self.assertEqual(self.picture(aux, "placed.pl", "--net", "<&\">").texts[-1], "net <&\">: 7.5")

    def test_every_design_is_drawn_whole_and_alone(self):
        for folder in sorted(os.listdir(os.path.join(TOP, "designs"))):
            files = os.path.join(TOP, "designs", folder)
            if not os.path.isdir(files):
                continue
            aux = next(os.path.join(files, name) for name in os.listdir(files) if name.endswith(".aux"))
            picture = self.picture(aux, os.path.join(files, "expected.pl"))
            with open(os.path.join(files, "expected.pl"), encoding="utf-8") as file:
                nodes = len([line for line in file if line.strip()]) - 1
            self.assertEqual(sum(len(areas) for kind, areas in picture.areas.items() if kind != "row"), nodes, folder)
            # Nothing is taken from elsewhere: no link, no style, no image.
            text = self.read("out.svg").replace('xmlns="http://www.w3.org/2000/svg"', "")
            self.assertIsNone(re.search("http|href|url|<style|<image|<script", text), folder)

    def test_blocks_are_told_from_pads(self):
        folder = os.path.join(TOP, "designs", "macro_block")
        picture = self.picture(os.path.join(folder, "macro_block.aux"), os.path.join(folder, "expected.pl"))
        self.assertEqual(picture.areas["block"], [(58, 66, 4, 12), (34, 30, 20, 24)])
        self.assertEqual(len(picture.areas["cell"]), 12)
        self.assertEqual(len(set(picture.fills)), 4)

    def test_who_allows_overlap_is_dashed_and_blocks_stand_behind_the_cells(self):
        aux = self.chip()
        text = self.read("chip", "chip.nodes").replace("clk 0 0 terminal", "clk 0 0 terminal_NI")
        self.write("chip/chip.nodes", text.replace("NumNodes : 8", "NumNodes : 9") + "\tblock 6 10 terminal\n")
        self.write("chip/chip.pl", self.read("chip", "chip.pl") + "block 10 0 /FIXED_NI\n")
        picture = self.picture(aux, self.write("placed.pl", PLACED + "block 10 0 : N /FIXED_NI\n"))
        self.assertEqual(picture.areas["open-block"], [(10, 0, 6, 10)])
        self.assertEqual([len(picture.areas[kind]) for kind in ("cell", "pad", "open-pad")], [4, 3, 1])
        self.assertEqual(list(picture.areas), ["row", "open-block", "cell", "open-pad", "pad"])
        self.assertEqual(picture.dashed, ["open-block", "open-pad"])
        self.assertEqual(picture.texts[4:8], ["cells 4", "pads 3", "pads that allow overlap 1", "blocks that allow overlap 1"])


if __name__ == "__main__":
    unittest.main()

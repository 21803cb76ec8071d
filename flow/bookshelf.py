"""Bookshelf designs and placements, for the scripts of the flow: reading, wire length, legality, and writing whole files.

The forms of the files are those of docs/RULES.md. Every number is kept exactly, as a whole number of millionths of a Bookshelf
unit. What is wrong with an input is a Fault, which `run` tells in one line.
"""
from __future__ import annotations

import functools
import heapq
import os
import re
import sys
from dataclasses import dataclass
from typing import Callable, Dict, Iterable, Iterator, List, NamedTuple, Optional, Set, Tuple

MICRO = 1000000
# A run without blanks is a word, but a colon at its start or at its end is a word of its own.
WORD = re.compile(r"[^ \t\r:](?:[^ \t\r]*[^ \t\r:])?|:")
NUMBER = re.compile(r"([+-]?)(?=\.?[0-9])([0-9]*)\.?([0-9]*)(?:[eE]([+-]?[0-9]+))?")
WHOLE = re.compile(r"[0-9]{1,30}")
KINDS = "nodes", "nets", "wts", "pl", "scl"
DIRECTIONS = "I", "O", "B", "i", "o", "b"
TURNS = "N", "S", "E", "W", "FN", "FS", "FE", "FW"
# The marks of a fixed node in `.nodes` and in `.pl`, in small letters, and whether each says that the node allows overlap.
NODE_MARKS = {"terminal": False, "terminal_ni": True}
PLACE_MARKS = {"/fixed": False, "/fixed_ni": True}


class Fault(Exception):
    """What is wrong with an input, in one line."""


# Numbers


@functools.lru_cache(maxsize=1 << 17)
def micro(word: str) -> int:
    """The value of a number word in millionths, dropped towards zero; ValueError where it isn't one, or is out of range."""
    parts = NUMBER.fullmatch(word) if len(word) <= 30 else None
    if parts is None:
        raise ValueError(word)
    sign, whole, rest, exponent = parts.groups()
    digits, power = int(whole + rest), int(exponent or 0) - len(rest) + 6
    # No word has more than 30 digits, so a power of 99 is as good as any greater one.
    value = digits * 10 ** min(power, 99) if power >= 0 else digits // 10 ** min(-power, 99)
    if value > MICRO * MICRO:
        raise ValueError(word)
    return -value if sign == "-" else value


def is_whole(word: str) -> bool:
    """Whether it is a whole word: a count, or how many sites there are."""
    return WHOLE.fullmatch(word) is not None and int(word) <= 1 << 40


@functools.lru_cache(maxsize=1 << 17)
def decimal(millionths: int) -> str:
    """The canonical decimal of a number of millionths."""
    whole, rest = divmod(abs(millionths), MICRO)
    return f"{'-' if millionths < 0 else ''}{whole}" + (f".{rest:06}".rstrip("0") if rest else "")


# Files and messages


def printable(text: str) -> str:
    """The text on one line of printable characters."""
    return "".join(c if c.isprintable() else c.encode("unicode_escape").decode() for c in text)


def read_text(path: str) -> str:
    with open(path, "rb") as file:
        return file.read().decode(errors="surrogateescape")


def write_whole(path: str, lines: Iterable[str]) -> None:
    """Writes the lines to a file beside and moves it to its place when it is whole. A device is written to as it is."""
    path = os.path.realpath(path)
    data = "".join(line + "\n" for line in lines).encode(errors="surrogateescape")
    part = path if os.path.exists(path) and not os.path.isfile(path) else f"{path}.{os.getpid()}.part"
    try:
        with open(part, "wb") as file:
            file.write(data)
        if part != path:
            os.replace(part, path)
    except BaseException:
        if part != path and os.path.exists(part):
            os.remove(part)
        raise


def run(main: Callable[[], int]) -> None:
    """Ends the script with the status that `main` answers; what is wrong with an input is one line, and status 2."""
    try:
        status = main()
        sys.stdout.flush()
    except Fault as fault:
        told = str(fault)
    except BrokenPipeError:
        # Who reads has had enough. Nothing is left to be flushed at the end.
        os.dup2(os.open(os.devnull, os.O_WRONLY), 1)
        sys.exit(2)
    except OSError as error:
        told = f"{error.filename}: {error.strerror}" if error.filename is not None else str(error)
    else:
        sys.exit(status)
    print(printable(f"{os.path.basename(sys.argv[0])}: {told}"), file=sys.stderr)
    sys.exit(2)


# Designs


class Subrow(NamedTuple):
    x: int
    y: int
    sites: int


class Rectangle(NamedTuple):
    left: int
    lower: int
    right: int
    upper: int

    def shares_area(self, other: Rectangle) -> bool:
        return (max(self.left, other.left) < min(self.right, other.right)
                and max(self.lower, other.lower) < min(self.upper, other.upper))


@dataclass
class Nodes:
    """A list for each property, with an entry for each node, in the order of `.nodes`. A fixed node may allow overlap."""

    names: List[str]
    width: List[int]
    height: List[int]
    fixed: List[bool]
    overlap: List[bool]
    number: Dict[str, int]

    def mark(self, node: int) -> str:
        """What stands behind the node's line in a placement."""
        return " /FIXED_NI" if self.overlap[node] else " /FIXED" if self.fixed[node] else ""


@dataclass
class Nets:
    """Net k has the pins from begins[k] to before begins[k + 1]; a pin is its node and its offset from the node's centre."""

    names: List[str]
    begins: List[int]
    node: List[int]
    x: List[int]
    y: List[int]

    def pins(self, net: int) -> range:
        return range(self.begins[net], self.begins[net + 1])


@dataclass
class Rows:
    height: int
    pitch: int
    subrows: List[Subrow]

    @functools.cached_property
    def core(self) -> Rectangle:
        """The smallest rectangle around all subrows that have a site."""
        wide = [subrow for subrow in self.subrows if subrow.sites > 0]
        return Rectangle(min(row.x for row in wide), min(row.y for row in wide),
                         max(row.x + row.sites * self.pitch for row in wide), max(row.y for row in wide) + self.height)


@dataclass
class Placement:
    """Where each node stands: its lower left corner, and how it is turned. A lost node has no place."""

    path: str
    x: List[int]
    y: List[int]
    turned: List[str]
    lost: Set[int]


@dataclass
class Design:
    """A design; `given` is what its own `.pl` says."""

    name: str
    nodes: Nodes
    nets: Nets
    rows: Rows
    given: Placement

    def cells(self) -> Iterator[int]:
        """The movable nodes."""
        return (node for node, fixed in enumerate(self.nodes.fixed) if not fixed)

    def sites(self, node: int) -> int:
        """How many sites a cell takes."""
        return max(1, -(-self.nodes.width[node] // self.rows.pitch))

    def rectangle(self, node: int, placement: Placement) -> Rectangle:
        x, y = placement.x[node], placement.y[node]
        return Rectangle(x, y, x + self.nodes.width[node], y + self.nodes.height[node])

    def is_block(self, node: int) -> bool:
        """Whether a node is fixed and shares area with the core. Any other fixed node is drawn and written as a pad."""
        return self.nodes.fixed[node] and self.rows.core.shares_area(self.rectangle(node, self.given))

    def bars(self, node: int) -> bool:
        """Whether no cell may stand there: it is a block that forbids overlap."""
        return self.is_block(node) and not self.nodes.overlap[node]


def content(path: str, kind: str) -> Iterator[Tuple[int, List[str]]]:
    """The number and the words of each line behind the header that isn't a comment."""
    begun = False
    number = 0
    for number, line in enumerate(read_text(path).split("\n"), 1):
        words = WORD.findall(line)
        if not words or words[0].startswith("#"):
            continue
        if begun:
            yield number, words
        elif [word.lower() for word in words[:2]] == ["ucla", kind] and words[2:3] == ["1.0"]:
            begun = True
        else:
            break
    if not begun:
        raise Fault(f"{path}:{number}: bad header")


class Counts:
    """The count lines of a file: what they state, to be compared with what is found."""

    def __init__(self, path: str, *keywords: str):
        self.path, self.keywords, self.stated = path, keywords, {}

    def take(self, number: int, words: List[str]) -> bool:
        """Whether the line is a count line, which is then kept."""
        key = words[0].lower()
        if words[1:2] != [":"] or key not in self.keywords:
            return False
        if len(words) != 3 or not is_whole(words[2]) or key in self.stated:
            raise Fault(f"{self.path}:{number}: bad line")
        self.stated[key] = int(words[2])
        return True

    def compare(self, **found: int) -> None:
        for key, count in found.items():
            if key not in self.stated:
                raise Fault(f"{self.path}: no line {key}")
            if self.stated[key] != count:
                raise Fault(f"{self.path}: {key} {self.stated[key]}, but there are {count}")


def numbers(path: str, number: int, *words: str) -> List[int]:
    """The values of number words of a line."""
    try:
        return [micro(word) for word in words]
    except ValueError as error:
        raise Fault(f"{path}:{number}: bad number {error}") from None


def read_names(aux: str) -> Dict[str, str]:
    """The paths of the files that an `.aux` file names, by their kind."""
    files, number = {}, 0
    for number, line in enumerate(read_text(aux).split("\n"), 1):
        words = WORD.findall(line)
        if not words or words[0].startswith("#"):
            continue
        if files or words[0].lower() != "rowbasedplacement" or words[1:2] != [":"]:
            raise Fault(f"{aux}:{number}: bad line")
        for name in words[2:]:
            kind = name.rpartition(".")[2].lower()
            # A name is UTF-8, and no file's name has a NUL.
            named = not any(c == "\0" or "\udc80" <= c <= "\udcff" for c in name)
            if kind not in KINDS or "." not in name or kind in files or not named:
                raise Fault(f"{aux}:{number}: {name} isn't a file of a design, or one too many")
            files[kind] = os.path.join(os.path.dirname(aux), name)
    for kind in KINDS:
        if kind not in files and kind != "wts":
            raise Fault(f"{aux}:{number}: no .{kind} file is named")
    return files


def read_nodes(path: str) -> Nodes:
    nodes, counts = Nodes([], [], [], [], [], {}), Counts(path, "numnodes", "numterminals")
    for number, words in content(path, "nodes"):
        if counts.take(number, words):
            continue
        mark = words[3].lower() if len(words) == 4 else ""
        if len(words) not in (3, 4) or (mark and mark not in NODE_MARKS):
            raise Fault(f"{path}:{number}: bad line")
        width, height = numbers(path, number, words[1], words[2])
        if width < 0 or height < 0:
            raise Fault(f"{path}:{number}: negative size")
        if words[0] in nodes.number:
            raise Fault(f"{path}:{number}: name given twice: {words[0]}")
        nodes.number[words[0]] = len(nodes.names)
        nodes.names.append(words[0])
        nodes.width.append(width)
        nodes.height.append(height)
        nodes.fixed.append(mark in NODE_MARKS)
        nodes.overlap.append(NODE_MARKS.get(mark, False))
    counts.compare(numnodes=len(nodes.names))
    return nodes


def read_nets(path: str, number_of: Dict[str, int]) -> Nets:
    nets, counts, degree, number = Nets([], [], [], [], []), Counts(path, "numnets", "numpins"), 0, 0
    for number, words in content(path, "nets"):
        if words[1:2] == [":"] and (words[0].lower() == "netdegree" or counts.take(number, words)):
            if words[0].lower() == "netdegree":
                check_degree(path, number, nets, degree)
                if len(words) not in (3, 4) or not is_whole(words[2]):
                    raise Fault(f"{path}:{number}: bad line")
                degree = int(words[2])
                nets.names.append(words[3] if len(words) == 4 else "")
                nets.begins.append(len(nets.node))
            continue
        if not nets.names:
            raise Fault(f"{path}:{number}: bad line")
        x, y = offset_of(path, number, words)
        node = number_of.get(words[0])
        if node is None:
            raise Fault(f"{path}:{number}: unknown name {words[0]}")
        nets.node.append(node)
        nets.x.append(x)
        nets.y.append(y)
    check_degree(path, number, nets, degree)
    nets.begins.append(len(nets.node))
    counts.compare(numnets=len(nets.names), numpins=len(nets.node))
    return nets


def offset_of(path: str, number: int, words: List[str]) -> Tuple[int, int]:
    """The offset in a pin's line. Its direction, if there is one, isn't kept."""
    size = len(words)
    if size > 1 and words[1] not in DIRECTIONS or size > 2 and (size != 5 or words[2] != ":"):
        raise Fault(f"{path}:{number}: bad line")
    if size < 5:
        return 0, 0
    try:
        return micro(words[3]), micro(words[4])
    except ValueError as error:
        raise Fault(f"{path}:{number}: bad number {error}") from None


def check_degree(path: str, number: int, nets: Nets, degree: int) -> None:
    found = len(nets.node) - nets.begins[-1] if nets.names else 0
    if found != degree:
        raise Fault(f"{path}:{number}: the net before has {found} pins instead of {degree}")


def read_places(path: str, nodes: Nodes) -> Tuple[Placement, Dict[int, bool]]:
    """Where the file puts each node, and of those that it marks as fixed whether they allow overlap, by their last lines.

    A node without a line is lost, at (0, 0).
    """
    count = len(nodes.names)
    placement, marks = Placement(path, [0] * count, [0] * count, ["N"] * count, set(range(count))), {}
    for number, words in content(path, "pl"):
        overlap = PLACE_MARKS.get(words[-1].lower())
        rest = words[3:] if overlap is None else words[3:-1]
        if len(words) < 3 or (rest and (len(rest) != 2 or rest[0] != ":" or rest[1].upper() not in TURNS)):
            raise Fault(f"{path}:{number}: bad line")
        x, y = numbers(path, number, words[1], words[2])
        node = nodes.number.get(words[0])
        if node is None:
            raise Fault(f"{path}:{number}: unknown name {words[0]}")
        placement.x[node], placement.y[node], placement.turned[node] = x, y, rest[1].upper() if rest else "N"
        placement.lost.discard(node)
        marks.pop(node, None)
        if overlap is not None:
            marks[node] = overlap
    return placement, marks


def read_rows(path: str) -> Rows:
    rows, counts, row, found = None, Counts(path, "numrows"), None, 0
    subrows: List[Subrow] = []
    for number, words in content(path, "scl"):
        key = words[0].lower()
        if row is None and counts.take(number, words):
            continue
        if [word.lower() for word in words] == ["corerow", "horizontal"] and row is None:
            row, begun = {}, len(subrows)
        elif key == "end" and len(words) == 1 and row is not None:
            this = end_of_row(path, number, row)
            if rows is not None and this != rows:
                raise Fault(f"{path}:{number}: rows of several heights or pitches")
            rows, found = this, found + 1
            subrows[begun:] = [Subrow(x, row["coordinate"], sites) for x, _, sites in subrows[begun:]]
            row = None
        elif row is None:
            raise Fault(f"{path}:{number}: bad line")
        elif key == "subroworigin":
            subrows.append(subrow_of(path, number, words))
        else:
            take_property(path, number, words, row)
    if row is not None:
        raise Fault(f"{path}: a row isn't ended")
    counts.compare(numrows=found)
    if not any(subrow.sites > 0 for subrow in subrows):
        raise Fault(f"{path}: no rows")
    return Rows(*rows, subrows)


def subrow_of(path: str, number: int, words: List[str]) -> Subrow:
    if len(words) != 6 or words[1] != ":" or words[3].lower() != "numsites" or words[4] != ":" or not is_whole(words[5]):
        raise Fault(f"{path}:{number}: bad line")
    return Subrow(numbers(path, number, words[2])[0], 0, int(words[5]))


def take_property(path: str, number: int, words: List[str], row: Dict[str, int]) -> None:
    key = words[0].lower()
    if words[1:2] != [":"] or key in row:
        raise Fault(f"{path}:{number}: bad line")
    if key in ("siteorient", "sitesymmetry"):
        row[key] = 0
    elif key in ("coordinate", "height", "sitewidth", "sitespacing") and len(words) == 3:
        row[key] = numbers(path, number, words[2])[0]
        if row[key] <= 0 and key != "coordinate":
            raise Fault(f"{path}:{number}: bad number {words[2]}")
    else:
        raise Fault(f"{path}:{number}: bad line")


def end_of_row(path: str, number: int, row: Dict[str, int]) -> Tuple[int, int]:
    """The height and the pitch of a row that ends there."""
    if "coordinate" not in row or "height" not in row or not ("sitewidth" in row or "sitespacing" in row):
        raise Fault(f"{path}:{number}: the row lacks a coordinate, a height or a width of its sites")
    return row["height"], row.get("sitespacing", row.get("sitewidth"))


def read_design(aux: str) -> Design:
    files = read_names(aux)
    nodes = read_nodes(files["nodes"])
    nets = read_nets(files["nets"], nodes.number)
    given, marks = read_places(files["pl"], nodes)
    for node, is_terminal in enumerate(nodes.fixed):
        if is_terminal and node in given.lost:
            raise Fault(f"{files['pl']}: node {nodes.names[node]}: no position")
        nodes.fixed[node] = is_terminal or node in marks
        nodes.overlap[node] = nodes.overlap[node] or marks.get(node, False)
    given.lost.clear()
    name = os.path.basename(aux)
    return Design(name[:-4] if name.lower().endswith(".aux") else name, nodes, nets, read_rows(files["scl"]), given)


def read_placement(path: str, design: Design) -> Placement:
    """A placement of the design. A fixed node without a line stands where the design has it."""
    placement, _ = read_places(path, design.nodes)
    for node in [node for node in placement.lost if design.nodes.fixed[node]]:
        for mine, its in zip((placement.x, placement.y, placement.turned), (design.given.x, design.given.y, design.given.turned)):
            mine[node] = its[node]
        placement.lost.remove(node)
    return placement


def without_loss(placement: Placement, design: Design) -> Placement:
    """The placement; a Fault where it has lost a cell."""
    if placement.lost:
        raise Fault(f"{placement.path}: cell {design.nodes.names[min(placement.lost)]} has no place")
    return placement


# Wire length


def net_lengths(design: Design, placement: Placement) -> Iterator[int]:
    """The half-perimeter wire length of each net. A pin stands at its node's centre plus its offset, however that is turned."""
    nodes, nets = design.nodes, design.nets
    centre_x = [x + width // 2 for x, width in zip(placement.x, nodes.width)]
    centre_y = [y + height // 2 for y, height in zip(placement.y, nodes.height)]
    pin_x = [centre_x[node] + offset for node, offset in zip(nets.node, nets.x)]
    pin_y = [centre_y[node] + offset for node, offset in zip(nets.node, nets.y)]
    for begin, end in zip(nets.begins, nets.begins[1:]):
        if begin == end:
            yield 0
        else:
            xs, ys = pin_x[begin:end], pin_y[begin:end]
            yield max(xs) - min(xs) + max(ys) - min(ys)


def wire_length(design: Design, placement: Placement) -> Optional[int]:
    """The half-perimeter wire length of all nets together, each counted once; None where a cell is lost."""
    return None if placement.lost else sum(net_lengths(design, placement))


# Legality


class Illegal(NamedTuple):
    """What isn't legal: its kind, and a line that names the node."""

    kind: str
    line: str


def faults(design: Design, placement: Placement) -> List[Illegal]:
    """All that isn't legal; of the overlaps at least one of each cell that overlaps with an earlier one."""
    nodes, given = design.nodes, design.given
    found = [Illegal("lost", f"{nodes.names[node]} is lost") for node in sorted(placement.lost)]
    at_height: Dict[int, List[Subrow]] = {}
    for subrow in design.rows.subrows:
        at_height.setdefault(subrow.y, []).append(subrow)
    for node, name in enumerate(nodes.names):
        if node in placement.lost:
            continue
        if nodes.fixed[node]:
            if (placement.x[node], placement.y[node]) != (given.x[node], given.y[node]):
                found.append(Illegal("moved", f"{name} is fixed and was moved"))
        elif nodes.height[node] > design.rows.height:
            found.append(Illegal("high", f"{name} is higher than a row"))
        else:
            stands = site_fault(design, placement, node, at_height.get(placement.y[node], []))
            found.extend([Illegal(stands, f"{name} is {stands}")] if stands else [])
        if placement.turned[node] != given.turned[node]:
            found.append(Illegal("turned", f"{name} is turned"))
    return found + [Illegal("overlap", f"{one} and {other} overlap") for one, other in overlaps(design, placement)]


def site_fault(design: Design, placement: Placement, node: int, subrows: List[Subrow]) -> str:
    """What is wrong with where a cell begins, given the subrows at its height; nothing where it stands on their sites."""
    x, pitch = placement.x[node], design.rows.pitch
    end = x + design.sites(node) * pitch
    inside = [row for row in subrows if row.x <= x and end <= row.x + row.sites * pitch]
    if not inside:
        return "outside the rows"
    return "" if any((x - row.x) % pitch == 0 for row in inside) else "off its site"


def overlaps(design: Design, placement: Placement) -> List[Tuple[str, str]]:
    """Pairs of names that share area, of which one at least is a cell's, whose area is that of its sites, and none of a node that
    allows overlap.

    It goes through bands as high as a row, from left to right, and stops at the first partner of a node in a band, so that a
    heap of cells at one place doesn't cost its square.
    """
    nodes, height = design.nodes, design.rows.height
    bands: Dict[int, List[Tuple[Rectangle, int]]] = {}
    for node in range(len(nodes.names)):
        area = design.rectangle(node, placement)
        if not nodes.fixed[node]:
            area = Rectangle(area.left, area.lower, area.left + design.sites(node) * design.rows.pitch, area.lower + height)
        solid = node not in placement.lost and not nodes.overlap[node]
        if solid and area.left < area.right and area.lower < area.upper:
            for band in range(area.lower // height, -(-area.upper // height)):
                bands.setdefault(band, []).append((area, node))
    pairs = set()
    for band in bands.values():
        band.sort()
        # Those that begin further left and may reach further right, as a heap by their right ends.
        active: List[Tuple[int, Rectangle, int]] = []
        for area, node in band:
            while active and active[0][0] <= area.left:
                heapq.heappop(active)
            for _, other_area, other in active:
                if not (nodes.fixed[node] and nodes.fixed[other]) and area.shares_area(other_area):
                    pairs.add((min(node, other), max(node, other)))
                    break
            heapq.heappush(active, (area.right, area, node))
    return [(nodes.names[one], nodes.names[other]) for one, other in sorted(pairs)]

"""The sizes of cells and the places of their pins, from a LEF file: of it only SITE, MACRO and the names of layers are read."""
from __future__ import annotations

from dataclasses import dataclass, field
from typing import Dict, Iterable, List, Optional, Tuple

from bookshelf import Fault, micro, read_text

# Of these blocks nothing is read. Each ends with END and its name, or with END and the keyword where it has none.
SKIPPED = "UNITS", "SPACING", "PROPERTYDEFINITIONS", "NOISETABLE", "CORRECTIONTABLE", "IRDROP"
SKIPPED_BY_NAME = "VIA", "VIARULE", "NONDEFAULTRULE", "ARRAY"


@dataclass
class Site:
    name: str
    width: int
    height: int


@dataclass
class Macro:
    """A cell's size and pins. Of a pin there is its DIRECTION and its place, as seen from the lower left corner.

    That is the middle of the smallest rectangle around its shapes, and None where it has none.
    """

    name: str
    width: int = 0
    height: int = 0
    site: Optional[str] = None
    pins: Dict[str, Tuple[str, Optional[Tuple[int, int]]]] = field(default_factory=dict)


@dataclass
class Layer:
    name: str
    width: int


@dataclass
class Library:
    """The macros of a LEF file, the site of the rows, and the first routing layer, if there is one."""

    path: str
    macros: Dict[str, Macro]
    site: Site
    layer: Optional[Layer]


class Tokens:
    """The words of a LEF file, one after another."""

    def __init__(self, path: str):
        self.path = path
        lines = (line.partition("#")[0] if "#" in line else line for line in read_text(path).split("\n"))
        self.words = [word for line in lines for word in line.split()]
        self.at = 0

    def fault(self, told: str) -> Fault:
        return Fault(f"{self.path}: {told}")

    def next(self) -> str:
        if self.at >= len(self.words):
            raise self.fault("it ends in the middle of a block")
        self.at += 1
        return self.words[self.at - 1]

    def statement(self) -> List[str]:
        """The words up to the next semicolon, without it."""
        words = []
        word = self.next()
        while word != ";":
            if word.endswith(";"):
                return words + [word[:-1]]
            words.append(word)
            word = self.next()
        return words

    def skip_to_end(self, name: Optional[str]) -> None:
        """Goes behind END, with that name behind it unless that is None."""
        while self.next() != "END" or (name is not None and self.next() != name):
            pass

    def number(self, what: str, word: str) -> int:
        try:
            return micro(word)
        except ValueError:
            raise self.fault(f"{what}: bad number {word}") from None

    def size(self, what: str, words: List[str]) -> Tuple[int, int]:
        """The numbers of `W BY H`."""
        if len(words) != 3 or words[1].upper() != "BY":
            raise self.fault(f"{what}: SIZE isn't W BY H")
        width, height = self.number(what, words[0]), self.number(what, words[2])
        if width <= 0 or height <= 0:
            raise self.fault(f"{what}: SIZE isn't above 0")
        return width, height


def read_library(path: str, asked_site: Optional[str], used: Iterable[str]) -> Library:
    """Reads the file. The site is the asked one, or that of the first used macro that names one, or the only one for cells."""
    tokens, sites, macros, layer = Tokens(path), {}, {}, None
    while tokens.at < len(tokens.words):
        word = tokens.next()
        if word == "MACRO":
            macro = read_macro(tokens, tokens.next())
            macros[macro.name] = macro
        elif word == "SITE":
            name = tokens.next()
            sites[name] = read_site(tokens, name)
        elif word == "LAYER":
            found = read_layer(tokens, tokens.next())
            layer = layer or found
        elif word in SKIPPED_BY_NAME:
            tokens.skip_to_end(tokens.next())
        elif word in SKIPPED:
            tokens.skip_to_end(word)
        elif word == "BEGINEXT":
            while tokens.next() != "ENDEXT":
                pass
        elif word == "END":
            break
        elif not word.endswith(";"):
            tokens.statement()
    return Library(path, macros, choose_site(tokens, sites, macros, asked_site, used), layer)


def choose_site(tokens: Tokens, sites: Dict[str, Tuple[str, Site]], macros: Dict[str, Macro], asked: Optional[str],
                used: Iterable[str]) -> Site:
    named = asked or next((macros[name].site for name in used if name in macros and macros[name].site), None)
    if named is not None:
        if named not in sites:
            raise tokens.fault(f"there is no SITE {named}")
        return sites[named][1]
    core = [site for kind, site in sites.values() if kind != "PAD"]
    if len(core) != 1:
        raise tokens.fault(f"it has {len(core)} SITEs for cells; --site NAME says which")
    return core[0]


def read_layer(tokens: Tokens, name: str) -> Optional[Layer]:
    """A routing layer; of any other one nothing."""
    begin = tokens.at
    tokens.skip_to_end(name)
    words = tokens.words[begin:tokens.at]
    if "ROUTING" not in words or "WIDTH" not in words:
        return None
    return Layer(name, tokens.number(f"LAYER {name}", words[words.index("WIDTH") + 1].rstrip(";")))


def read_site(tokens: Tokens, name: str) -> Tuple[str, Site]:
    """A site, and its class before it."""
    kind, size = "", None
    while True:
        word = tokens.next()
        if word == "END":
            break
        words = tokens.statement()
        if word == "CLASS":
            kind = words[0] if words else ""
        elif word == "SIZE":
            size = tokens.size(f"SITE {name}", words)
    if tokens.next() != name:
        raise tokens.fault(f"SITE {name} isn't ended by its name")
    if size is None:
        raise tokens.fault(f"SITE {name} has no SIZE")
    return kind, Site(name, *size)


def read_macro(tokens: Tokens, name: str) -> Macro:
    macro, size, origin, shapes = Macro(name), None, (0, 0), {}
    what = f"MACRO {name}"
    while True:
        word = tokens.next()
        if word == "END":
            break
        if word == "PIN":
            pin = tokens.next()
            shapes[pin] = read_pin(tokens, f"{what}: PIN {pin}", pin)
        elif word in ("OBS", "DENSITY"):
            tokens.skip_to_end(None)
        else:
            words = tokens.statement()
            if word == "SIZE":
                size = tokens.size(what, words)
            elif word == "SITE" and words:
                macro.site = words[0]
            elif word == "ORIGIN":
                origin = tuple(tokens.number(what, number) for number in words[:2])
    if tokens.next() != name:
        raise tokens.fault(f"{what} isn't ended by its name")
    if size is None:
        raise tokens.fault(f"{what} has no SIZE")
    macro.width, macro.height = size
    for pin, (direction, xs, ys) in shapes.items():
        place = ((min(xs) + max(xs)) // 2 + origin[0], (min(ys) + max(ys)) // 2 + origin[1]) if xs else None
        macro.pins[pin] = direction, place
    return macro


def read_pin(tokens: Tokens, what: str, name: str) -> Tuple[str, List[int], List[int]]:
    """The pin's direction, and the coordinates of all corners of its shapes."""
    direction = "INOUT"
    xs: List[int] = []
    ys: List[int] = []
    while True:
        word = tokens.next()
        if word == "END":
            break
        if word == "PORT":
            read_port(tokens, what, xs, ys)
        else:
            words = tokens.statement()
            if word == "DIRECTION" and words:
                direction = words[0].upper()
    if tokens.next() != name:
        raise tokens.fault(f"{what} isn't ended by its name")
    return direction, xs, ys


def read_port(tokens: Tokens, what: str, xs: List[int], ys: List[int]) -> None:
    while True:
        word = tokens.next()
        if word == "END":
            return
        words = tokens.statement()
        if word not in ("RECT", "POLYGON"):
            continue
        if words[:1] == ["MASK"]:
            words = words[2:]
        corners = [tokens.number(what, number) for number in words if number not in ("(", ")")]
        if len(corners) < 4 or len(corners) % 2 == 1:
            raise tokens.fault(f"{what}: {word} has {len(corners)} numbers")
        xs += corners[0::2]
        ys += corners[1::2]

"""Reads the crates' sources, so far as our checks ask for it: functions with their contracts, and where definitions are cited.

It leans on the layout that `rt fmt` gives: an item begins at the start of a line, a member four blanks in, and each ends at a
line with its closing brace alone.
"""
import glob
import os
import re
from dataclasses import dataclass, field

TOP = os.path.dirname(os.path.dirname(os.path.abspath(__file__)))
FUNCTION = re.compile(r"(?P<indent> *)(?P<pub>pub(\([a-z]+\))? )?(const |unsafe )*fn (?P<name>\w+)")
USE = re.compile(r"(?:ghost )?use Rattle\.(\w+)\.specs\.([\w.]+)\.\{([^}]*)\}")


def crates():
    """The names of crates.txt, in order."""
    found = []
    for line in open(f"{TOP}/crates.txt", encoding="utf-8"):
        head, colon, _ = line.partition("#")[0].partition(":")
        if colon:
            found.append(head.split()[0])
    return found


def files(crate, part, ending):
    return sorted(glob.glob(f"{TOP}/crates/{crate}/{part}/**/*{ending}", recursive=True))


def is_test(path):
    return path.endswith("tests.rt") or "/tests/" in path


def imports(text):
    """What the import lines of a text bring in: each name, and the crate, module and name that it stands for."""
    found = {}
    for crate, module, names in USE.findall(text):
        for name in filter(None, (it.strip() for it in names.split(","))):
            real, _, other = name.partition(" as ")
            found[(other or real).strip()] = crate, module, real.strip()
    return found


@dataclass
class Function:
    name: str
    path: str
    line: int
    public: bool
    clauses: int = 0
    body: int = 0


@dataclass
class Source:
    """A file of code. Each line is part of a public promise, of a view or invariant of a public type, or private, or an import."""

    path: str
    lines: list
    kinds: list = field(default_factory=list)
    scopes: list = field(default_factory=list)
    functions: list = field(default_factory=list)

    def mark(self, begin, end, kind):
        for at in range(begin, end):
            if self.kinds[at] != "import":
                self.kinds[at] = kind


def exported(crate):
    """The names that a library's lib.rt hands out."""
    path = f"{TOP}/crates/{crate}/src/lib.rt"
    names = set()
    if os.path.isfile(path):
        for one in re.findall(r"^pub use ([^;]*);", open(path, encoding="utf-8").read(), re.M):
            names |= set(re.findall(r"\w+", one.partition("{")[2] or one.rpartition("::")[2]))
    return names


def end_of_block(lines, begin, indent):
    """The number of the line behind the item that begins there."""
    if lines[begin].rstrip().endswith(("}", ";")):
        return begin + 1
    for at in range(begin + 1, len(lines)):
        if lines[at].startswith(indent + "}") or lines[at] == indent + ");":
            return at + 1
    return len(lines)


def read_function(source, at, end, public, shown):
    """Marks the contract of the function that begins there, and gives the line behind it."""
    lines, head = source.lines, FUNCTION.match(source.lines[at])
    indent = head["indent"]
    made = Function(head["name"], source.path, at + 1, public)
    source.functions.append(made)
    body = at
    while body < end:
        line = lines[body].rstrip()
        own = line.startswith(indent) and line[len(indent) :][:1] not in ("", " ")
        if line == indent + "{" or own and line.endswith("{"):
            break
        if line.endswith(";") or own and line.endswith("}"):
            break
        made.clauses += bool(re.match(indent + r"    (requires|ensures)\b", line))
        body += 1
    source.mark(at, min(body + 1, end), "public" if shown else "private")
    if not lines[body].rstrip().endswith("{"):
        return body + 1
    close = next((it for it in range(body + 1, end) if lines[it].rstrip() == indent + "}"), end)
    made.body = close - body - 1
    return close + 1


def read_members(source, begin, end, has_public, all_shown, views):
    """Reads the members of an impl or a trait. Those of a trait are all shown with it, and of an impl the public ones."""
    at = begin
    while at < end:
        line = source.lines[at]
        if FUNCTION.match(line):
            public = has_public and (all_shown or line.lstrip().startswith("pub fn") or line.lstrip().startswith("pub const fn"))
            at = read_function(source, at, end, public, public)
            continue
        ghost = re.match(r"    ghost (\w+)", line)
        if ghost and ghost[1] != "use":
            close = at
            while close < end and not source.lines[close].rstrip().endswith(";"):
                close += 1
            kind = "public" if has_public and all_shown else "private"
            if kind == "public" and views:
                kind = "view" if ghost[1] in ("view", "invariant") else kind
            source.mark(at, close + 1, kind)
            at = close
        at += 1


def impl_of(line):
    """The trait and the type of an impl's first line, by their last names."""
    rest, depth = line.partition("impl")[2], 0
    if rest.startswith("<"):
        for at, letter in enumerate(rest):
            depth += (letter == "<") - (letter == ">" and rest[at - 1] != "-")
            if not depth:
                rest = rest[at + 1 :]
                break
    rest = rest.strip()
    first, found, second = rest.partition(" for ")
    last = lambda text: (re.match(r"&?(?:'\w+ )?(?:mut )?([\w:]+)", text.strip()) or [None, ""])[1].rpartition("::")[2]
    return (last(first), last(second)) if found else (None, last(first))


def read_source(path, names, own_traits):
    """Reads a file of a crate that hands out these names and has these traits."""
    text = open(path, encoding="utf-8").read()
    lines = [re.sub(r"(^|\s)//.*$", "", it) for it in text.split("\n")]
    source = Source(path, lines, ["private"] * len(lines), [{}] * len(lines))
    for at, line in enumerate(lines):
        if re.match(r"\s*ghost use ", line):
            source.kinds[at] = "import"
    blocks, at = [], 0
    while at < len(lines):
        line = lines[at]
        if not line or line[0] in " }#)" or line.startswith(("use ", "ghost ", "mod ", "pub use ", "pub mod ")) and line.endswith(";"):
            at += 1
            continue
        if FUNCTION.match(line):
            name = FUNCTION.match(line)
            public = name["pub"] == "pub " and name["name"] in names
            end = read_function(source, at, len(lines), public, public)
            at = max(end, at + 1)
            continue
        end = end_of_block(lines, at, "")
        blocks.append((at, end))
        trait = re.match(r"(pub(?:\([a-z]+\))? )?(?:unsafe )?trait (\w+)", line)
        kind = re.match(r"(pub(?:\([a-z]+\))? )?(?:struct|enum|union) (\w+)", line)
        if trait:
            read_members(source, at + 1, end, trait[2] in names, True, False)
        elif line.startswith(("impl", "unsafe impl")):
            of, self_type = impl_of(line)
            shown = self_type in names and (of is None or of not in own_traits or of in names)
            read_members(source, at + 1, end, shown, of is not None, of == "Model")
        elif line.startswith("mod "):
            read_members(source, at + 1, end, False, False, False)
        elif kind and kind[2] in names:
            for inner in range(at, end):
                if lines[inner].lstrip().startswith("ghost "):
                    source.mark(inner, inner + 1, "public")
        at = max(end, at + 1)
    inside = {it: block for block in blocks for it in range(*block)}
    whole = imports("\n".join(it for at, it in enumerate(lines) if at not in inside))
    local = {block: {**whole, **imports("\n".join(lines[block[0] : block[1]]))} for block in blocks}
    source.scopes = [local[inside[at]] if at in inside else whole for at in range(len(lines))]
    return source


def sources(crate):
    """All files of a crate's code."""
    names, paths = exported(crate), files(crate, "src", ".rt")
    traits = {it for path in paths for it in re.findall(r"^(?:pub(?:\([a-z]+\))? )?trait (\w+)", open(path, encoding="utf-8").read(), re.M)}
    return [read_source(path, names, traits) for path in paths]

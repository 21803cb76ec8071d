"""Runs the program, and judges what a run leaves behind by the tables of docs/MESSAGES.md: for .ci/hostile and bench/fuzz.

The lines of the statuses 0 to 3 are read from the tables themselves, so a line that isn't there is none of the program's.
"""
from __future__ import annotations

import os
import re
import stat
import subprocess
from typing import Any, Callable, Dict, List, NamedTuple, Optional, Pattern, Sequence, Union

TOP = os.path.dirname(os.path.dirname(os.path.abspath(__file__)))
# The usage line before --out and --grid, of a program whose report has no line `wire`.
OLD_USAGE = b"usage: proud [--levels N] [--seats N] DESIGN\n"
WHOLE = "(?:0|[1-9][0-9]*)"
# What stands for a word in capitals. Any other is a whole number.
WORDS = {"KIND": "(?:aux|nodes|nets|wts|pl|scl|schedule)", "LINE": "[1-9][0-9]*", "NAME": "[^ \t\r\n]+",
         "D": WHOLE + r"(?:\.[0-9]{0,5}[1-9])?"}

Files = Dict[str, Union[bytes, str]]


class Run(NamedTuple):
    """How a run ended: its status, None where it had to be ended, and below 0 by a signal; and what stood on its outputs."""

    status: Optional[int]
    printed: bytes
    complained: bytes


class Due(NamedTuple):
    """What a run leaves where nothing is in its way: on standard output, and in the output file."""

    report: bytes
    placement: bytes


def program() -> str:
    """The program that the gate has built here, and bin/proud where there is none."""
    built = os.path.join(TOP, "crates", "proud_cli", "out", "proud_cli")
    return built if os.access(built, os.X_OK) else os.path.join(TOP, "bin", "proud")


def table() -> Dict[int, List[str]]:
    """The lines of each status from 0 to 3, as docs/MESSAGES.md has them."""
    lines: Dict[int, List[str]] = {status: [] for status in range(4)}
    status = -1
    with open(os.path.join(TOP, "docs", "MESSAGES.md"), encoding="utf-8") as file:
        for line in file:
            if line.startswith("## "):
                heading = re.match("## Status ([0-3]):", line)
                status = int(heading.group(1)) if heading else -1
            row = re.match(r"\| `((?:[^`|]|\\\|)*)` \|", line)
            if row and status >= 0:
                lines[status].append(row.group(1).replace(r"\|", "|"))
    return lines


def form(lines: Sequence[str]) -> str:
    """What matches these lines, one behind the other."""
    # The kind of a limit is a number.
    texts = [re.escape(line).replace(r"limit\ KIND", r"limit\ [1-6]") for line in lines]
    return "".join(re.sub("[A-Z]+", lambda word: WORDS.get(word.group(), WHOLE), text) + "\n" for text in texts)


TABLE = table()
USAGE = TABLE[1][0].encode() + b"\n"
FORMS: Dict[int, Pattern[bytes]] = {
    0: re.compile(f"(?:{form(TABLE[0])}|{form(TABLE[0][:2])})".encode()),
    1: re.compile(re.escape(USAGE) + b"|" + re.escape(OLD_USAGE)),
    **{status: re.compile("|".join(form([line]) for line in TABLE[status]).encode()) for status in (2, 3)},
}


def refusal_of(printed: bytes) -> Optional[str]:
    """The line of the table that a refusal has the form of."""
    return next((line for line in TABLE[2] if re.fullmatch(form([line]).encode(), printed)), None)


def files_of(folder: str) -> Files:
    """All that stands in a folder: the bytes of each file, and of what is no file what it is."""
    found: Files = {}
    for entry in os.scandir(folder):
        if entry.is_symlink():
            found[entry.name] = "a link to " + os.readlink(entry.path)
        elif entry.is_file():
            try:
                with open(entry.path, "rb") as file:
                    found[entry.name] = file.read()
            except PermissionError:
                found[entry.name] = "may not be read"
        else:
            found[entry.name] = stat.filemode(entry.stat().st_mode)
            if entry.is_dir():
                found.update({os.path.join(entry.name, name): value for name, value in files_of(entry.path).items()})
    return found


def start(words: Sequence[str], seconds: float, stdout: Any = subprocess.PIPE, before: Optional[Callable[[], None]] = None,
          folder: Optional[str] = None) -> Run:
    """Runs a command, and ends it when it takes longer; `before` is called in its process first."""
    with subprocess.Popen(words, stdin=subprocess.DEVNULL, stdout=stdout, stderr=subprocess.PIPE, preexec_fn=before,
                          cwd=folder) as process:
        try:
            printed, complained = process.communicate(timeout=seconds)
            return Run(process.returncode, printed or b"", complained)
        except subprocess.TimeoutExpired:
            process.kill()
            printed, complained = process.communicate()
            return Run(None, printed or b"", complained)


def is_front(text: Union[bytes, str, None], whole: bytes) -> bool:
    return isinstance(text, bytes) and whole.startswith(text)


def shortfalls(run: Run, before: Files, after: Files, output: Optional[str], due: Optional[Due] = None,
               shut: bool = False) -> List[str]:
    """What of a run isn't as the tables say.

    `output` is the name of the output file in the folder, None where it stands elsewhere; `due` what the design gives where
    that is known; `shut` says that nothing can be written to standard output.
    """
    if run.status is None:
        return ["it didn't end in time"]
    if run.status not in range(6):
        return [f"status {run.status} isn't one of the table: {run.complained[:200]!r}"]
    changed = sorted(name for name in {*before, *after} if before.get(name) != after.get(name))
    found = [f"{name} was changed" for name in changed if name != output]
    if run.complained:
        found.append(f"it complained: {run.complained[:200]!r}")
    if shut and run.printed:
        found.append("it printed where nothing can be printed")
    if run.status < 4 and not shut and not FORMS[run.status].fullmatch(run.printed):
        found.append(f"what it printed isn't of status {run.status}: {run.printed[:200]!r}")
    placement = after.get(output) if output is not None else None
    kept = output not in changed
    if run.status == 0:
        found += placed_shortfalls(run, placement, due, shut)
    elif run.status < 4 and not kept:
        found.append(f"the output file was changed with status {run.status}")
    elif run.status >= 4 and due is not None:
        found += cut_short_shortfalls(run, placement, kept or output is None, due, shut)
    return found


def placed_shortfalls(run: Run, placement: Union[bytes, str, None], due: Optional[Due], shut: bool) -> List[str]:
    found = ["it was placed, but the report can't have been printed"] if shut else []
    if not isinstance(placement, bytes):
        found.append("it was placed, but there is no placement")
    if due is not None and not shut and run.printed != due.report:
        found.append(f"it printed {run.printed!r} instead of {due.report!r}")
    if due is not None and isinstance(placement, bytes) and placement != due.placement:
        found.append("the placement isn't that of the design")
    return found


def cut_short_shortfalls(run: Run, placement: Union[bytes, str, None], kept: bool, due: Due, shut: bool) -> List[str]:
    """Of the statuses 4 and 5: a front of what was due, and the output file as before or with a front of its text."""
    found = []
    if not due.report.startswith(run.printed):
        found.append(f"it printed {run.printed[:200]!r}, which is no front of {due.report!r}")
    if not kept and not is_front(placement, due.placement):
        found.append("the output file is neither as before nor a front of the placement")
    # The report is printed when the file stands.
    if run.printed and placement != due.placement:
        found.append("it began the report, but the placement isn't whole")
    if run.status == 4 and not shut and run.printed == due.report:
        found.append("all was printed, and yet it ended with status 4")
    return found

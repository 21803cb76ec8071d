#!/usr/bin/env python3
"""Refuses the program one piece of memory after the other, and looks at how it ends and what it leaves.

In the N-th run of a case the N-th request for memory is refused, for N from 1 until a run makes no request of that number, or until
the time is over. Each run has to end as the case does with all memory, or with status 5, and to leave then what docs/MESSAGES.md
says: the files of the design as they were; the output file as it was, or with a front of its text; on standard output a front of
what is due, and nothing of a report before the output file is whole. With --onward all later requests are refused, too, as where
there is no more memory.

A small library in C stands before the program's malloc and realloc for that (LD_PRELOAD), so a C compiler has to be there.

Usage: bench/growths.py [--minutes M] [--from N] [--every K] [--onward] [--program FILE] [CASE ..]
"""
from __future__ import annotations

import argparse
import os
import shutil
import subprocess
import sys
import tempfile
import time
from collections import Counter
from typing import Dict, List, NamedTuple, Optional, Tuple

TOP = os.path.dirname(os.path.dirname(os.path.abspath(__file__)))
sys.dont_write_bytecode = True
sys.path.insert(0, os.path.join(TOP, ".ci"))

import outcome  # noqa: E402  the path comes first

SECONDS = 30
MEMORY = 5
# What stood in the output file before the run.
OLD = b"an older placement\n"
REFUSING = r"""
#include <errno.h>
#include <fcntl.h>
#include <stdlib.h>
#include <unistd.h>

extern void *__libc_malloc(size_t);
extern void *__libc_realloc(void *, size_t);

static long requests;

/* Whether this request is refused: none for the number 0. A file is made at that of the number. */
static int refused(void) {
    const char *number = getenv("REFUSED_NUMBER"), *told = getenv("REFUSED_TOLD");
    long at, this_one = __atomic_add_fetch(&requests, 1, __ATOMIC_SEQ_CST);
    if (!number || !told || !(at = atol(number)))
        return 0;
    if (this_one == at)
        close(open(told, O_WRONLY | O_CREAT, 0600));
    return this_one == at || (this_one > at && getenv("REFUSED_ONWARD"));
}

void *malloc(size_t size) {
    if (refused()) {
        errno = ENOMEM;
        return 0;
    }
    return __libc_malloc(size);
}

void *realloc(void *old, size_t size) {
    if (refused()) {
        errno = ENOMEM;
        return 0;
    }
    return __libc_realloc(old, size);
}
"""


class Case(NamedTuple):
    """A run: a design of designs/, the words before its name, and a change of one of its files: its ending, and a text for another.

    Where the words ask for a grid, that is placed, and the design's files lie there unread.
    """

    design: str
    words: Tuple[str, ...] = ()
    change: Optional[Tuple[str, bytes, bytes]] = None


CASES: Dict[str, Case] = {
    "one cell, one seat": Case("one_cell", ("--seats", "1")),
    "one cell, four seats": Case("one_cell", ("--seats", "4")),
    "weights and a macro, one seat": Case("macro_block", ("--seats", "1")),
    "weights and a macro, four seats": Case("macro_block", ("--seats", "4")),
    "a wide net, one seat": Case("wide_net", ("--seats", "1")),
    "a grid, one seat": Case("one_cell", ("--seats", "1", "--grid", "2,2,1")),
    "a bad schedule": Case("one_cell", ("--schedule", os.path.join(TOP, "designs", "macro_block", "macro_block.aux"))),
    "an empty schedule, two seats": Case("one_cell", ("--seats", "2", "--schedule", "/dev/null")),
    "other words": Case("one_cell", ("--seats", "0")),
    "a bad line": Case("one_cell", (), (".nodes", b"a 2 10\n", b"a 2\n")),
    "a cell that is too tall": Case("one_cell", (), (".nodes", b"a 2 10\n", b"a 2 11\n")),
    "a cell without a pad": Case("one_cell", ("--seats", "1"), (".nets", b"l B\na B\nNetDegree : 2 n1\na B\nr B\n",
                                                              b"a B\na B\nNetDegree : 2 n1\na B\na B\n")),
    "a cell without room": Case("one_cell", ("--seats", "1"), (".scl", b"NumSites : 10\n", b"NumSites : 1\n")),
    "an absent file": Case("one_cell", (), (".aux", b"a.pl", b"b.pl")),
    "an output file in no folder": Case("one_cell", ("--seats", "1", "--out", "/dev/null/a.pl")),
}


class Tried(NamedTuple):
    """A run, what stood in its folder behind it, and whether a request was refused."""

    run: outcome.Run
    files: outcome.Files
    refused: bool


class Bench:
    """A case in a folder of its own."""

    def __init__(self, case: Case, program: str, library: str, work: str, onward: bool) -> None:
        self.folder, self.told = os.path.join(work, "design"), os.path.join(work, "told")
        self.onward, self.command = onward, ["env", "LD_PRELOAD=" + library]
        shutil.rmtree(self.folder, ignore_errors=True)
        shutil.copytree(os.path.join(TOP, "designs", case.design), self.folder)
        aux = next(name for name in os.listdir(self.folder) if name.endswith(".aux"))
        self.output = aux[:-len("aux")] + "proud.pl"
        source = ["--out", os.path.join(self.folder, self.output)] if "--grid" in case.words else [os.path.join(self.folder, aux)]
        self.words = [program, *case.words, *source]
        if case.change is not None:
            ending, old, new = case.change
            path = os.path.join(self.folder, next(name for name in os.listdir(self.folder) if name.endswith(ending)))
            with open(path, "rb") as file:
                text = file.read()
            assert old in text, f"{path} has no {old!r}"
            self.write(path, text.replace(old, new))
        self.write(os.path.join(self.folder, self.output), OLD)
        self.before = outcome.files_of(self.folder)
        self.due = self.tried(0)

    @staticmethod
    def write(path: str, text: bytes) -> None:
        with open(path, "wb") as file:
            file.write(text)

    def tried(self, number: int) -> Tried:
        """The run in which the request of the number is refused, and none for 0."""
        self.write(os.path.join(self.folder, self.output), OLD)
        if os.path.exists(self.told):
            os.remove(self.told)
        onward = ["REFUSED_ONWARD=1"] if self.onward else []
        command = [*self.command, f"REFUSED_NUMBER={number}", "REFUSED_TOLD=" + self.told, *onward, *self.words]
        run = outcome.start(command, SECONDS)
        return Tried(run, outcome.files_of(self.folder), os.path.exists(self.told))

    def requests(self) -> int:
        """How many requests a run makes that gets all of them. With several seats they are not as many in each run."""
        made, more = 0, 1
        while self.tried(more).refused:
            made, more = more, 2 * more
        while more - made > 1:
            middle = (made + more) // 2
            made, more = (middle, more) if self.tried(middle).refused else (made, middle)
        return made

    def shortfalls(self, tried: Tried) -> List[str]:
        """What of a run isn't as it has to be."""
        run, due = tried.run, self.due.run
        if run.status not in (due.status, MEMORY) or not tried.refused and run.status != due.status:
            return [f"status {run.status}, due is {due.status}: {run.complained[:200]!r}"]
        found = [f"{name} was changed" for name in {*self.before, *tried.files}
                 if name != self.output and self.before.get(name) != tried.files.get(name)]
        if run.complained:
            found.append(f"it complained: {run.complained[:200]!r}")
        placement, whole = tried.files.get(self.output), self.due.files[self.output]
        if run.status == due.status:
            if run.printed != due.printed or placement != whole:
                found.append(f"it left something else with status {run.status}: {run.printed[:200]!r}, {placement!r:.200}")
            return found
        if not due.printed.startswith(run.printed):
            found.append(f"it printed {run.printed[:200]!r}, no front of {due.printed!r}")
        if placement != OLD and not outcome.is_front(placement, whole):
            found.append(f"the output file is neither as before nor a front of its text: {placement!r:.200}")
        if run.printed and placement != whole:
            found.append("it began to print, but the output file isn't whole")
        return found


def library_in(work: str) -> str:
    source, made = os.path.join(work, "refusing.c"), os.path.join(work, "refusing.so")
    with open(source, "w", encoding="utf-8") as file:
        file.write(REFUSING)
    subprocess.run(["cc", "-O2", "-shared", "-fPIC", "-o", made, source], check=True)
    return made


def try_all(name: str, bench: Bench, first: int, step: int, ends: float) -> int:
    """Refuses one request after the other, says what came of it, and answers how many runs fell short."""
    statuses: Counter[Optional[int]] = Counter()
    fell_short, number, left = 0, first, "cut off by the time"
    began, requests = time.monotonic(), bench.requests()
    if not requests:
        print(f"{name}: no request for memory was seen")
        return 1
    while time.monotonic() < ends:
        tried = bench.tried(number)
        found = bench.shortfalls(tried)
        if found:
            fell_short += 1
            print(f"  {name}: request {number}: {'; '.join(found)}")
        if not tried.refused:
            left = "all"
            break
        statuses[tried.run.status] += 1
        number += step
    told = ", ".join(f"status {status}: {count}" for status, count in sorted(statuses.items(), key=str))
    print(f"{name}: {sum(statuses.values())} of {requests} requests refused ({left}) in {time.monotonic() - began:.0f} s; due is status "
          f"{bench.due.run.status}; {told or 'no run'}; {fell_short} fell short", flush=True)
    return fell_short


def main() -> int:
    parser = argparse.ArgumentParser(description=__doc__, formatter_class=argparse.RawDescriptionHelpFormatter)
    parser.add_argument("--minutes", type=float, default=10, help="for all cases together, shared out among them")
    parser.add_argument("--from", type=int, default=1, dest="first", metavar="N")
    parser.add_argument("--every", type=int, default=1, metavar="K", help="refuse every K-th request alone")
    parser.add_argument("--onward", action="store_true", help="refuse all later requests, too")
    parser.add_argument("--program", default=outcome.program())
    parser.add_argument("cases", nargs="*", metavar="CASE", help="by default all: " + "; ".join(CASES))
    given = parser.parse_args()
    names = given.cases or list(CASES)
    if any(name not in CASES for name in names):
        parser.error("the cases are: " + "; ".join(CASES))
    ends, fell_short = time.monotonic() + given.minutes * 60, 0
    with tempfile.TemporaryDirectory() as work:
        library = library_in(work)
        for place, name in enumerate(names):
            bench = Bench(CASES[name], os.path.abspath(given.program), library, work, given.onward)
            now = time.monotonic()
            fell_short += try_all(name, bench, given.first, given.every, now + (ends - now) / (len(names) - place))
    return 1 if fell_short else 0


if __name__ == "__main__":
    sys.exit(main())

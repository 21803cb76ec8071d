#!/usr/bin/env python3
"""Makes a schedule for `proud --schedule`, for who studies chaotic relaxation, or tells what schedules do.

    schedules.py KIND --points P [--seats S] [--events N] [--seed K] >FILE
    schedules.py --report DESIGN [--seats S] [--events N] [--seed K]

KIND is one of
  random       each event is of a seat and a point drawn anew, a load or a renewal with equal chance
  round        seat after seat takes its own points in order: it loads the point before and the one behind, and renews the point
  one          the first seat alone takes all points in order, so that its view is always the newest
  stale        every seat renews the points in order and never loads: each mean is made of what the seat alone has written

The report plays a schedule of each kind on the x axis of a design from below, by the proved `step_bench` that the gate has
built, and prints for each how many events there were, the raises of each seat, and the share of the events that changed nothing.
The first seat makes no event there: it settles behind them, and its raises are what was left to do.
"""
from __future__ import annotations

import argparse
import os
import random
import subprocess
import sys
import tempfile
from typing import Callable, Dict, Iterator, List, Tuple

TOP = os.path.dirname(os.path.dirname(os.path.abspath(__file__)))
BENCH = os.path.join(TOP, "crates", "step_bench", "out", "step_bench")
Event = Tuple[str, int, int]


def at_random(points: int, seats: int, seed: int) -> Iterator[Event]:
    drawn = random.Random(seed)
    while True:
        yield drawn.choice(("load", "renew")), drawn.randrange(seats), drawn.randrange(points)


def in_turn(points: int, seats: int, seed: int) -> Iterator[Event]:
    while True:
        for step in range((points + seats - 1) // seats):
            for seat in range(seats):
                point = seat * points // seats + step
                if point < (seat + 1) * points // seats:
                    yield "load", seat, max(point - 1, 0)
                    yield "load", seat, min(point + 1, points - 1)
                    yield "renew", seat, point


def by_one(points: int, seats: int, seed: int) -> Iterator[Event]:
    while True:
        for point in range(points):
            yield "renew", 0, point


def stale(points: int, seats: int, seed: int) -> Iterator[Event]:
    while True:
        for point in range(points):
            for seat in range(seats):
                yield "renew", seat, point


KINDS: Dict[str, Callable[[int, int, int], Iterator[Event]]] = {
    "random": at_random, "round": in_turn, "one": by_one, "stale": stale}


def lines(kind: str, points: int, seats: int, events: int, seed: int, first: int = 0) -> Iterator[str]:
    """The lines of a schedule; its seats are counted from `first`."""
    made = KINDS[kind](points, seats, seed)
    for _ in range(events if points else 0):
        name, seat, point = next(made)
        yield f"{name} {seat + first} {point}\n"


def play(design: str, schedule: str, seats: int) -> Tuple[int, List[int]]:
    """How many points the design's x axis has, and the raises of each seat."""
    run = subprocess.run([BENCH, design, "0", "1", schedule, str(seats)], stdout=subprocess.PIPE, stderr=subprocess.DEVNULL,
                         check=True, text=True)
    told = [line.split() for line in run.stdout.splitlines()]
    points = next(int(words[1]) for words in told if words[0] == "reach")
    return points, [int(words[1]) for words in told if words[0] == "raises"]


def report(design: str, seats: int, events: int, seed: int) -> None:
    if not os.access(BENCH, os.X_OK):
        sys.exit("schedules.py: the gate hasn't built crates/step_bench here")
    with tempfile.TemporaryDirectory() as work:
        name = os.path.join(work, "schedule")
        open(name, "w").close()
        points, _ = play(design, name, seats + 1)
        print("| Schedule | Events | Raises of the seats | Changed nothing | Raises of settling |\n|---|---|---|---|---|")
        for kind in KINDS:
            with open(name, "w") as file:
                file.writelines(lines(kind, points, seats, events, seed, 1))
            _, raises = play(design, name, seats + 1)
            idle = events - sum(raises[1:])
            print(f"| {kind} | {events} | {' '.join(map(str, raises[1:]))} | {100 * idle / max(events, 1):.1f}% | {raises[0]} |")


def main() -> None:
    parser = argparse.ArgumentParser(description=__doc__, formatter_class=argparse.RawDescriptionHelpFormatter)
    parser.add_argument("kind", nargs="?", choices=KINDS)
    parser.add_argument("--report", metavar="DESIGN")
    parser.add_argument("--points", type=int)
    parser.add_argument("--seats", type=int, default=4)
    parser.add_argument("--events", type=int, default=10000)
    parser.add_argument("--seed", type=int, default=1)
    asked = parser.parse_args()
    if (asked.kind is None) == (asked.report is None) or (asked.kind is not None and asked.points is None):
        parser.error("give a KIND with --points, or --report DESIGN")
    if asked.report is not None:
        report(asked.report, asked.seats, asked.events, asked.seed)
    else:
        sys.stdout.writelines(lines(asked.kind, asked.points, asked.seats, asked.events, asked.seed))


if __name__ == "__main__":
    main()

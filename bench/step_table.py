#!/usr/bin/env python3
"""Prints a table of steps: step_table.py PROVED [BY_HAND], each a file of lines `STEP MICROSECONDS us`.

For each step, in the order in which it first comes: the median of its lines in milliseconds, its share of the medians of all
steps, and, where there is a second file, the median there and how many times as long the first one took.
"""
import statistics
import sys


def medians(name):
    times = {}
    with open(name) as file:
        for line in file:
            words = line.split()
            if len(words) > 2 and words[-1] == "us":
                times.setdefault(" ".join(words[:-2]), []).append(int(words[-2]) / 1000)
    return {step: statistics.median(them) for step, them in times.items()}


proved, *others = [medians(name) for name in sys.argv[1:]]
whole = sum(proved.values())
print("step".ljust(12) + "proved ms".rjust(12) + "share".rjust(8) + ("by hand ms".rjust(12) + "ratio".rjust(8)) * len(others))
for step, time in [*proved.items(), ("all", whole)]:
    line = step.ljust(12) + f"{time:12.2f}" + f"{100 * time / whole if whole else 0:7.1f}%"
    for other in others:
        by_hand = other.get(step, sum(other.values()))
        line += f"{by_hand:12.2f}" + (f"{time / by_hand:8.2f}" if by_hand else "       -")
    print(line)

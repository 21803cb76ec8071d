#!/usr/bin/env python3
"""Runs a command, such as `bash .ci/run`, and says what each crate cost in it.

    python3 bench/gate_cost.py bash .ci/run

Every second it looks at the prover's processes below the command and notes their processor time. At the end it prints, for
each crate in seconds of one processor: its proof, the proof of its tests, the check that its must-fail edits begin with, and
the edits, how many and together; and how long the whole took. What ends within a second of its last look is counted up to
that look. The command's output goes to standard error, and its exit status is this program's.
"""
import collections
import os
import re
import subprocess
import sys
import time

TICKS = os.sysconf("SC_CLK_TCK")


def read(path):
    try:
        with open(path, "rb") as it:
            return it.read()
    except OSError:
        return b""


def processes():
    """For each process: its parent, its processor seconds with those of its ended children, and its words."""
    found = {}
    for name in os.listdir("/proc"):
        if name.isdigit():
            fields = read(f"/proc/{name}/stat").rpartition(b")")[2].split()
            if len(fields) > 15:
                seconds = sum(int(it) for it in fields[11:15]) / TICKS
                words = read(f"/proc/{name}/cmdline").decode(errors="replace").split("\0")
                found[int(name)] = int(fields[1]), seconds, words
    return found


def below(found, top):
    """The processes that the top one began, and those that these began."""
    known, left = {top}, True
    while left:
        left = [it for it, (parent, _, _) in found.items() if parent in known and it not in known]
        known.update(left)
    return known


def kind_of(words, here):
    """What a prover's process works on: a crate and a kind of work."""
    if len(words) < 2 or not words[0].endswith("/rattle") or words[1] not in ("build", "check"):
        return None
    crate = words[words.index("--crate-name") + 1] if "--crate-name" in words else "?"
    if "--test" in words:
        return crate, "tests"
    kept = words[words.index("--incremental") + 1] if "--incremental" in words else ""
    if "rt-edits-" in kept:
        return crate, "seed" if re.search(r"/seed$", kept) else "edits"
    return crate, "proof" if here.startswith(os.getcwd()) else "edits"


def main(command):
    begun, costs = time.time(), {}
    run = subprocess.Popen(command, stdout=sys.stderr)
    while run.poll() is None:
        found = processes()
        for pid in below(found, run.pid):
            parent, seconds, words = found.get(pid, (0, 0, []))
            if parent in found and found[parent][2][:1] == words[:1] and words[:1] and words[0].endswith("/rattle"):
                continue
            try:
                kind = kind_of(words, os.readlink(f"/proc/{pid}/cwd"))
            except OSError:
                continue
            if kind:
                costs[pid] = kind, seconds
        time.sleep(1)
    table = collections.defaultdict(lambda: collections.defaultdict(list))
    for (crate, kind), seconds in costs.values():
        table[crate][kind].append(seconds)
    print(f"{'crate':14} {'proof':>6} {'tests':>6} {'seed':>6} {'edits':>10}")
    total = 0
    for crate, kinds in sorted(table.items()):
        sums = {kind: sum(each) for kind, each in kinds.items()}
        total += sum(sums.values())
        edits = f"{len(kinds['edits'])}: {sums.get('edits', 0):.0f}" if kinds["edits"] else ""
        print(f"{crate:14} {sums.get('proof', 0):6.0f} {sums.get('tests', 0):6.0f} {sums.get('seed', 0):6.0f} {edits:>10}")
    print(f"together {total / 60:.0f} processor minutes in {(time.time() - begun) / 60:.1f} minutes, status {run.returncode}")
    return run.returncode


if __name__ == "__main__":
    sys.exit(main(sys.argv[1:]))

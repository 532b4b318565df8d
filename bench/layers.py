#!/usr/bin/env python3
"""Prints the figures of single layers of docs/COSTS.md: it runs each benchmark of a single layer several times,
41 by default, all of them in turn, and prints of each the median with the least and the greatest, and how many pairs of
bare compare-exchanges of the same measurement the median is. It judges nothing.

    bench/layers.py [TIMES [PROGRAM]]     once `rt run` has built pif_bench; PROGRAM is crates/pif_bench/out/pif_bench

The status is 2 if there is no program, or the words are wrong.
"""

import os
import re
import statistics
import subprocess
import sys
from pathlib import Path

TOP = Path(__file__).resolve().parent.parent

# What follows them are races of the quick path and crowds at a desk, which bench/medians.py prints.
FIRST_RACE = "quick_pairs"


def layers_of(program):
    names = subprocess.run([program], stdout=subprocess.PIPE, text=True, check=True).stdout.split()
    return names[: names.index(FIRST_RACE)]


def measured(program, name):
    """The nanoseconds that one run prints, and the picoseconds of a bare pair where it prints them."""
    said = subprocess.run([program, name], stdout=subprocess.PIPE, text=True, check=True).stdout
    bare = re.search(r"bare pairs of (\d+) ps", said)
    return int(re.search(r": (\d+) ns$", said, re.M)[1]), int(bare[1]) if bare else None


def main():
    if sys.argv[1:] in (["-h"], ["--help"]):
        print(__doc__, end="")
        return 0
    words = sys.argv[1:]
    times = words[0] if words else "41"
    program = Path(words[1] if len(words) > 1 else TOP / "crates/pif_bench/out/pif_bench").resolve()
    if len(words) > 2 or not times.isdecimal() or int(times) < 1:
        print(__doc__, end="", file=sys.stderr)
        return 2
    if not os.access(program, os.X_OK):
        print("layers.py: there is no program %s; 'rt run' in crates/pif_bench builds it" % program, file=sys.stderr)
        return 2
    measure_all(int(times), program)
    return 0


def measure_all(times, program):
    """Runs each benchmark so many times, and prints the table."""
    names = layers_of(program)
    found, bare = {name: [] for name in names}, []
    for _ in range(times):
        for name in names:
            nanoseconds, pair = measured(program, name)
            found[name].append(nanoseconds)
            bare += [pair] if pair else []
    pair = statistics.median(bare) / 1000
    print(f"A pair of bare compare-exchanges took {pair:.1f} ns.\n")
    print("| Benchmark | ns | bare pairs |")
    print("|---|---|---|")
    for name, each in found.items():
        middle = statistics.median(each)
        print(f"| `{name}` | {middle:,.0f} ({min(each):,} to {max(each):,}) | {middle / pair:.1f} |")


if __name__ == "__main__":
    sys.exit(main())

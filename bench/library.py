#!/usr/bin/env python3
"""Runs the benchmark of the C library and that of a core by turns, 21 times, and prints of each the least and the median,
and for pairs how many times that of the core the library's is. Where other programs run, only the least is worth
something, and of ratios the one of two medians. It judges nothing.

    bench/library.py [TIMES]        once `make -C c bench` has built the one, and `rt run` in crates/pif_bench the other

The status is 2 if one of them isn't there, or the words are wrong.
"""

import os
import re
import statistics
import subprocess
import sys
from pathlib import Path

TOP = Path(__file__).resolve().parent.parent
LIBRARY, CORE = TOP / "c" / "out" / "bench", TOP / "crates" / "pif_bench" / "out" / "pif_bench"
PAIRS = ("stalled_pair", "robust_pair")

# The rounds of one run of the library's.
ROUNDS = 21

FIGURE = re.compile(r"^(\w+): ([\d.]+) ns", re.M)


def figures(*words):
    """The figures of a run, by what they are of."""
    done = subprocess.run([str(word) for word in words], stdout=subprocess.PIPE, text=True, check=True)
    return {name: float(figure) for name, figure in FIGURE.findall(done.stdout)}


def shown(values):
    return "%.1f ns, median %.1f ns" % (min(values), statistics.median(values))


def main():
    if sys.argv[1:] in (["-h"], ["--help"]):
        print(__doc__, end="")
        return 0
    times, *more = sys.argv[1:] or ["21"]
    if more or not times.isdecimal() or int(times) < 1:
        print(__doc__, end="", file=sys.stderr)
        return 2
    for program in (LIBRARY, CORE):
        if not os.access(program, os.X_OK):
            print("library.py: there is no program %s; see --help" % program, file=sys.stderr)
            return 2
    library, core = [], []
    for _ in range(int(times)):
        library.append(figures(LIBRARY, ROUNDS))
        core.append({name: figure for pair in PAIRS for name, figure in figures(CORE, pair).items()})
    print("event, library: %s" % shown([run["event"] for run in library]))
    for pair in PAIRS:
        ours, theirs = [run[pair] for run in library], [run[pair] for run in core]
        print("%s, library: %s" % (pair, shown(ours)))
        print("%s, core: %s" % (pair, shown(theirs)))
        print("%s, library to core: %.2f of the least, %.2f of the medians"
              % (pair, min(ours) / min(theirs), statistics.median(ours) / statistics.median(theirs)))
    return 0


if __name__ == "__main__":
    sys.exit(main())

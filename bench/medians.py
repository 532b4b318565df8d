#!/usr/bin/env python3
"""Runs bench/run.sh several times, 11 by default, and prints each of its lines once, with the median of each figure and in
brackets the least and the greatest. docs/COSTS.md has what it printed. It judges nothing.

    bench/medians.py [TIMES]        once ./pif --prove has built the program

The status is 2 if bench/run.sh doesn't come to its end, which says why, or the words are wrong.
"""

import re
import statistics
import subprocess
import sys
from pathlib import Path

RUN = Path(__file__).resolve().parent / "run.sh"
# a figure stands by itself: no digits of names such as `end_10`
FIGURE = re.compile(r"(?<![\w.])\d+(?:\.\d+)?(?![\w.])")


def figures(text):
    """The lines of a run by their texts without figures, each with its figures; a text that comes again is told apart."""
    found = {}
    for line in text.splitlines():
        key = FIGURE.sub("#", line)
        while key in found:
            key += " "
        found[key] = [float(figure) for figure in FIGURE.findall(line)]
    return found


def shown(value):
    return f"{value:,.0f}" if value >= 100 or value == int(value) else f"{value:.2f}"


def spread(values):
    least, greatest = min(values), max(values)
    if least == greatest:
        return shown(least)
    return f"{shown(statistics.median(values))} ({shown(least)} to {shown(greatest)})"


def main():
    if sys.argv[1:] in (["-h"], ["--help"]):
        print(__doc__, end="")
        return 0
    times, *more = sys.argv[1:] or ["11"]
    if more or not times.isdecimal() or int(times) < 1:
        print(__doc__, end="", file=sys.stderr)
        return 2
    runs = []
    for _ in range(int(times)):
        done = subprocess.run([RUN], stdout=subprocess.PIPE, stderr=subprocess.STDOUT, text=True, check=False)
        if done.returncode:
            print(done.stdout, end="", file=sys.stderr)
            return 2
        runs.append(figures(done.stdout))
    for key in runs[0]:
        columns = zip(*(run[key] for run in runs if key in run))
        texts = iter([spread(column) for column in columns])
        print(re.sub("#", lambda _: next(texts, "#"), key).rstrip())
    return 0


if __name__ == "__main__":
    sys.exit(main())

#!/usr/bin/env python3
"""Prints where the processor seconds of a crate's check go, by kind of module.

    cd the top of a clone && python3 bench/check_kinds.py [--functions N] CRATE ..

The libraries below each crate have to be built, as `rt check` in its folder leaves them. A check writes each module that
it has made to a file below TMPDIR. This looks four times a second which files are there, and what was spent when each
was written. A line has a kind of module, its processor seconds, and how many of that kind there are:

    before       all that comes before the first module: the front end, and the interfaces of the libraries
    libraries    what is written of the libraries below
    specs, lemmas, contracts    the crate's definitions, its files of lemmas and answers, and the clauses of its functions
    interface    what other crates can cite
    Lts, Proof, ..    the modules of that name that are made for each function. Lts has what the borrow checker knows of
                 each place at each step of the function, and Proof the proof of its contract
    other        kinds that took less than a two-hundredth each

`--functions N` prints the N dearest functions as well. The figures are of one job and one run, and of no test. Standard
error has what the check says if it fails; the status is then 1.
"""
import argparse
import bisect
import collections
import os
import subprocess
import sys
import tempfile
import time
from pathlib import Path

from gate_cost import crates_in_order, load_rt

TICKS = os.sysconf("SC_CLK_TCK")
EACH = 0.25


def spent(process):
    """The processor seconds of a process, None if it has ended."""
    try:
        fields = Path(f"/proc/{process}/stat").read_text().rpartition(")")[2].split()
    except OSError:
        return None
    return (int(fields[11]) + int(fields[12])) / TICKS


def look(room, seen):
    """Notes when each file below the folder that is new was written."""
    for at, _, files in os.walk(room):
        for name in files:
            path = f"{at}/{name}"
            if path not in seen and name.endswith(".oantt"):
                try:
                    seen[path] = os.stat(path).st_mtime
                except OSError:
                    pass


def watched(words, folder, room):
    """Runs a check. Answers its status, what it said, when each module was written, and what was spent when."""
    seen, clock = {}, []
    with tempfile.TemporaryFile("w+", errors="replace") as said:
        run = subprocess.Popen(words, cwd=folder, env={**os.environ, "TMPDIR": room}, stdin=subprocess.DEVNULL,
                               stdout=said, stderr=subprocess.STDOUT)
        while run.poll() is None:
            look(room, seen)
            now = spent(run.pid)
            if now is not None:
                clock.append((time.time(), now))
            time.sleep(EACH)
        said.seek(0)
        return run.returncode, said.read(), seen, clock


def at_moment(clock, moment):
    """What was spent at a moment, between the two looks around it."""
    place = bisect.bisect(clock, (moment,))
    if place == 0:
        return 0.0
    if place == len(clock):
        return clock[-1][1]
    (before, low), (behind, high) = clock[place - 1 : place + 1]
    return low + (high - low) * (moment - before) / (behind - before)


def kind_of(crate, module):
    """The kind of a module, and the function for which it is made, if it is for one."""
    own = f"Rattle-{crate.name}"
    if not module.startswith((own + ".", own + "-")) and module != own:
        return "libraries", None
    rest = module[len(own) :]
    if rest.startswith("-specs.contracts"):
        return "contracts", None
    if rest.startswith("-specs"):
        return "specs", None
    if not rest.startswith("-proofs."):
        return "interface", None
    path = rest[len("-proofs.") :]
    if os.path.isfile(f"{crate.folder}/proofs/{path.replace('.', '/')}.antt"):
        return "lemmas", None
    function, _, kind = path.rpartition(".")
    return kind, function


def print_kinds(crate, seen, clock, most):
    """Prints what each kind took, and the dearest functions."""
    seconds, counts, functions = collections.Counter(), collections.Counter(), collections.Counter()
    last = None
    for path, moment in sorted(seen.items(), key=lambda it: it[1]):
        now = at_moment(clock, moment)
        kind, function = kind_of(crate, os.path.basename(path)[: -len(".oantt")])
        kind = "libraries" if os.path.basename(os.path.dirname(path)) == "carried" else kind
        seconds["before" if last is None else kind] += now - (last or 0)
        counts[kind] += 1
        if function:
            functions[function] += now - (last or 0)
        last = now
    whole = clock[-1][1]
    for kind in [kind for kind, took in seconds.items() if took < whole / 200]:
        seconds["other"] += seconds.pop(kind)
        counts["other"] += counts[kind]
    print(f"{crate.name}: {whole:.1f} s")
    for kind, took in seconds.most_common():
        print(f"    {kind}: {took:.1f} s, {100 * took / whole:.1f} %, {counts[kind]}")
    for function, took in functions.most_common(most):
        print(f"    {took:.1f} s {function}")


def main():
    parser = argparse.ArgumentParser(description=__doc__, formatter_class=argparse.RawDescriptionHelpFormatter)
    parser.add_argument("--functions", type=int, default=0, metavar="N")
    parser.add_argument("crates", nargs="+", metavar="CRATE")
    given = parser.parse_args()
    rt = load_rt()
    crates = crates_in_order(rt, os.getcwd())
    unknown = [name for name in given.crates if name not in crates]
    if unknown:
        sys.exit(f"check_kinds: crates.txt names no {unknown[0]}")
    failed = False
    for crate in map(crates.get, given.crates):
        words = [rt.rtlib.RATTLE, "check", *crate.words(["--jobs", "1"], keeps=False)]
        with tempfile.TemporaryDirectory(prefix="check-kinds-") as room:
            status, said, seen, clock = watched(words, crate.folder, room)
        if status == 0 and seen:
            print_kinds(crate, seen, clock, given.functions)
        else:
            print(f"{crate.name}: NOT MEASURED\n{said[-2000:]}", file=sys.stderr)
            failed = True
    return int(failed)


if __name__ == "__main__":
    sys.exit(main())

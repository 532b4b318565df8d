#!/usr/bin/env python3
"""Prints what the compiled code of a library has that a check has to prove, function by function.

    cd the top of a clone && python3 bench/check_steps.py CRATE            # each function, dearest first, and the callees
    cd the top of a clone && python3 bench/check_steps.py CRATE FUNCTION   # the steps of a function, by the end of its path

The library has to be built, as `rt check` in its folder leaves it. It takes no proof and no time. A line of the first form
has, of one function:

    weight       what its check costs, by a fit (WEIGHTS): a step that is neither a call nor a `?` has 1
    calls        calls of functions and methods, without those of `?` and of drops
    ?            each stands for two calls, a branch, and a way out that drops what is owned
    drops        calls that drop a value, at all ways out
    steps        assignments, branches and borrows
    locals       variables and temporaries

The fit is one of processor seconds to such counts, over all functions of pif_posix and of pif_search.
"""
import argparse
import collections
import json
import sys
from pathlib import Path

# Of a `?`, a call, a drop, and a function by itself, to that of another step.
WEIGHTS = {"?": 17, "calls": 4, "drops": 1, "function": 3}
STEPS = ("Assign", "Switch", "If", "LendStatic")


def callee(call):
    """The name of what a call calls, None if it is a method by a bound or a value."""
    if isinstance(call, dict):
        named = call.get("Fn")
        while isinstance(named, list):
            named = named[0]
        if isinstance(named, dict):
            named = named.get("name")
        return named or next(filter(None, map(callee, call.values())), None)
    if isinstance(call, list):
        return next(filter(None, map(callee, call)), None)
    return None


def code_of(crate):
    """The functions of a built library: their names below the crate, and their code."""
    made = Path("crates", crate, "out/rlib", f"{crate}.rlib", "toolchain/mir.json")
    if not made.is_file():
        sys.exit(f"check_steps: {crate} is no library here, or is not built: rt check in crates/{crate} builds it")
    own = f"{crate}::"
    return [(name[len(own) :], code) for name, code in json.loads(made.read_text())
            if name.startswith(own) and not name.endswith("+decl")]


def kind_and_name(step):
    """What a step is, and what it calls if it is a call."""
    if isinstance(step, str):
        return step, None
    kind = next(iter(step))
    return kind, (callee(step[kind]) or "a method by a bound") if kind == "Call" else None


def counts_of(code):
    """How often each kind of step stands in a function's code, and each callee."""
    counts, callees = collections.Counter(), collections.Counter()
    for kind, name in map(kind_and_name, code["body"]):
        counts["steps"] += kind in STEPS
        if name:
            callees[name] += 1
            counts["?"] += name.endswith("Try::branch")
            counts["drops"] += name.endswith("::drop")
    counts["calls"] = sum(callees.values()) - 2 * counts["?"] - counts["drops"]
    counts["steps"] -= 3 * counts["?"]
    counts["locals"] = len(code["locals"])
    counts["function"] = 1
    counts["weight"] = counts["steps"] + sum(WEIGHTS[it] * counts[it] for it in WEIGHTS)
    return counts, callees


def main():
    parser = argparse.ArgumentParser(description=__doc__, formatter_class=argparse.RawDescriptionHelpFormatter)
    parser.add_argument("crate")
    parser.add_argument("function", nargs="?")
    given = parser.parse_args()
    functions = code_of(given.crate)
    if given.function:
        wanted = [(name, code) for name, code in functions if name.endswith(given.function)]
        for name, code in wanted:
            print(name)
            for kind, called in map(kind_and_name, code["body"]):
                if kind not in ("Seq", "Skip", "Block"):
                    print(f"    {kind} {called or ''}".rstrip())
        return int(not wanted)
    columns = ("weight", "calls", "?", "drops", "steps", "locals")
    rows, callees, whole = [], collections.Counter(), collections.Counter()
    for name, code in functions:
        counts, called = counts_of(code)
        rows.append((counts, name))
        callees += called
        whole += counts
    print(*(f"{it:>6}" for it in columns), " function")
    for counts, name in sorted(rows, key=lambda row: -row[0]["weight"]) + [(whole, f"all {len(rows)}")]:
        print(*(f"{counts[it]:6}" for it in columns), f" {name}")
    for name, times in callees.most_common(40):
        print(f"{times:6}  {name}")
    return 0


if __name__ == "__main__":
    sys.exit(main())

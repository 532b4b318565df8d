#!/usr/bin/env python3
"""Prints what `rt ci` costs: processor seconds of each crate's proof, tests and must-fail edits.

    cd the top of a clone && python3 bench/gate_cost.py [--jobs N] [--parts proof,tests,edits] [--edits NAME,..] [CRATE ..]
    .. && python3 bench/gate_cost.py --since COMMIT [the same]

With no crate, those of crates.txt in their order, so that a crate is proved after those that it stands on. Each part is
done as `rt ci` does it, by the toolchain's own `rt`: a proof starts from nothing, tests are proved over a proof from
nothing and built, and a crate's edits begin with one more proof of it. A part that can't be built, or that stands on a crate
without a library, is named as such and in no sum; the status is then 1. It is no test: the gate alone judges. Last come
the sums, and the longest chain: the crates that have to be proved one after the other, with the tests or edits of the last.

With `--since COMMIT` two clones are made, of that commit and of HEAD, and each part is measured in one right after the
other, so that what else the machine does falls on both alike. Crates that were renamed or merged since are measured
under the names that they had (RENAMED). An `rt` that has no seeded edits tries those of a crate by `rt must-fail` at once.

What the toolchain says goes to standard error, the figures to standard output. The clock of a machine differs by two from
day to day and with what else runs, so compare figures of one measurement on a quiet machine.
"""
import argparse
import importlib.machinery
import importlib.util
import os
import re
import resource
import shutil
import subprocess
import sys
import tempfile

PARTS = ("proof", "tests", "edits")
MEASURED = re.compile(r"(\w+) (proof|tests|edits): ([0-9.]+) s$")
# The names that crates had before they were named by layers; several were merged into one.
RENAMED = {
    "pif_posix_steps": ["pif_posix_model", "pif_alike_model", "pif_independence_model"],
    "pif_posix": ["pif_posix", "pif_posix_rules"],
    "pif_history_model": [
        "pif_history_model",
        "pif_allow_model",
        "pif_reduction_model",
        "pif_known_model",
        "pif_wakeups_model",
        "pif_lazy_model",
    ],
    "pif_history_machine": ["pif_history_machine", "pif_history_lines", "pif_allow_machine"],
    "pif_history": ["pif_history", "pif_history_scene", "pif_history_exact", "pif_allow"],
    "pif_explore_model": ["pif_explore_model", "pif_explore_reduced_model", "pif_explore_uses_model"],
    "pif_model_lemmas": ["pif_chains"],
    "pif_model_simulation": ["pif_simulation", "pif_calls"],
    "pif_nodes_model": ["pif_lists"],
    "pif_kernel_model": ["pif_owners", "pif_kernel_state"],
    "pif_kernel": ["pif_kernel", "pif_kernel_chains", "pif_kernel_steps", "pif_kernel_refusals"],
    "pif_chains_linked": ["pif_linked"],
    "pif_core_callers": ["pif_uses"],
    "pif_text": ["pif_text", "pif_text_json"],
    "pif_text_errors": ["pif_slips"],
    "pif_text_core": ["pif_text_core", "pif_show", "pif_waiting"],
    "pif_script_model": ["pif_script_model", "pif_story_model", "pif_watch"],
    "pif_script": ["pif_reading"],
    "pif_story": ["pif_story_texts"],
    "pif_job_run": ["pif_job_run", "pif_job_trace", "pif_scripts", "pif_job_show", "pif_shows"],
    "pif_job_replay": ["pif_replays"],
    "pif_job_check": ["pif_stories"],
    "pif_story_drawing": ["pif_story_drawing", "pif_drawing"],
    "pif_job_draw": ["pif_job_draw", "pif_pictures"],
    "pif_job_random": ["pif_random"],
    "pif_job_shell": ["pif_sessions", "pif_shell"],
    "pif_history_told": ["pif_history_told", "pif_history_run"],
    "pif_job_judge": ["pif_job_judge", "pif_job_least"],
    "pif_job_explore": ["pif_job_explore", "pif_explore_core"],
    "pif_job_drive": ["pif_drive"],
    "pif_cli_words": ["pif_arguments"],
    "pif_test_core": [
        "pif_test_core",
        "pif_test_calls",
        "pif_test_foundation",
        "pif_call_tests",
        "pif_foundation_tests",
        "pif_test_quick",
        "pif_test_desk",
        "pif_test_drive",
        "pif_core_tests",
        "pif_quick_tests",
        "pif_thread_tests",
        "pif_drive_tests",
    ],
    "pif_test_jobs": [
        "pif_test_jobs",
        "pif_test_scripts",
        "pif_test_histories",
        "pif_test_streams",
        "pif_test_posix",
        "pif_test_rules",
        "pif_test_explore",
        "pif_test_search",
        "pif_script_tests",
        "pif_program_tests",
    ],
    "pif_test_blocks": ["pif_blocks"],
}


def load_rt():
    """The program `rt` as a module."""
    found = shutil.which("rt")
    if not found:
        sys.exit("gate_cost: there is no rt on the path")
    program = os.path.realpath(found)
    sys.path.insert(0, os.path.dirname(program))
    sys.dont_write_bytecode = True
    loader = importlib.machinery.SourceFileLoader("rt_program", program)
    module = importlib.util.module_from_spec(importlib.util.spec_from_loader("rt_program", loader))
    sys.modules["rt_program"] = module
    loader.exec_module(module)
    return module


def processor_seconds():
    """What all children that have ended spent so far."""
    usage = resource.getrusage(resource.RUSAGE_CHILDREN)
    return usage.ru_utime + usage.ru_stime


class Measurement:
    """One run over some crates; keeps the sums, and which parts could not be measured."""

    def __init__(self, rt, jobs, figures):
        self.rt = rt
        self.jobs = ["--jobs", str(jobs)]
        self.figures = figures
        self.sums = dict.fromkeys(PARTS, 0.0)
        self.chains = {}
        self.failed = []

    def say(self, text):
        print(text, file=self.figures, flush=True)

    def fail(self, name, part, why):
        self.failed.append(f"{name} {part}")
        self.say(f"{name} {part}: NOT MEASURED: {why}")

    def timed(self, name, part, work):
        """Measures a part; `work` answers why it could not be built, or nothing."""
        before = processor_seconds()
        why = work()
        spent = processor_seconds() - before
        if why:
            self.fail(name, part, why)
            return 0.0
        self.sums[part] += spent
        self.say(f"{name} {part}: {spent:.1f} s")
        return spent

    def build(self, crate, tests):
        return "it could not be built" if crate.ci(self.jobs, tests) else None

    def edits(self, crate, wanted):
        """Tries a crate's edits as the gate does: each over what one more check of the crate proved."""
        if not hasattr(self.rt, "seeded"):
            return self.edits_at_once(crate)
        room = self.rt.seeded(crate, self.jobs)
        if not room:
            return "the check that its edits begin with did not end well"
        bad = []
        try:
            for edit in self.rt.edits_of(crate)[0]:
                name = os.path.basename(edit)
                if wanted and not name.startswith(wanted):
                    continue
                before = processor_seconds()
                over = f"{room}/{name}"
                self.rt.linked(f"{room}/seed", over)
                kind, said = self.rt.must_fail(crate, edit, self.jobs, over)
                shutil.rmtree(over, ignore_errors=True)
                is_refused = kind in (self.rt.REFUSED, self.rt.AT_LIMIT)
                if not is_refused:
                    bad.append(f"{name} ({kind})")
                    print(said, file=sys.stderr)
                self.say(f"  {name}: {processor_seconds() - before:.1f} s{'' if is_refused else f'  NOT REFUSED: {kind}'}")
        finally:
            shutil.rmtree(room, ignore_errors=True)
        return f"not refused: {', '.join(bad)}" if bad else None

    def edits_at_once(self, crate):
        """Tries all edits of a crate by `rt must-fail`, for an `rt` that has no seeded edits."""
        done = subprocess.run(["rt", "must-fail"], cwd=crate.folder, stdout=sys.stderr, check=False)
        return "rt must-fail says that not all are refused" if done.returncode else None

    def crate(self, crate, parts, wanted):
        os.makedirs(os.path.join(crate.folder, "out"), exist_ok=True)
        has = {"proof": True, "tests": crate.has_tests(), "edits": bool(self.rt.edits_of(crate)[0])}
        work = {
            "proof": lambda: self.build(crate, False),
            "tests": lambda: self.build(crate, True),
            "edits": lambda: self.edits(crate, wanted),
        }
        lacking = [below.name for below in crate.below() if not os.path.isdir(f"{below.folder}/out/rlib")]
        proof, rest = 0.0, [0.0]
        for part in PARTS:
            if part in parts and has[part]:
                if lacking:
                    self.fail(crate.name, part, f"there is no library of {', '.join(lacking)}")
                elif part == "proof":
                    proof = self.timed(crate.name, part, work[part])
                else:
                    rest.append(self.timed(crate.name, part, work[part]))
        # the dearest way of proofs to this crate's own, and what comes behind it at most: its tests or its edits
        below = max((self.chains.get(it.name, ((), 0.0, 0.0))[:2] for it in crate.below()), key=lambda it: it[1], default=((), 0.0))
        self.chains[crate.name] = ((*below[0], crate.name), below[1] + proof, max(rest))

    def total(self):
        each = ", ".join(f"{part} {seconds / 60:.1f}" for part, seconds in self.sums.items())
        self.say(f"minutes: {each}, together {sum(self.sums.values()) / 60:.1f}")
        names, proofs, rest = max(self.chains.values(), key=lambda it: it[1] + it[2])
        self.say(f"longest chain: {proofs + rest:.0f} s, {proofs:.0f} of them proofs: {' '.join(names)}")
        if self.failed:
            self.say(f"not measured, and in no sum: {', '.join(self.failed)}")


def names_of(top):
    """The crates of crates.txt, in their order."""
    with open(os.path.join(top, "crates.txt"), encoding="utf-8") as lines:
        return [line.split(":")[0].split()[0] for line in lines if ":" in line and line[0] != "#"]


def crates_in_order(rt, top):
    """The crates of crates.txt, lowest first, by name."""
    rt.Crate.cuts_libraries = True
    rt.rtlib.guarded()
    rt.Crate.allowed = rt.handles_of(top)
    rt.rtlib.Crate = rt.Crate
    found = {crate.name: crate for crate in rt.rtlib.crates_below(top)}
    return {name: found[name] for name in names_of(top)}


def clone_of(top, commit, folder):
    subprocess.run(["git", "clone", "-q", top, folder], check=True)
    subprocess.run(["git", "-C", folder, "checkout", "-q", commit], check=True)
    return folder


def measured(clone, name, chosen):
    """What one crate costs in one clone, by part, and what could not be measured, by a run of this program in it."""
    words = [sys.executable, os.path.realpath(__file__), "--jobs", str(chosen.jobs), "--parts", chosen.parts]
    words += ["--edits", chosen.edits, name]
    done = subprocess.run(words, cwd=clone, stdout=subprocess.PIPE, text=True, check=False)
    found = {}
    for line in done.stdout.splitlines():
        match = MEASURED.match(line)
        if match:
            found[match[2]] = float(match[3])
    return found, [line for line in done.stdout.splitlines() if "NOT" in line]


def names_before(name, old):
    """The names under which the older clone has what this crate is now."""
    return [it for it in RENAMED.get(name, [name]) if it in old] or [it for it in [name] if it in old]


def in_turn(old, new):
    """The crates of both clones, each as often as it stands in one; those of the older clone that are gone in their place."""
    went_on = {it for name in new for it in names_before(name, old)}
    order = list(new)
    for name in (it for it in old if it not in went_on):
        before = old[: old.index(name)]
        place = max((order.index(other) + 1 for other in before if other in order), default=0)
        order.insert(place, name)
    return order


def added(costs):
    """The figures of several crates as those of one."""
    parts = dict.fromkeys(part for found, _ in costs for part in found)
    return {part: sum(found.get(part, 0.0) for found, _ in costs) for part in parts}, [line for _, bad in costs for line in bad]


def compare(chosen):
    """Measures the crates of an older commit and of HEAD in turn, and prints both figures of each part."""
    top = os.getcwd()
    with tempfile.TemporaryDirectory(prefix="gate-cost-clones-") as room:
        clones = [clone_of(top, chosen.since, f"{room}/old"), clone_of(top, "HEAD", f"{room}/new")]
        there = [names_of(clone) for clone in clones]
        sums, failed = [dict.fromkeys(PARTS, 0.0) for _ in clones], []
        for name in chosen.crates or in_turn(*there):
            costs = []
            named = names_before(name, there[0]), [name] if name in there[1] else []
            for clone, names, total in zip(clones, named, sums):
                found, bad = added([measured(clone, it, chosen) for it in names])
                failed += [f"{os.path.basename(clone)}: {line.strip()}" for line in bad]
                costs.append(found)
                for part, seconds in found.items():
                    total[part] += seconds
            for part in PARTS:
                if any(part in found for found in costs):
                    shown = [f"{found[part]:.1f} s" if part in found else "none" for found in costs]
                    print(f"{name} {part}: {shown[0]} before, {shown[1]} after", flush=True)
        for part in PARTS:
            print(f"minutes of {part}: {sums[0][part] / 60:.1f} before, {sums[1][part] / 60:.1f} after")
        both = [sum(total.values()) / 60 for total in sums]
        print(f"minutes together: {both[0]:.1f} before, {both[1]:.1f} after")
        for line in failed:
            print(line)
    return 1 if failed else 0


def main():
    words = argparse.ArgumentParser(description="What the gate costs, crate by crate.")
    words.add_argument("--jobs", type=int, default=1, help="jobs of each check (1)")
    words.add_argument("--parts", default=",".join(PARTS), help="some of proof,tests,edits")
    words.add_argument("--edits", default="", help="only edits whose names begin so, joined by commas")
    words.add_argument("--since", metavar="COMMIT", help="measure that commit and HEAD in turn, each in a clone of its own")
    words.add_argument("crates", nargs="*", metavar="CRATE")
    chosen = words.parse_args()
    if not os.path.exists("crates.txt"):
        sys.exit("gate_cost: run it at the top of a clone, where crates.txt stands")
    if chosen.since:
        return compare(chosen)
    figures = os.fdopen(os.dup(1), "w")
    os.dup2(2, 1)
    rt = load_rt()
    crates = crates_in_order(rt, os.getcwd())
    unknown = [name for name in chosen.crates if name not in crates]
    if unknown:
        sys.exit(f"gate_cost: crates.txt has no {', '.join(unknown)}")
    measurement = Measurement(rt, chosen.jobs, figures)
    wanted = tuple(filter(None, chosen.edits.split(",")))
    for name in chosen.crates or crates:
        measurement.crate(crates[name], chosen.parts.split(","), wanted)
    measurement.total()
    return 1 if measurement.failed else 0


if __name__ == "__main__":
    sys.exit(main())

"""How schedules are looked for: by seeds, each with few preemptions, and with fewer switches than one that is known."""

import itertools
import sys

from scheduling import TOP, Choice, Refused

MOST_IN_PAIRS = 40


# A mix takes these in turn, by the seed, each with its depth of bugs.
MIX = (("random", 1), ("pct", 2), ("pct", 3))


def of_mix(asked):
    strategy, depth = MIX[asked.seed % len(MIX)]
    return asked._replace(strategy=strategy, depth=depth)


def by_seeds(program, asked, runs):
    """Runs by seeds, one after another: what was asked, and the run."""
    is_mix = asked.strategy == "mix"
    if is_mix or asked.strategy == "pct":  # its changes are drawn among the points of a run without switches
        asked = asked._replace(length=max(1, program.run(asked._replace(strategy="stay", ends=0, spurious=0)).points))
    for number in range(runs):
        one = asked._replace(seed=asked.seed + number)
        one = of_mix(one) if is_mix else one
        yield one, program.run(one)


class Point:
    """A point of the run that is looked at: its options, the usual one first, and the place of the one that is chosen."""

    def __init__(self, usual: Choice):
        others = [usual.instead("go", thread) for thread in usual.can]
        others += [usual.instead("end", thread) for thread in usual.may_end]
        others += [usual.instead("wake", thread) for thread in usual.may_wake]
        others += [usual.with_instead("by " + way) for way in usual.ways]
        self.options = [usual] + [other for other in others if other.line != usual.line]
        self.counts = [counts_of(option) for option in self.options]
        self.chosen = 0

    def choice(self):
        return self.options[self.chosen]


def counts_of(choice):
    """What a choice counts: preemptions, ends and wake-ups by themselves."""
    return int(choice.is_preemption()), int(choice.kind == "end"), int(choice.kind == "wake")


def successor():
    """The function of libpif that says which schedule is next."""
    sys.path.insert(0, str(TOP / "python"))
    try:
        from pif import next_schedule
    except ImportError as why:
        raise Refused(str(why)) from None
    return next_schedule


def every_one(program, asked, preemptions):
    """Each schedule with at most so many preemptions, once: depth first, the usual choice first. The library says which
    one is next."""
    asked = asked._replace(strategy="stay", each=asked.ends + asked.spurious > 0)
    bound = (preemptions, asked.ends, asked.spurious)
    next_schedule, path = successor(), []
    while True:
        run = program.run(asked, [point.choice() for point in path])
        yield asked, run
        path += [Point(choice) for choice in run.choices[len(path):]]
        change = next_schedule(bound, [(point.counts, point.chosen) for point in path])
        if change is None:
            return
        kept, option = change
        del path[kept + 1:]
        path[kept].chosen = option


def size(run):
    """What makes a schedule hard to read."""
    return run.preemptions(), sum(not choice.is_usual() for choice in run.choices)


def unusual(run):
    return [choice for choice in run.choices if not choice.is_usual()]


class Shrinking:
    """Looks for a run that fails in the same way with fewer unusual choices, by leaving some out."""

    def __init__(self, program, asked, run):
        self.program, self.asked = program, asked._replace(strategy="stay", loose=True)
        self.best, self.runs = run, 0

    def is_better_without(self, left_out):
        """Whether the best run can be made better by leaving these out of its unusual choices."""
        kept = [choice for number, choice in enumerate(unusual(self.best)) if number not in left_out]
        tried = self.program.run(self.asked, kept)
        self.runs += 1
        is_better = tried.kind == self.best.kind and size(tried) < size(self.best)
        if is_better:
            self.best = tried
        return is_better

    def leave_out_parts(self):
        """Parts that stand together, the largest first."""
        part = max(1, len(unusual(self.best)) // 2)
        while part >= 1:
            at = 0
            while at < len(unusual(self.best)):
                if not self.is_better_without(range(at, at + part)):
                    at += part
            part //= 2

    def leave_out_pairs(self):
        """Any two at once, as one may make up for the other; whether that helped."""
        pairs = itertools.combinations(range(min(len(unusual(self.best)), MOST_IN_PAIRS)), 2)
        return any(self.is_better_without(pair) for pair in pairs)


def fewer(program, asked, run):
    """The best run that was found, and how many were tried."""
    shrinking = Shrinking(program, asked, run)
    shrinking.leave_out_parts()
    while shrinking.leave_out_pairs():
        shrinking.leave_out_parts()
    return shrinking.best, shrinking.runs

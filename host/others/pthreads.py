"""The batches of a C library: mutexes of each kind, robust or not, inheriting or not."""

import itertools

from others import RACES, Batch

KINDS = ("normal", "errorcheck", "recursive")

# Of each: with --plain (no inheritance) or without it.
HAMMERS = {
    "two threads, kinds": ["--threads", "2", "--mutexes", "1", "--calls", "40", "--kinds"],
    "three threads, kinds": ["--threads", "3", "--mutexes", "2", "--calls", "30", "--kinds", "--variables", "0"],
    "waits": ["--threads", "3", "--mutexes", "1", "--calls", "25", "--waits", "50", "--timed", "40"],
    "two variables, kinds": ["--threads", "4", "--mutexes", "2", "--variables", "2", "--calls", "20", "--waits", "40", "--kinds"],
    "robust, ends": ["--threads", "3", "--mutexes", "2", "--calls", "30", "--kinds", "--robust", "--ends", "5", "--variables", "0"],
    "robust, ends, waits": ["--threads", "3", "--mutexes", "2", "--calls", "25", "--kinds", "--robust", "--ends", "4"],
}

# These need priorities, which are lent: with inheritance alone.
FIFO_HAMMERS = {
    "SCHED_FIFO, kinds": ["--fifo", "--threads", "3", "--mutexes", "2", "--calls", "30", "--kinds", "--variables", "0"],
    "SCHED_FIFO, robust, ends, waits": ["--fifo", "--threads", "3", "--mutexes", "2", "--calls", "25", "--kinds", "--robust",
                                        "--ends", "3"],
}

# Name, whether robust mutexes are asked, whether others are, and whether those without inheritance are.
PROBES = (
    ("signal_at_a_timeout", False, True, True),
    ("timed_lock_of_pinned_threads", False, True, True),
    ("one_sleeps_and_one_tries", True, True, True),
    ("cycle_with_deadlines", False, True, True),
    ("held_300_times", True, True, True),
    ("wait_with_two_holds", True, True, True),
    ("owner_ends", True, False, True),
    ("owner_ends_with_two", True, False, True),
    ("owner_ends_with_two_and_one_waits", True, False, True),
    ("mutexes_of_an_end_pass_on_apart", True, False, True),
    ("wait_while_inconsistent", True, False, True),
    ("lost_for_good", True, False, True),
    ("lost_and_wanted_by_two", True, False, True),
    ("consistent_when_free", True, False, True),
    ("consistent_by_another", True, False, True),
    ("inconsistent_held_twice", True, False, True),
    ("signaller_ends", True, False, True),
    ("own_mutex", True, True, True),
    ("stalled_owner_ended", False, True, True),
    ("next_owner_has_not_run", True, True, False),
    ("waits_of_two_priorities", False, True, False),
    ("greater_waits_behind_a_signal", False, True, False),
)
NEED_RECURSION = ("held_300_times", "wait_with_two_holds", "inconsistent_held_twice")


def shown(is_robust, is_plain):
    return "%s, %s" % ("robust" if is_robust else "stalled", "no inheritance" if is_plain else "inheriting")


def hammer_batches(hammer, known):
    for name, words in HAMMERS.items():
        for is_plain in (True, False):
            full = "%s, %s" % (name, "no inheritance" if is_plain else "inheriting")
            yield Batch(full, [hammer, *words, *(["--plain"] if is_plain else [])], known(name, None, "robust" in name, is_plain))
    for name, words in FIFO_HAMMERS.items():
        yield Batch(name + ", inheriting", [hammer, *words], known(name, None, "robust" in name, False))


def probe_batches(probe, known):
    for name, if_robust, if_stalled, if_plain in PROBES:
        for kind, is_robust, is_plain in itertools.product(KINDS, (False, True), (True, False)):
            is_asked = (if_robust if is_robust else if_stalled) and (if_plain or not is_plain)
            if not is_asked or (name in NEED_RECURSION and kind != "recursive"):
                continue
            options = ["--kind", kind, *(["--robust"] if is_robust else []), *(["--plain"] if is_plain else []),
                       *(["--fifo"] if name in RACES else [])]
            may = known(name, kind, is_robust, is_plain)
            yield Batch("%s: %s, %s" % (name, kind, shown(is_robust, is_plain)), [probe, name, *options], may,
                        share=1 if name in RACES else 0.1)


def batches(hammer, probe, known):
    """`known` answers the verdicts besides `legal` of a name, a kind (None is all), robust and plain mutexes."""
    yield from hammer_batches(hammer, known)
    yield from probe_batches(probe, known)

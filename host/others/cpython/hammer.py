"""Threads that call threading's Lock, RLock and Condition at random, by a seed, or meet as a probe has it, and note their
calls. The history is written to RECORD_FILE.

    hammer.py [PROBE] [--threads N] [--mutexes N] [--calls N] [--seed N] [--waits P] [--trylock P] [--timed P]
              [--recursive] [--deep]

A lock is given up by the one that took it alone: threading.Lock lets any thread do it, which is none of POSIX.
"""

import argparse
import itertools
import os
import random
import threading
import time

BUSY, TIMED_OUT, NOT_OWNER = 16, 110, 1
MOST_HELD, MOST_MICROSECONDS = 3, 1500

# The next number, once each: the interpreter's lock makes this call whole.
place = itertools.count(1).__next__
start = time.monotonic_ns()


def now():
    """Whole microseconds since the start."""
    return (time.monotonic_ns() - start) // 1000


class Objects:
    """What all threads share."""

    def __init__(self, mutexes, is_recursive):
        self.is_recursive = is_recursive
        self.mutexes = [threading.RLock() if is_recursive else threading.Lock() for _ in range(mutexes)]
        self.variables = [threading.Condition(mutex) for mutex in self.mutexes]
        self.waiting = [0] * mutexes
        self.stage = 0


class Caller:
    """A thread of the history: what it noted, what it chooses by, and how often it holds each mutex."""

    def __init__(self, number, objects, orders):
        self.number, self.objects, self.orders = number, objects, orders
        self.random = random.Random(orders.seed * 1000 + number)
        self.lines = []
        self.held = [0] * len(objects.mutexes)

    def happens(self, per_cent):
        return self.random.randrange(100) < per_cent

    def note(self, line, deadline=0):
        at = place()
        self.lines.append((at, line, now() + 1, deadline))

    def begin(self, call):
        self.note("begin t%d %s" % (self.number, call))

    def begin_timed(self, call, deadline):
        self.note("begin t%d %s %d" % (self.number, call, deadline), deadline)

    def answer(self, answer):
        self.note("answer t%d %d" % (self.number, answer))
        return answer == 0

    def took(self, mutex, is_had):
        self.held[mutex] += is_had
        return is_had

    def lock(self, mutex):
        self.begin("lock m%d" % (mutex + 1))
        self.objects.mutexes[mutex].acquire()
        return self.took(mutex, self.answer(0))

    def trylock(self, mutex):
        self.begin("trylock m%d" % (mutex + 1))
        return self.took(mutex, self.answer(0 if self.objects.mutexes[mutex].acquire(False) else BUSY))

    def timedlock(self, mutex, microseconds):
        self.begin_timed("timedlock m%d" % (mutex + 1), now() + microseconds)
        is_had = self.objects.mutexes[mutex].acquire(True, microseconds / 1e6)
        return self.took(mutex, self.answer(0 if is_had else TIMED_OUT))

    def unlock(self, mutex):
        self.begin("unlock m%d" % (mutex + 1))
        try:
            self.objects.mutexes[mutex].release()
        except RuntimeError:
            return self.answer(NOT_OWNER)
        self.held[mutex] -= 1
        return self.answer(0)

    def wait(self, mutex):
        self.objects.waiting[mutex] += 1
        self.begin("wait c%d m%d" % (mutex + 1, mutex + 1))
        self.objects.variables[mutex].wait()
        self.answer(0)
        self.objects.waiting[mutex] -= 1

    def timedwait(self, mutex, microseconds):
        self.begin_timed("timedwait c%d m%d" % (mutex + 1, mutex + 1), now() + microseconds)
        self.answer(0 if self.objects.variables[mutex].wait(microseconds / 1e6) else TIMED_OUT)

    def signal(self, mutex):
        self.begin("signal c%d" % (mutex + 1))
        self.objects.variables[mutex].notify()
        self.answer(0)

    def broadcast(self, mutex):
        self.begin("broadcast c%d" % (mutex + 1))
        self.objects.variables[mutex].notify_all()
        self.answer(0)

    def take(self, mutex):
        if self.happens(self.orders.trylock):
            self.trylock(mutex)
        elif self.happens(self.orders.timed):
            self.timedlock(mutex, self.random.randrange(MOST_MICROSECONDS))
        else:
            self.lock(mutex)

    def highest(self):
        """The highest that is held, from 1; 0 if none is."""
        return max((mutex + 1 for mutex, held in enumerate(self.held) if held), default=0)

    def use(self, mutex):
        """A variable is used by who holds its mutex alone."""
        if self.happens(45):
            (self.signal if self.happens(70) else self.broadcast)(mutex)
        elif self.happens(self.orders.timed):
            self.timedwait(mutex, self.random.randrange(MOST_MICROSECONDS))
        else:
            self.wait(mutex)

    def step(self):
        """One call. Mutexes are taken in rising order, so that no circle of threads waits."""
        last = self.highest()
        if last == 0:
            self.take(self.random.randrange(len(self.held)))
        elif self.happens(self.orders.waits) and (self.held[last - 1] == 1 or self.orders.deep):
            self.use(last - 1)
        elif last < len(self.held) and self.happens(20):
            self.take(last)
        elif self.objects.is_recursive and self.held[last - 1] < MOST_HELD and self.happens(15):
            self.take(last - 1)
        else:
            self.unlock(last - 1)

    def give_all_up(self):
        while last := self.highest():
            self.unlock(last - 1)

    def work(self):
        for _ in range(self.orders.calls):
            self.step()
        self.give_all_up()

    def reach(self, wanted):
        while self.objects.stage < wanted:
            time.sleep(0.00005)


def pace(caller, threads):
    """Wakes those that wait, until all have ended."""
    while any(thread.is_alive() for thread in threads):
        time.sleep(0.001)
        for mutex in range(len(caller.held)):
            if caller.objects.waiting[mutex] > 0 and caller.trylock(mutex):
                caller.broadcast(mutex)
                caller.unlock(mutex)


def signal_at_a_timeout():
    """A signal at the moment at which the first of two waits runs out of time."""
    end = []

    def waits_briefly(caller):
        caller.lock(0)
        end.append(now() + 2500)
        caller.objects.stage = 1
        caller.timedwait(0, 2500)
        caller.unlock(0)

    def waits_longer(caller):
        caller.reach(1)
        caller.lock(0)
        caller.objects.stage = 2
        caller.timedwait(0, 12000)
        caller.unlock(0)

    def signals(caller):
        caller.reach(2)
        until = end[0] + caller.random.randrange(400) - 10
        while now() < until:
            time.sleep(0)
        caller.lock(0)
        caller.signal(0)
        caller.unlock(0)

    return [waits_briefly, waits_longer, signals]


def wait_with_two_holds():
    """A wait with a mutex that is held twice, and whether another one can have it meanwhile."""

    def waits(caller):
        caller.lock(0)
        caller.lock(0)
        caller.objects.stage = 1
        caller.timedwait(0, 40000)
        caller.give_all_up()

    def tries(caller):
        caller.reach(1)
        for _ in range(10):
            time.sleep(0.002)
            if caller.trylock(0):
                break
        caller.give_all_up()

    return [waits, tries]


def timed_lock_at_an_unlock():
    """One sleeps, another one has a deadline that passes about when the owner gives the mutex up."""

    def holds(caller):
        caller.lock(0)
        caller.objects.stage = 1
        caller.reach(2)
        time.sleep(0.002 + caller.random.randrange(1500) / 1e6)
        caller.unlock(0)

    def sleeps(caller):
        caller.reach(1)
        caller.objects.stage = 2
        caller.lock(0)
        caller.unlock(0)

    def is_timed(caller):
        caller.reach(2)
        if caller.timedlock(0, 2700):
            caller.unlock(0)

    return [holds, sleeps, is_timed]


def cycle_with_deadlines():
    """Each has a mutex, and wants that of the other one."""

    def wants_the_second(caller):
        caller.lock(0)
        caller.objects.stage = 1
        caller.reach(2)
        caller.timedlock(1, 5000)
        caller.give_all_up()

    def wants_the_first(caller):
        caller.reach(1)
        caller.lock(1)
        caller.objects.stage = 2
        time.sleep(0.0005)
        caller.timedlock(0, 3000)
        caller.give_all_up()

    return [wants_the_second, wants_the_first]


def held_300_times():
    def holds(caller):
        for _ in range(300):
            caller.lock(0)
        caller.give_all_up()

    return [holds]


PROBES = {probe.__name__: probe for probe in (signal_at_a_timeout, wait_with_two_holds, timed_lock_at_an_unlock,
                                              cycle_with_deadlines, held_300_times)}


def write(name, callers, objects):
    """A tick stands before the first line whose time reaches a deadline."""
    tick = greatest = 0
    deadlines = set()
    with open(name, "w", encoding="ascii") as file:
        for line in ["thread 1"] * len(callers) + ["mutex recursive" if objects.is_recursive else "mutex normal"] * len(
                objects.mutexes) + ["cond m%d" % (mutex + 1) for mutex in range(len(objects.mutexes))]:
            print(line, file=file)
        for _, line, at, deadline in sorted(noted for caller in callers for noted in caller.lines):
            greatest = max(greatest, at)
            if deadline > tick:
                deadlines.add(deadline)
            if deadlines and greatest >= min(deadlines):
                print("tick %d" % greatest, file=file)
                tick = greatest
                deadlines = {deadline for deadline in deadlines if deadline > tick}
            print(line, file=file)


def read_words():
    parser = argparse.ArgumentParser(description=__doc__, formatter_class=argparse.RawDescriptionHelpFormatter)
    parser.add_argument("probe", nargs="?", choices=PROBES)
    for name, number in (("threads", 3), ("mutexes", 1), ("calls", 30), ("seed", 1), ("waits", 30), ("trylock", 20),
                         ("timed", 30)):
        parser.add_argument("--" + name, type=int, default=number)
    parser.add_argument("--recursive", action="store_true")
    parser.add_argument("--deep", action="store_true")
    return parser.parse_args()


def main():
    orders = read_words()
    objects = Objects(2 if orders.probe == "cycle_with_deadlines" else orders.mutexes, orders.recursive)
    bodies = PROBES[orders.probe]() if orders.probe else [Caller.work] * orders.threads
    callers = [Caller(number + 1, objects, orders) for number in range(len(bodies) + 1)]
    threads = [threading.Thread(target=body, args=(caller,), daemon=True) for body, caller in zip(bodies, callers)]
    for thread in threads:
        thread.start()
    if not orders.probe:
        pace(callers[-1], threads)
    for thread in threads:
        thread.join()
    name = os.environ.get("RECORD_FILE")
    if name:
        write(name, callers, objects)


main()

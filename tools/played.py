"""Legal histories for `pif judge`, made by playing threads on mutexes, one effect at a time.

A kind is `locks` (lock and unlock), `tries` (60 % of the locks are trylocks), `waits` (wait, signal and broadcast),
`timed` (half of the waits have deadlines), `mixed` (all of these, and locks with deadlines), `dying` (the same with
robust mutexes, whose owners may end), `held` (the same with recursive ones, which are held up to three times), or
`program` (a third of the locks are trylocks; wait, signal and broadcast). Each mutex has one variable, and a thread
holds one mutex at a time.
"""

import random

KINDS = ("locks", "tries", "waits", "timed", "mixed", "dying", "held")
WAITS, TIMED = ("waits", "timed", "mixed", "dying", "held", "program"), ("timed", "mixed", "dying", "held")
MUTEXES = {"dying": "mutex normal robust", "held": "mutex recursive"}
BUSY, TIMED_OUT, INVALID, OWNER_DEAD, UNUSABLE = "EBUSY", "ETIMEDOUT", "EINVAL", "EOWNERDEAD", "ENOTRECOVERABLE"
MOST_HOLDS = 3
# how often the time goes on
TICKS = {"dying": 0.08, "held": 0.04}
# of each kind how often a lock is a lock, a trylock and a timed lock
LOCKS = {"locks": (1, 0, 0), "tries": (4, 6, 0), "waits": (1, 0, 0), "timed": (1, 0, 0), "mixed": (2, 1, 1), "dying": (2, 1, 1),
         "held": (2, 1, 1), "program": (2, 1, 0)}


class Thread:
    """A thread: the call that it has open, how far that has come, and what it does with its mutex."""

    def __init__(self, number, base):
        self.name = "t%d" % number
        self.base = base
        self.mutex = 1
        self.call = None
        self.stage = None
        self.answer = None
        self.deadline = None
        self.owns = False
        self.holds = 0
        self.used = False


class Play:
    """Threads that are played at random, and the lines that they leave."""

    def __init__(self, kind, threads, chance, mutexes, priorities):
        self.kind = kind
        self.chance = chance
        self.threads = [Thread(n + 1, 10 + n % priorities) for n in range(threads)]
        self.owners = {m: None for m in range(1, mutexes + 1)}
        # of each mutex what its next owner is answered in place of 0, since an owner ended
        self.health = {m: "0" for m in self.owners}
        self.time = 0
        self.lines = ["thread %d" % t.base for t in self.threads]
        for m in self.owners:
            self.lines += [MUTEXES.get(kind, "mutex normal"), "cond m%d" % m]

    def blocked(self, mutex):
        """The threads that are blocked on the variable of a mutex."""
        return [t for t in self.threads if t.stage == "blocked" and t.mutex == mutex]

    def next_call(self, t):
        """The call that an idle thread begins: it takes the mutex, may use the variable, and gives the mutex up."""
        if not t.owns:
            t.used = False
            t.mutex = self.chance.randint(1, len(self.owners))
            return self.chance.choices(("lock", "trylock", "timedlock"), LOCKS[self.kind])[0]
        if self.kind == "held" and t.holds < MOST_HOLDS and self.chance.random() < 0.3:
            return self.chance.choice(["lock", "trylock"])
        if self.health[t.mutex] == OWNER_DEAD and self.chance.random() < 0.6:
            return "consistent"
        if self.kind in WAITS and not t.used:
            t.used = True
            waiting = sum(1 for u in self.threads if u.call in ("wait", "timedwait"))
            if waiting < len(self.threads) // 2 and self.chance.random() < 0.5:
                return "timedwait" if self.kind in TIMED and self.chance.random() < 0.5 else "wait"
            return self.chance.choice(["signal", "signal", "broadcast"])
        return "unlock"

    def begin(self, t):
        """An idle thread begins a call."""
        t.call = self.next_call(t)
        t.stage = "fresh"
        mutex, cond = "m%d" % t.mutex, "c%d" % t.mutex
        both = "%s %s" % (cond, mutex)
        words = {"signal": cond, "broadcast": cond, "wait": both, "timedwait": both}.get(t.call, mutex)
        if t.call in ("timedwait", "timedlock"):
            t.deadline = self.time + self.chance.randint(0, 3)
            words += " %d" % t.deadline
        self.lines.append("begin %s %s %s" % (t.name, t.call, words))

    def done(self, t, answer):
        """The open call has this answer."""
        t.stage, t.answer = "done", answer

    def take(self, t, answer):
        """Takes its mutex, if nobody owns it, or is told that nobody can."""
        if self.owners[t.mutex] is not None:
            return
        if self.health[t.mutex] != UNUSABLE:
            self.owners[t.mutex], t.owns, t.holds = t, True, 1
        self.done(t, answer if self.health[t.mutex] == "0" else self.health[t.mutex])

    def hold_more(self, t):
        """Holds its mutex once more."""
        t.holds += 1
        self.done(t, "0")

    def give_up(self, t):
        """Gives its mutex up, which nobody can lock any more if an owner ended and it wasn't made consistent."""
        self.owners[t.mutex], t.owns, t.holds = None, False, 0
        if self.health[t.mutex] == OWNER_DEAD:
            self.health[t.mutex] = UNUSABLE

    def end(self, t):
        """A thread ends that owns a mutex."""
        self.lines.append("end %s" % t.name)
        self.owners[t.mutex], self.health[t.mutex] = None, OWNER_DEAD
        self.threads.remove(t)

    def signalled(self, t):
        """The threads that a signal or a broadcast unblocks: of a signal one of the greatest priority."""
        woken = self.blocked(t.mutex)
        if t.call == "signal" and woken:
            most = max(u.base for u in woken)
            woken = [self.chance.choice([u for u in woken if u.base == most])]
        return woken

    def act(self, t):
        """One effect of an open call, if it can have one."""
        if t.stage == "owing":
            self.take(t, t.answer)
        elif t.stage == "blocked":
            if t.call == "timedwait" and t.deadline <= self.time:
                t.stage, t.answer = "owing", TIMED_OUT
        elif t.owns and t.call in ("lock", "trylock"):
            self.hold_more(t)
        elif t.call in ("lock", "timedlock"):
            self.take(t, "0")
            if t.stage == "fresh" and t.call == "timedlock" and t.deadline <= self.time:
                self.done(t, TIMED_OUT)
        elif t.call == "trylock":
            if self.owners[t.mutex] is None:
                self.take(t, "0")
            else:
                self.done(t, BUSY)
        elif t.call == "unlock":
            t.holds -= 1
            if t.holds == 0:
                self.give_up(t)
            self.done(t, "0")
        elif t.call == "consistent":
            self.health[t.mutex] = "0"
            self.done(t, "0")
        elif t.call in ("wait", "timedwait") and t.holds > 1:
            self.done(t, INVALID)
        elif t.call in ("wait", "timedwait"):
            self.give_up(t)
            t.stage = "blocked"
        else:
            for u in self.signalled(t):
                u.stage, u.answer = "owing", "0"
            self.done(t, "0")

    def close(self, t):
        """The open call is answered."""
        self.lines.append("answer %s %s" % (t.name, t.answer))
        t.call = t.stage = t.answer = t.deadline = None

    def step(self):
        """One thread does one thing, or the time goes on."""
        if self.kind in TIMED and self.chance.random() < TICKS.get(self.kind, 0.02):
            self.time += 1
            self.lines.append("tick %d" % self.time)
        t = self.chance.choice(self.threads)
        may_end = self.kind == "dying" and t.owns and len(self.threads) > 1
        if t.call is None and may_end and self.chance.random() < 0.1:
            self.end(t)
        elif t.call is None:
            self.begin(t)
        elif t.stage == "done":
            self.close(t)
        else:
            self.act(t)


def history_of(kind, threads, lines, seed, mutexes=1, priorities=1):
    """The lines of a legal history of this kind. The threads have so many priorities, from 10 on."""
    play = Play(kind, threads, random.Random(seed), mutexes, priorities)
    while len(play.lines) < lines:
        play.step()
    return play.lines


# what three threads of one mutex do in each round of `pi_stress` of rt-tests: the greatest waits for the least
INVERSION = (
    ("begin", 0, "lock"), ("answer", 0), ("begin", 2, "lock"), ("begin", 0, "unlock"), ("answer", 0), ("answer", 2),
    ("begin", 2, "unlock"), ("answer", 2), ("begin", 1, "lock"), ("answer", 1), ("begin", 1, "unlock"), ("answer", 1),
)


def inversions(threads, lines, seed):
    """The lines of a legal history of inversions of priority, by threads in groups of three."""
    chance, groups = random.Random(seed), threads // 3
    made = ["thread %d" % (10 + n % 3) for n in range(3 * groups)] + ["mutex normal"] * groups
    at = [0] * groups
    while len(made) < lines:
        group = chance.randrange(groups)
        what = INVERSION[at[group]]
        at[group] = (at[group] + 1) % len(INVERSION)
        thread = "t%d" % (3 * group + what[1] + 1)
        rest = "0" if what[0] == "answer" else "%s m%d" % (what[2], group + 1)
        made.append("%s %s %s" % (what[0], thread, rest))
    return made


def queued(threads, lines):
    """The lines of a legal history in which all threads wait for one mutex, and it goes from one to the next. That comes
    again, up to so many lines."""
    made = ["thread 10"] * threads + ["mutex normal"]
    while len(made) < lines:
        made += ["begin t1 lock m1", "answer t1 0"]
        for n in range(2, threads + 1):
            made += ["begin t%d lock m1" % n, "rests t%d" % n]
        made += ["begin t1 unlock m1", "answer t1 0"]
        for n in range(2, threads + 1):
            made += ["answer t%d 0" % n, "begin t%d unlock m1" % n, "answer t%d 0" % n]
    return made[:lines]

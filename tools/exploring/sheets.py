"""Random programs to explore, each with the points that machine.py plays.

`drawn(chance, rules)` is a sheet: its text, as `pif explore` reads it (docs/EXPLORE.md), and what the text says. Programs are
trees of tuples: `("call", words)`, `("set", x, operand)`, `("if", branches, block)` and so on; an operand is `("v", value)`
or `("x", cell)`.
"""

from typing import NamedTuple, Optional

import ruled
import shapes

ERRORS = {1: "EPERM", 3: "ESRCH", 11: "EAGAIN", 16: "EBUSY", 22: "EINVAL", 35: "EDEADLK", 75: "EOVERFLOW", 110: "ETIMEDOUT",
          130: "EOWNERDEAD", 131: "ENOTRECOVERABLE"}
NAMES = {"t": ("", "ann", "bob", "cid"), "m": ("", "gate", "door"), "c": ("", "bell", "horn"),
         "x": ("", "total", "flag", "room")}
FAULTS = ("race", "misuse", "deadlock", "stuck", "lost wake-up")
TIMES = {1: "once", 2: "twice"}

# What a program needs so that a rule may matter.
NEEDS = {
    "any_waiter": "variables threads", "spurious": "variables", "recursion": "recursive", "held_wait": "variables recursive",
    "barge": "threads", "cycle_waits": "mutexes", "cycle_refused": "", "timeout_consumes": "variables times",
    "ends_apart": "robust ends", "stays_locked": "robust ends", "rebinds": "variables mutexes", "more_uses": "variables limit",
    "refuses_setprio": "setprio", "consistent_by_any": "robust ends", "cut_unlock": "robust ends threads",
    "other_error": "recursive times", "posix": "", "steal": "threads", "own_errorcheck": "errorcheck",
    "any_consistent": "robust ends", "lost_signal": "variables ends", "revives": "robust ends threads",
}


class Point(NamedTuple):
    """A point of a program: a call with its number among those of its thread, an access, a question, a join, a start or an
    exit."""

    kind: str
    next: Optional[int] = None
    otherwise: Optional[int] = None
    request: tuple = ()
    deadline: Optional[int] = None
    number: int = 0
    cell: int = 0
    operand: Optional[tuple] = None
    first: int = 0
    last: int = 0
    question: tuple = ()
    other: int = 0


class Layout:
    """The points of all programs of a sheet."""

    def __init__(self):
        self.points = []
        self.gotos = {}

    def added(self, point):
        """The place of a new point."""
        self.points.append(point)
        return len(self.points) - 1

    def test(self, test, yes, no):
        """The place at which a test begins that goes on at one of two places."""
        word, *parts = test
        if word == "not":
            return self.test(parts[0], no, yes)
        if word == "and":
            return self.test(parts[0], self.test(parts[1], yes, no), no)
        if word == "or":
            return self.test(parts[0], yes, self.test(parts[1], yes, no))
        return self.added(Point("ask", yes, no, question=test))

    def block(self, statements, following, leaving):
        """The place at which a block begins that goes on at `following`, and at `leaving` by a break."""
        for statement in reversed(statements):
            following = self.statement(statement, following, leaving)
        return following

    def statement(self, statement, following, leaving):
        """The place at which a statement begins."""
        word, *parts = statement
        if word == "call":
            return self.call(*parts, following)
        if word in ("set", "add"):
            return self.added(Point(word, following, cell=parts[0], operand=parts[1]))
        if word == "choose":
            return self.added(Point(word, following, cell=parts[0], first=parts[1], last=parts[2]))
        if word in ("join", "start"):
            return self.added(Point(word, following, other=parts[0]))
        if word == "exit":
            return self.added(Point(word))
        if word == "break":
            return leaving
        if word == "while":
            return self.loop(*parts, following)
        place = self.block(parts[1], following, leaving)
        for test, block in reversed(parts[0]):
            place = self.test(test, self.block(block, following, leaving), place)
        return place

    def call(self, words, number, following):
        """The place of a call; a timed one is its plain request with a deadline."""
        name, *numbers = words
        deadline = numbers.pop() if name.startswith("timed") else None
        request = (name.removeprefix("timed"), *numbers)
        return self.added(Point("call", following, request=request, deadline=deadline, number=number))

    def loop(self, test, block, following):
        """The place of a loop."""
        again = self.added(None)
        self.gotos[again] = self.test(test, self.block(block, again, following), following)
        return again

    def at(self, place):
        """The point to which a place leads."""
        while place in self.gotos:
            place = self.gotos[place]
        return place

    def finished(self):
        """The points, each with where it really leads."""
        return [point and point._replace(next=self.at(point.next), otherwise=self.at(point.otherwise)) for point in self.points]


def numbered(statements, count):
    """The statements of a thread with the number of each call, in the order of the text, and how many there are."""
    found = []
    for word, *parts in statements:
        if word == "call":
            found.append((word, parts[0], count))
            count += 1
        elif word == "if":
            branches = []
            for test, block in parts[0]:
                block, count = numbered(block, count)
                branches.append((test, block))
            block, count = numbered(parts[1], count)
            found.append((word, branches, block))
        elif word == "while":
            block, count = numbered(parts[1], count)
            found.append((word, parts[0], block))
        else:
            found.append((word, *parts))
    return found, count


class Writer:
    """The words of a sheet's text, by numbers or by names."""

    def __init__(self, chance, named):
        self.chance = chance
        self.named = named
        self.greatest = 0

    def name(self, letter, number):
        """A thread, a mutex, a variable or a cell."""
        if letter == "x":
            self.greatest = max(self.greatest, number)
        names = NAMES[letter]
        if letter in self.named and 0 < number < len(names) and self.chance.random() < 0.8:
            return names[number]
        return "%s%d" % (letter, number)

    def answer(self, number):
        """A number, or the name of an error."""
        return ERRORS[number] if number in ERRORS and self.chance.random() < 0.5 else str(number)

    def operand(self, operand):
        """A value or a cell."""
        return self.name("x", operand[1]) if operand[0] == "x" else str(operand[1])

    def compared(self, x, sign, operand):
        """A comparison of a cell."""
        blank = self.chance.choice([" ", " ", ""])
        return "%s%s%s%s%s" % (self.name("x", x), blank, sign, blank, self.operand(operand))

    def joined(self, tree, level, atom):
        """A test or a condition with the brackets that it needs, and perhaps more."""
        word, *parts = tree
        own = {"or": 0, "and": 1, "not": 2}.get(word, 3)
        if own == 3:
            text = atom(tree)
        elif own == 2:
            text = "not " + self.joined(parts[0], own, atom)
        else:
            text = (" %s " % word).join(self.joined(part, own, atom) for part in parts)
        return "(%s)" % text if own < level or self.chance.random() < 0.1 else text

    def test(self, tree):
        """A test."""
        return self.joined(tree, 0, lambda part: self.answer(part[1]) if part[0] == "answer" else self.compared(*part[1:]))

    def condition(self, tree):
        """A condition of a claim."""
        return self.joined(tree, 0, self.condition_part)

    def condition_part(self, part):
        """A condition without parts."""
        word, *what = part
        if word == "fault":
            return what[0]
        if word == "cell":
            return self.compared(*what)
        if word in ("free", "held", "health"):
            m = self.name("m", what[0])
            return {"free": "%s free" % m, "held": "%s held by " % m, "health": "%s " % m}[word] + (
                "" if word == "free" else self.name("t", what[1]) if word == "held" else what[1])
        t = self.name("t", what[0])
        if word in ("stuck", "ended"):
            return "%s %s" % (t, word)
        if word == "answered":
            return "%s answered %s" % (t, self.answer(what[1]))
        if word in ("runs", "runs at least"):
            return "%s runs at %s%d" % (t, "least " if word != "runs" else "", what[1])
        if word == "waits":
            return "%s waits for %s" % (t, self.name("m", what[1]))
        if word == "blocked":
            return "%s blocked on %s" % (t, self.name("c", what[1]))
        times = TIMES.get(what[2]) if self.chance.random() < 0.7 else None
        return "%s holds %s %s" % (t, self.name("m", what[1]), times or "%d times" % what[2])

    def call(self, words):
        """A call, as scripts have it."""
        name, *numbers = words
        letters = {"wait": "cm", "timedwait": "cm", "signal": "c", "broadcast": "c", "setprio": "t"}.get(name, "m")
        named = [self.name(letter, number) for letter, number in zip(letters, numbers)]
        return " ".join([name, *named, *map(str, numbers[len(letters) :])])

    def block(self, statements):
        """A block in its brackets, perhaps over several lines."""
        if not statements:
            return "{ }"
        if self.chance.random() < 0.1:
            return "{\n" + "".join("  %s%s\n" % (self.statement(s), self.chance.choice(["", ";"])) for s in statements) + "}"
        return "{ %s%s }" % (self.statements(statements), self.chance.choice(["", "", ";"]))

    def statements(self, statements):
        """Statements in one line; a mark may be left out behind a block."""
        text = ""
        for statement in statements:
            mark = " " if text.endswith("}") and self.chance.random() < 0.3 else "; " if text else ""
            text += mark + self.statement(statement)
        return text

    def statement(self, statement):
        """A statement."""
        word, *parts = statement
        if word == "call":
            return self.call(parts[0])
        if word in ("set", "add"):
            return "%s %s %s" % (word, self.name("x", parts[0]), self.operand(parts[1]))
        if word == "choose":
            return "choose %s %d..%d" % (self.name("x", parts[0]), parts[1], parts[2])
        if word in ("join", "start"):
            return "%s %s" % (word, self.name("t", parts[0]))
        if word == "while":
            return "while %s %s" % (self.test(parts[0]), self.block(parts[1]))
        if word != "if":
            return word
        text = " else ".join("if %s %s" % (self.test(test), self.block(block)) for test, block in parts[0])
        return text + (" else %s" % self.block(parts[1]) if parts[1] else "")


class Drawer:
    """Draws the parts of one sheet."""

    def __init__(self, chance, rules):
        self.chance = chance
        self.rules = rules
        self.needs = {need for rule in rules for need in NEEDS[rule].split() if chance.random() < 0.9}
        self.shape = chance.choice(list(shapes.NEEDS)) if chance.random() < 0.5 else None
        self.needs.update(shapes.NEEDS[self.shape].split() if self.shape else ())
        self.threads = 3 if "threads" in self.needs else chance.choices((1, 2, 3), (1, 20, 9))[0]
        self.mutexes = 2 if "mutexes" in self.needs else chance.choices((0, 1, 2), (1, 18, 12))[0]
        self.mutexes = max(self.mutexes, 1 if self.needs else 0)
        self.variables = 0 if self.mutexes == 0 else chance.choices((0, 1, 2), (5, 12, 2))[0]
        self.variables = max(self.variables, 1 if "variables" in self.needs else 0)
        self.cells = max(chance.choices((0, 1, 2, 3), (2, 5, 5, 1))[0], 1 if "cells" in self.needs else 0)
        self.ticks = sorted(chance.sample(range(1, 5), chance.randint(1, 2))) if self.is_wanted("times", 0.2) else []
        self.is_timed = bool(self.ticks) or self.picks(0.05)
        # Threads start others, of greater priority.
        self.is_starting = self.is_wanted("starting", 0.2)

    def is_wanted(self, need, share):
        """Whether a rule needs this, or it comes about by chance."""
        return need in self.needs or self.picks(share)

    def picks(self, share):
        """Whether something with this share of the chances comes about."""
        return self.chance.random() < share

    def mutex(self):
        """Some mutex."""
        return self.chance.randint(1, self.mutexes)

    def thread(self):
        """Some thread."""
        return self.chance.randint(1, self.threads)

    def operand(self):
        """A value, most often a small one, or a cell."""
        if self.picks(0.2):
            return ("x", self.chance.randint(1, self.cells))
        return ("v", self.chance.choices((0, 1, 2, 255), (5, 8, 2, 1))[0])

    def comparison(self):
        """A comparison of a cell."""
        return ("cell", self.chance.randint(1, self.cells), self.chance.choices("=<>", (4, 1, 1))[0], self.operand())

    def tree(self, depth, atom):
        """A test or a condition."""
        word = self.chance.choices(("atom", "not", "and", "or"), (6, 2, 2, 2))[0] if depth else "atom"
        if word == "atom":
            return atom()
        return (word, *(self.tree(depth - 1, atom) for _ in range(1 if word == "not" else 2)))

    def question(self):
        """A question of a test."""
        if self.cells and self.picks(0.65):
            return self.comparison()
        weights = {0: 6, 1: 1, 16: 2, 22: 1, 35: 3, 110: 2 if self.is_timed else 0, 130: 2, 131: 1}
        return ("answer", self.chance.choices(tuple(weights), tuple(weights.values()))[0])

    def test(self):
        """A test of an `if` or a `while`."""
        return self.tree(self.chance.choice((0, 0, 1, 2)), self.question)

    def access(self):
        """A statement that writes a cell."""
        cell = self.chance.randint(1, self.cells)
        word = self.chance.choices(("set", "add", "choose"), (6, 5, 1))[0]
        if word == "choose":
            first = self.chance.randint(0, 1)
            return [("choose", cell, first, first + self.chance.randint(0, 2))]
        return [(word, cell, self.operand())]

    def lock(self, m):
        """A call that locks a mutex."""
        if self.is_timed and self.picks(0.4):
            return ("call", ("timedlock", m, self.chance.randint(0, 4)))
        return ("call", ("trylock" if self.picks(0.15) else "lock", m))

    def wait(self):
        """A wait, most often with the mutex to which its variable is bound."""
        c = self.chance.randint(1, self.variables)
        m = self.mutex() if self.picks(0.15) else self.bound[c]
        if self.is_timed and self.picks(0.5):
            return ("call", ("timedwait", c, m, self.chance.randint(0, 4)))
        return ("call", ("wait", c, m))

    def use(self):
        """A signal or a broadcast."""
        return ("call", (self.chance.choice(("signal", "signal", "broadcast")), self.chance.randint(1, self.variables)))

    def some_call(self):
        """Any call."""
        kinds = [("setprio", 6 if "setprio" in self.needs else 2)]
        kinds += [("lock", 3), ("unlock", 3), ("consistent", 1)] if self.mutexes else []
        kinds += [("wait", 4), ("use", 6)] if self.variables else []
        kind = self.chance.choices(*zip(*kinds))[0]
        if kind == "setprio":
            return [("call", (kind, self.thread(), self.chance.choices((5, 10, 20, 30, 0), (3, 3, 3, 3, 1))[0]))]
        if kind in ("wait", "use"):
            return [self.wait() if kind == "wait" else self.use()]
        return [self.lock(self.mutex()) if kind == "lock" else ("call", (kind, self.mutex()))]

    def section(self, depth):
        """A lock, what is done under it, and the unlock."""
        c = self.chance.randint(1, self.variables) if self.variables and self.picks(0.5) else 0
        m = self.bound[c] if c else self.mutex()
        found = [self.lock(m)]
        if self.robust[m] and self.picks(0.5):
            found.append(("if", [(("answer", 130), [("call", ("consistent", m))])], []))
        if self.kinds[m] == "recursive" and self.picks(0.3):
            found.append(("call", (self.chance.choice(("lock", "trylock")), m)))
        if c and self.picks(0.5):
            call = self.wait() if self.is_timed or self.picks(0.1) else ("call", ("wait", c, m))
            found.append(self.chance.choice([call, ("if", [(self.test(), [call])], []), ("while", self.test(), [call])]))
        elif c:
            found += (self.access() if self.cells else []) + [self.use()]
        else:
            found += self.some(self.chance.randint(0, 1 if depth else 2), depth + 1)
        return found + ([("call", ("unlock", m))] if self.picks(0.9) else [])

    def branching(self, depth, in_loop):
        """An `if`."""
        branches = [(self.test(), self.some(1, depth + 1, in_loop)) for _ in range(self.chance.choices((1, 2), (4, 1))[0])]
        return [("if", branches, self.some(1, depth + 1, in_loop) if self.picks(0.3) else [])]

    def looping(self, depth):
        """A `while`, perhaps with a break."""
        block = self.some(self.chance.randint(0, 2), depth + 1, True)
        if self.picks(0.4):
            block.append(("if", [(self.test(), [("break",)])], []))
        return [("while", self.test(), block)]

    def some(self, count, depth=0, in_loop=False):
        """So many statements, or a few more."""
        kinds = [("call", 3), ("section", 12 - 5 * depth if self.mutexes and depth < 2 else 0),
                 ("access", 4 if self.cells else 0), ("if", max(0, 2 - depth)), ("while", 1 if depth < 2 else 0),
                 ("join", 0.3), ("exit", 0.2), ("break", 1 if in_loop else 0), ("start", 0.2 if self.is_starting else 0)]
        found = []
        for _ in range(count):
            kind = self.chance.choices(*zip(*kinds))[0]
            found += {"call": self.some_call, "section": lambda: self.section(depth), "access": self.access,
                      "if": lambda: self.branching(depth, in_loop), "while": lambda: self.looping(depth),
                      "join": lambda: [("join", self.thread())], "exit": lambda: [("exit",)],
                      "start": lambda: [("start", self.thread())],
                      "break": lambda: [("break",)]}[kind]()
        return found

    def condition(self):
        """A condition without parts."""
        kinds = [("stuck", 3), ("ended", 2), ("answered", 3), ("runs", 1), ("runs at least", 1), ("fault", 3)]
        kinds += [("cell", 6)] if self.cells else []
        kinds += [("waits", 2), ("free", 2), ("held", 3), ("health", 1), ("holds", 2)] if self.mutexes else []
        kinds += [("blocked", 2)] if self.variables else []
        kind = self.chance.choices(*zip(*kinds))[0]
        chance = self.chance
        return {
            "stuck": lambda: (kind, self.thread()),
            "ended": lambda: (kind, self.thread()),
            "answered": lambda: (kind, self.thread(), chance.choice((0, 0, 1, 16, 22, 35, 110, 130, 131))),
            "runs": lambda: (kind, self.thread(), chance.choice((5, 10, 20, 30))),
            "runs at least": lambda: (kind, self.thread(), chance.choice((5, 10, 20, 30))),
            "fault": lambda: (kind, chance.choice(FAULTS)),
            "cell": self.comparison,
            "waits": lambda: (kind, self.thread(), self.mutex()),
            "free": lambda: (kind, self.mutex()),
            "held": lambda: (kind, self.mutex(), self.thread()),
            "health": lambda: (kind, self.mutex(), chance.choice(("inconsistent", "unusable"))),
            "holds": lambda: (kind, self.thread(), self.mutex(), chance.randint(1, 2)),
            "blocked": lambda: (kind, self.thread(), chance.randint(1, self.variables)),
        }[kind]()

    def claim(self):
        """A claim: its word and its condition; `never: livelock` has none."""
        word = self.chance.choice(("never", "always", "finally", "sometimes"))
        if word == "never" and self.picks(0.25):
            return word, None
        return word, self.tree(self.chance.choice((0, 1, 1, 2)), self.condition)


class Sheet(Drawer):
    """A program to explore: what it says, and its text."""

    def __init__(self, chance, rules):
        super().__init__(chance, rules)
        # By `posix` a recursive mutex may be held as often as it likes, and be refused at any time.
        self.recursion = (1, 4294967295) if "posix" in rules else (1, 2)
        self.bases = [0] + [chance.choice((5, 10, 10, 20, 30)) for _ in range(self.threads)]
        self.kinds = [""] + [self.kind() for _ in range(self.mutexes)]
        self.robust = [False] + [self.is_wanted("robust", 0.3) for _ in range(self.mutexes)]
        self.lends = [True] + [not self.picks(0.12) for _ in range(self.mutexes)]
        self.bound = [0] + [self.mutex() for _ in range(self.variables)]
        self.signals = chance.randint(1, 2) if self.is_wanted("limit", 0.1) else None
        self.ends = chance.choices((1, 2), (4, 1))[0] if self.is_wanted("ends", 0.25) else 0
        # Who may end: all, or these.
        some = set(chance.sample(range(1, self.threads + 1), chance.randint(1, self.threads)))
        self.may_end = some if self.ends and self.picks(0.3) else None
        self.processors = chance.choices((1, 2), (3, 1))[0] if self.is_wanted("schedule", 0.3) else 0
        self.programs = self.drawn_programs()
        if self.is_starting:
            self.bases.sort()
            if not self.shape:
                self.add_starts()
        self.claims = [self.claim() for _ in range(chance.choices((0, 1, 2, 3), (2, 2, 2, 1))[0])]
        self.written = Writer(chance, [letter for letter in "tmcx" if self.picks(0.15)])
        # The values of cells at first; a cell that has a name has a line.
        self.values = [0] + [chance.choice((0, 1, 1, 2)) if self.picks(0.25) else 0 for _ in range(self.cells)]
        self.lines = self.heading() + self.middle()
        # Up to this number the text names cells, but for its claims.
        self.greatest = self.written.greatest
        self.delays = [self.thread()] if self.processors and self.picks(0.5) else []
        self.lines += ["delay %s" % self.written.name("t", t) for t in self.delays]
        self.claim_lines = ["%s: %s" % (word, self.written.condition(condition) if condition else "livelock")
                            for word, condition in self.claims]
        self.text = "\n".join(self.lines + self.claim_lines) + "\n"
        self.first_cells = self.values[: self.written.greatest + 1]
        self.lay_out()

    def kind(self):
        """The kind of a mutex."""
        wanted = [kind for kind in ("errorcheck", "recursive") if kind in self.needs]
        return self.chance.choice(wanted) if wanted else self.chance.choices(
            ("normal", "errorcheck", "recursive", "default"), (6, 2, 2, 1))[0]

    def drawn_programs(self):
        """What each `do` has: its threads and its statements."""
        if self.shape:
            return shapes.drawn(self)
        programs, threads = [], list(range(1, self.threads + 1))
        if self.threads > 1 and self.picks(0.2):
            programs.append((threads, self.some(self.chance.randint(1, 2))))
            threads = [t for t in threads if self.picks(0.3)]
        for t in threads:
            programs.append(([t], self.some(self.chance.randint(1, 4 - self.threads // 2))))
            if self.picks(0.1):
                programs.append(([self.thread()], self.some(1)))
        return [(named, statements) for named, statements in programs if statements]

    def add_starts(self):
        """Lets threads be started by the programs of others, at any place of these."""
        for t in range(2, self.threads + 1):
            others = [statements for named, statements in self.programs if t not in named]
            if others and self.picks(0.7):
                statements = self.chance.choice(others)
                statements.insert(self.chance.randint(0, len(statements)), ("start", t))

    def named(self, letter, number):
        """The name that an addition gives, with a blank in front."""
        return " " + NAMES[letter][number] if letter in self.written.named else ""

    def heading(self):
        """The lines of additions."""
        lines = ["limits 9 9 9 %d" % self.signals] if self.signals is not None else []
        rules = ["recursion 1..2" if rule == "recursion" else rule for rule in self.rules]
        lines += ["allow " + " ".join(rules)] if rules else []
        lines += ["thread %d%s" % (base, self.named("t", t)) for t, base in enumerate(self.bases) if t]
        lines += ["mutex %s%s%s%s" % (kind, " robust" if self.robust[m] else "", "" if self.lends[m] else " none",
                                      self.named("m", m)) for m, kind in enumerate(self.kinds) if m]
        lines += ["cond m%d%s" % (m, self.named("c", c)) for c, m in enumerate(self.bound) if c]
        if "x" in self.written.named:
            self.written.greatest = len(self.values) - 1
            return lines + ["cell %s %d" % (NAMES["x"][x], value) for x, value in enumerate(self.values) if x]
        return lines + ["cell %s %d" % (self.written.name("x", x), value) for x, value in enumerate(self.values) if value]

    def middle(self):
        """The lines of programs, and those before and after them that are no claims."""
        lines = ["schedule %d" % self.processors] if self.processors else []
        for named, statements in self.programs:
            names = " ".join(self.written.name("t", t) for t in named)
            lines.append("do %s: %s" % (names, self.written.statements(statements)))
        of = "" if self.may_end is None else " of " + " ".join(self.written.name("t", t) for t in sorted(self.may_end))
        lines += ["ends %d%s" % (self.ends, of)] if self.ends else []
        return lines + (["ticks " + " ".join(map(str, self.ticks))] if self.ticks else [])

    def lay_out(self):
        """The points of the programs."""
        layout = Layout()
        self.calls, self.starts = [0], [None]
        for t in range(1, self.threads + 1):
            statements = [statement for named, block in self.programs if t in named for statement in block]
            statements, count = numbered(statements, 0)
            self.calls.append(count)
            self.starts.append(layout.block(statements, None, None))
        self.points = layout.finished()
        # Who doesn't begin by itself.
        self.started_later = {point.other for point in self.points if point and point.kind == "start"}
        self.starts = [layout.at(start) for start in self.starts]


def drawn_rules(chance):
    """The rules that a sheet allows, if it allows any."""
    if chance.random() < 0.65:
        return ()
    if chance.random() < 0.1:
        return ("posix",)
    return tuple(chance.sample(ruled.OF_POSIX + ruled.AGAINST_POSIX, chance.choice((1, 1, 1, 2))))


def drawn(chance, rules):
    """A random sheet that allows these rules."""
    return Sheet(chance, rules)

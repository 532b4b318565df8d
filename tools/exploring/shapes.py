"""Shapes of programs to explore, by which random ones often come to what is rare by chance: a cycle, two waiters of one
variable, a thread of great priority that waits for one of low priority, an owner that ends. `drawn(drawer)` has programs of the
shape of a drawer of sheets.py, which puts other statements between theirs.
"""

# What each shape needs.
NEEDS = {
    "crossing": "mutexes", "counted": "variables cells threads", "buffer": "variables cells",
    "inversion": "cells schedule starting threads", "repairs": "robust ends cells", "timed": "times", "tried": "cells",
    "spinning": "cells ends",
}


def call(*words):
    """A call."""
    return ("call", words)


def crossing(drawer):
    """Locks of two mutexes, in either order."""
    programs = []
    for t in range(1, drawer.threads + 1):
        one, other = (1, 2) if t % 2 else (2, 1)
        programs.append(([t], [call("lock", one), call("lock", other), call("unlock", other), call("unlock", one)]))
    return programs


def counted(drawer):
    """Threads that wait, and one that wakes them once all do."""
    m, last = drawer.bound[1], drawer.threads
    wait = call("wait", 1, m)
    programs = [([t], [call("lock", m), ("add", 1, ("v", 1)), wait, call("unlock", m)]) for t in range(1, last)]
    wake = [call(drawer.chance.choice(("signal", "signal", "broadcast")), 1)]
    waking = [call("lock", m), ("if", [(("cell", 1, "=", ("v", last - 1)), wake)], []), call("unlock", m)]
    return programs + [([last], waking)]


def buffer(drawer):
    """Threads that take an item, and threads that put one."""
    m = drawer.bound[1]
    is_empty, wait = ("cell", 1, "=", ("v", 0)), call("wait", 1, m)
    loop = ("while", is_empty, [wait]) if drawer.picks(0.6) else ("if", [(is_empty, [wait])], [])
    taking = [call("lock", m), loop, ("add", 1, ("v", 255)), call("unlock", m)]
    putting = [call("lock", m), ("add", 1, ("v", 1)), call("signal", 1), call("unlock", m)]
    return [([t], list(taking if drawer.picks(0.5) else putting)) for t in range(1, drawer.threads + 1)]


def inversion(drawer):
    """A thread of low priority that starts the others while it owns a mutex; some of them want it."""
    m = drawer.mutex()
    others = list(range(2, drawer.threads + 1))
    drawer.chance.shuffle(others)
    programs = [([1], [call("lock", m)] + [("start", t) for t in others] + [("add", 1, ("v", 1)), call("unlock", m)])]
    for t in others:
        works = [("set", 1, ("v", t))]
        programs.append(([t], works if drawer.picks(0.3) else [call("lock", m), *works, call("unlock", m)]))
    return programs


def repairs(drawer):
    """Owners of a robust mutex that write a cell twice, and repair it if an owner ended."""
    m = drawer.mutex()
    repair = [("set", 1, ("v", 0))] + ([call("consistent", m)] if drawer.picks(0.7) else [])
    section = [call("lock", m), ("if", [(("answer", 130), repair)], []), ("set", 1, ("v", 1)), call("unlock", m)]
    return [([t], list(section)) for t in range(1, drawer.threads + 1)]


def timed(drawer):
    """Locks and waits that may run out of time."""
    m = drawer.mutex()
    programs = [([1], [call("lock", m), *drawer.some(1), call("unlock", m)])]
    for t in range(2, drawer.threads + 1):
        lock = call("timedlock", m, drawer.chance.randint(0, 3))
        wait = [call("timedwait", 1, drawer.bound[1], drawer.chance.randint(0, 3))] if drawer.variables else []
        programs.append(([t], [lock, *wait, ("if", [(("answer", 0), [call("unlock", m)])], [])]))
    return programs


def tried(drawer):
    """A mutex that threads try to lock, and take its being locked as a sign or go on without it."""
    m = drawer.mutex()
    write, lock = ("add", 1, ("v", 1)), call("lock", m)
    programs = [([1], [write, lock] if drawer.picks(0.3) else [lock, write, call("unlock", m)])]
    for t in range(2, drawer.threads + 1):
        sign = drawer.chance.choice((0, 0, 16))
        block = [("add", 1, ("v", 1))] + ([call("unlock", m)] if sign == 0 else [])
        programs.append(([t], [call("trylock", m), ("if", [(("answer", sign), block)], [])]))
    return programs


def spinning(drawer):
    """Threads that go round until a cell is set."""
    turns = ("while", ("cell", 1, "=", ("v", 0)), drawer.some(1, 2) if drawer.picks(0.4) else [])
    programs = [([t], [turns]) for t in range(1, drawer.threads)]
    return programs + [([drawer.threads], drawer.some(1) + ([("set", 1, ("v", 1))] if drawer.picks(0.6) else []))]


def drawn(drawer):
    """The programs of a drawer's shape, with other statements at some places."""
    shapes = {"crossing": crossing, "counted": counted, "buffer": buffer, "inversion": inversion, "repairs": repairs,
              "timed": timed, "tried": tried, "spinning": spinning}
    programs = [(named, list(statements)) for named, statements in shapes[drawer.shape](drawer)]
    for _ in range(drawer.chance.choice((0, 0, 1, 2))):
        statements = drawer.chance.choice(programs)[1]
        place = drawer.chance.randint(0, len(statements))
        statements[place:place] = drawer.some(1, 1)
    return programs

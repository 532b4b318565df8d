"""The core of pif from Python, by ctypes over libpif.so.

`make -C c proved` proves the library's crates, and then `make -C c` builds it. `make -C c checked` builds one of which
nothing is proved, in one to two minutes; it checks as it runs. The library is looked for in the file that PIF_LIBRARY
names, in c/out beside this folder, the proved one first, and where the system looks for libraries. If none can be
loaded, an ImportError says how to make one. `library()` says which it is: its `how` is proved, checked or unknown.

    >>> library().how in ("proved", "checked")
    True

    >>> core = Core(threads=4, mutexes=4)
    >>> low, high = core.add_thread(10), core.add_thread(50)
    >>> mutex = core.add_mutex()
    >>> core.call(low, "lock", mutex)
    Seen(what='answer', detail=0)
    >>> core.call(high, "lock", mutex)
    Seen(what='waits', detail=0)
    >>> core.effective(low), hex(core.word(mutex))
    (50, '0x80000001')
    >>> core.call(low, "unlock", mutex)
    Seen(what='answer', detail=0)
    >>> core.finish(high), core.owner(mutex), core.effective(low)
    (Seen(what='answer', detail=0), (2, 1), 10)
    >>> core.call(low, "lock", mutex), core.waiters(mutex), core.ready()
    (Seen(what='waits', detail=0), [1], [2])
    >>> core.kind(mutex), core.base(low), core.path(low), core.time()
    (('normal', False), 10, [1, 2], 0)

With a log each line of its trace is handed on, and another core can be held to it:

    >>> lines = []
    >>> logged = Core(threads=1, mutexes=1, conds=0, log=lines.append)
    >>> logged.add_thread(10), logged.add_mutex(), logged.call(1, "lock", 1)
    (1, 1, Seen(what='answer', detail=0))
    >>> lines[1:4], print(replay("".join(lines)), end="")
    same 6
    (['limits 1 1 0 4294967295 = ok\\n', 'thread 10 = t1\\n', 'mutex normal = m1\\n'], None)

A number that names nothing is told so, and nothing has changed:

    >>> core.call(9, "lock", mutex)
    Seen(what='refused', detail='nosuch')
    >>> core.effective(9) is None
    True
    >>> core.add_thread(100)
    Traceback (most recent call last):
    pif.Refused: bad priority

A number that the core can't be given, and a name of nothing, are refused before it is asked:

    >>> core.call(low, "timedlock", mutex, -1)
    Traceback (most recent call last):
    OverflowError: -1 is not in 0 to 4294967295
    >>> core.word(2**32 + 1)
    Traceback (most recent call last):
    OverflowError: 4294967297 is not in 0 to 4294967295
    >>> core.begin(low, "lok", mutex)  # doctest: +ELLIPSIS
    Traceback (most recent call last):
    ValueError: there is no call 'lok', but lock, trylock, ...
    >>> core.add_mutex("nromal")
    Traceback (most recent call last):
    ValueError: there is no kind 'nromal', but normal, recursive, errorcheck

A search of schedules is told which one is next, here of two points with two options each, of which the second is a
preemption:

    >>> free, preempts = (0, 0, 0), (1, 0, 0)
    >>> options = [free, preempts]
    >>> next_schedule((1, 0, 0), [(options, 0), (options, 0)]), next_schedule((1, 0, 0), [(options, 0), (options, 1)])
    ((1, 1), (0, 1))
    >>> next_schedule((1, 0, 0), [(options, 1), (options, 0)]) is None
    True

Texts go in, as str or bytes, and come out as str. Its `ended` says how that ended: whole (a history is legal), fault,
differs (a history is illegal) or undecided:

    >>> print(run("thread 10\\nmutex normal\\ncall t1 lock m1\\n"), end="")
    t1
    m1
    answer 0
    >>> print(check("thread 10 = t2\\n", name="mine"), end="")
    mine: differs 1: thread 10 = t2, but the core gives t1
    >>> print(replay("pif-trace 2\\nthread 10 = t1\\n"), end="")
    same 1
    >>> run(b"thred 10\\n").ended
    'fault'
    >>> print(judge("thread 10\\nmutex normal\\nbegin t1 lock m1\\nanswer t1 EBUSY\\n"), end="")
    illegal at 4: answer t1 16
    possible there: 0
    its call began at 3: begin t1 lock m1
    >>> print(explore("thread 10\\ndo t1: set x1 1\\n"), end="")
    t1; x1 = 1
    1 outcomes, 2 states, 1 steps
    >>> print(show("pick\\n", "json")[:46])
    {"line":1,"command":"pick","answer":{"text":"n
    >>> print(least("thread 10\\nbegin t1 setprio t1 20\\n"), end="")
    legal 2, 1 call
    >>> explore("thread 10\\ndo t1: set x1 1\\n", goes_on=lambda: False).ended
    'interrupted'
    >>> print(judge("# seen\\nthread 10\\nprio t1 10\\n", witness=True), end="")
    legal 3, with no call
    thread 10
    prio t1 10

Refused and MemoryError are the core's. Of wrong arguments there is a TypeError, a ValueError or an OverflowError, and
nothing has changed. Give a core to one thread at a time: ctypes lets other threads run during a call. A core is freed
when nobody has it any more. `python3 -m doctest pif.py` tries the lines above.
"""

import ctypes
import ctypes.util
import itertools
import operator
import os
from collections import namedtuple
from pathlib import Path
from types import SimpleNamespace

__all__ = ["Core", "Library", "Printed", "Refused", "Seen", "check", "explore", "judge", "least", "library", "replay",
           "run", "show"]

WHAT = ("no core", "begun", "went", "waits", "answer", "ended", "ticked", "refused", "unnamed")
REFUSALS = (None, "nosuch", "dead", "busy", "idle", "past")
STATES = ("ready", "queued", "parked", "stopped", "ended")
HEALTHS = ("fine", "inconsistent", "unusable")
KINDS = {"normal": 0, "recursive": 1, "errorcheck": 2}
RESULTS = (None, "no core", "none", "too many", "bad priority", "no such mutex", "out of range",
           "there is a core already", "out of memory")
OK, NONE, NO_MEMORY = 0, 2, 8
ENDS = ("whole", "fault", "differs", "out of memory", "unwritten", "unread", "undecided", "interrupted", "mistake")

# The calls by name: the number of each, and what its arguments are, in order.
CALLS = {
    "lock": (1, ("mutex",)),
    "trylock": (2, ("mutex",)),
    "unlock": (3, ("mutex",)),
    "consistent": (4, ("mutex",)),
    "timedlock": (5, ("mutex", "deadline")),
    "wait": (6, ("cond", "mutex")),
    "timedwait": (7, ("cond", "mutex", "deadline")),
    "signal": (8, ("cond",)),
    "broadcast": (9, ("cond",)),
    "setprio": (10, ("thread", "prio")),
}

Seen = namedtuple("Seen", "what detail")
Seen.__doc__ = "What became of an event: begun, went, waits, answer, ended, ticked, refused or unnamed; and its detail."


Library = namedtuple("Library", "path how said")
Library.__doc__ = """A library: its file, or the name by which the system finds it; how it was made, as proved, checked
or unknown; and what it says of itself."""

# How a library was made, by the end of what it says.
MADE = {", proved": "proved", ", checked as it runs, not proved": "checked"}


class Printed(str):
    """What a job prints. `ended` says how the job ended: whole, fault, differs, undecided, interrupted or mistake (of a log)."""

    def __new__(cls, text, ended=None):
        printed = super().__new__(cls, text)
        printed.ended = ended
        return printed


class Refused(Exception):
    """An addition or a core was refused, and nothing has changed."""


def fitting(number):
    """A number of 32 bits. Of any other ctypes would take the low bits."""
    number = operator.index(number)
    if not 0 <= number <= 0xFFFFFFFF:
        raise OverflowError("%d is not in 0 to 4294967295" % number)
    return number


def named(what, name, numbers):
    """What stands for a name."""
    if name not in numbers:
        raise ValueError("there is no %s %r, but %s" % (what, name, ", ".join(numbers)))
    return numbers[name]


def words(name, *fields):
    """A struct of 32-bit numbers."""
    return type(name, (ctypes.Structure,), {"_fields_": [(field, ctypes.c_uint32) for field in fields]})


class Handle(ctypes.Structure):
    """What C holds of a core. Zeros hold none."""

    _fields_ = [("at", ctypes.c_void_p), ("full", ctypes.c_bool)]


class TextBy(ctypes.Structure):
    """How a text came out."""

    _fields_ = [("ended", ctypes.c_uint32), ("wanted", ctypes.c_size_t)]


GOES_ON = ctypes.CFUNCTYPE(ctypes.c_bool, ctypes.c_void_p)
SINK = ctypes.CFUNCTYPE(None, ctypes.c_void_p, ctypes.POINTER(ctypes.c_char), ctypes.c_size_t)


class Options(ctypes.Structure):
    """How a job is done."""

    _fields_ = [*((name, ctypes.c_uint32) for name in ("size", "states", "seconds", "witness", "least", "shown")),
                ("goes_on", GOES_ON), ("to", ctypes.c_void_p)]


class Log(ctypes.Structure):
    """Who takes the trace of a core."""

    _fields_ = [("core", ctypes.POINTER(Handle)), ("sink", SINK), ("to", ctypes.c_void_p)]


SeenBy = words("SeenBy", "what", "detail")
Number = words("Number", "result", "number")
Owned = words("Owned", "result", "thread", "count")
Doing = words("Doing", "result", "state", "waits_for")
Request = words("Request", "call", "mutex", "cond", "thread", "prio", "deadline")

Counts = words("Counts", "preemptions", "ends", "wakes")


class Point(ctypes.Structure):
    """A point of a run: how many options there were, and the place of the one that was chosen."""

    _fields_ = [("options", ctypes.c_size_t), ("chosen", ctypes.c_size_t)]


class Change(ctypes.Structure):
    """Where a schedule leaves the one before it."""

    _fields_ = [("result", ctypes.c_uint32), ("kept", ctypes.c_size_t), ("option", ctypes.c_size_t)]


U32, HANDLE, LOG = ctypes.c_uint32, ctypes.POINTER(Handle), ctypes.POINTER(Log)
BYTES, SIZE, HOW = ctypes.c_char_p, ctypes.c_size_t, ctypes.POINTER(Options)

# What each function answers, and takes.
SIGNATURES = {
    "pif_core_new": (U32, HANDLE, U32, U32, U32, U32),
    "pif_core_free": (None, HANDLE),
    "pif_add_thread": (Number, HANDLE, U32),
    "pif_add_mutex": (Number, HANDLE, U32, ctypes.c_bool),
    "pif_add_cond": (Number, HANDLE, U32),
    "pif_begin": (SeenBy, HANDLE, U32, Request),
    "pif_go": (SeenBy, HANDLE, U32),
    "pif_call": (SeenBy, HANDLE, U32, Request),
    "pif_finish": (SeenBy, HANDLE, U32),
    "pif_end": (SeenBy, HANDLE, U32),
    "pif_tick": (SeenBy, HANDLE, U32),
    "pif_effective": (Number, HANDLE, U32),
    "pif_waiting": (Number, HANDLE, U32),
    "pif_word": (Number, HANDLE, U32),
    "pif_health": (Number, HANDLE, U32),
    "pif_cond_word": (Number, HANDLE, U32),
    "pif_pick": (Number, HANDLE),
    "pif_owner": (Owned, HANDLE, U32),
    "pif_status": (Doing, HANDLE, U32),
    "pif_base": (Number, HANDLE, U32),
    "pif_mutex_kind": (Number, HANDLE, U32),
    "pif_robust": (Number, HANDLE, U32),
    "pif_bound": (Number, HANDLE, U32),
    "pif_waiter": (Number, HANDLE, U32, U32),
    "pif_parked": (Number, HANDLE, U32, U32),
    "pif_ready": (Number, HANDLE, U32),
    "pif_time": (Number, HANDLE),
    "pif_path": (Number, HANDLE, U32, U32),
    "pif_choose_next": (Change, ctypes.POINTER(Counts), ctypes.POINTER(Point), SIZE, ctypes.POINTER(Counts), SIZE),
    "pif_run": (TextBy, BYTES, SIZE, BYTES, SIZE),
    "pif_replay": (TextBy, BYTES, SIZE, BYTES, SIZE),
    "pif_check": (TextBy, BYTES, SIZE, BYTES, SIZE, BYTES, SIZE),
    "pif_judge_with": (TextBy, BYTES, SIZE, HOW, BYTES, SIZE),
    "pif_explore_with": (TextBy, BYTES, SIZE, HOW, BYTES, SIZE),
    "pif_show_with": (TextBy, BYTES, SIZE, HOW, BYTES, SIZE),
    "pif_core_log": (U32, LOG, HANDLE, U32, U32, U32, U32, SINK, ctypes.c_void_p),
}

# The functions that change a core, which a log has too.
LOGGED = ("add_thread", "add_mutex", "add_cond", "begin", "go", "call", "finish", "end", "tick")
SIGNATURES.update({"pif_log_" + name: (answers, LOG, *takes) for name in LOGGED
                   for answers, _, *takes in [SIGNATURES["pif_" + name]]})


def checked(function, takes):
    """A function that is called only if each number fits."""
    def call(*arguments):
        return function(*(fitting(given) if kind is U32 else given for kind, given in zip(takes, arguments)))
    return call


def place():
    """The file of the library, or its name if the system has to look for it."""
    out = Path(__file__).resolve().parent.parent / "c" / "out"
    beside = [str(path) for path in (out / "libpif.so", out / "checked" / "libpif.so") if path.exists()]
    return os.environ.get("PIF_LIBRARY") or (beside[0] if beside else ctypes.util.find_library("pif")) or "libpif.so"


def said_by(library):
    """What a library says of itself, or nothing if it has no function for that."""
    try:
        function = library.pif_made
    except AttributeError:
        return ""
    function.restype, function.argtypes = BYTES, ()
    return function().decode()


def load():
    """The library, and its functions by their names; an ImportError says how to make it if it can't be loaded."""
    path, functions = place(), {}
    try:
        library = ctypes.CDLL(path)
    except OSError as why:
        raise ImportError("%s; in a clone of pif 'make -C c checked' makes c/out/checked/libpif.so, which checks as it "
                          "runs, in one to two minutes; 'make -C c proved' and then 'make -C c' make the proved "
                          "c/out/libpif.so, within an hour or two; PIF_LIBRARY names one that is elsewhere"
                          % why) from None
    for name, (answers, *takes) in SIGNATURES.items():
        function = getattr(library, name, None)
        if function is None:
            raise ImportError("%s has no %s: it is older than this pif.py" % (path, name))
        function.restype, function.argtypes = answers, takes
        functions[name] = checked(function, takes)
    said = said_by(library)
    how = next((how for end, how in MADE.items() if said.endswith(end)), "unknown")
    return Library(path, how, said), SimpleNamespace(**functions)


LOADED, LIBRARY = load()


def library():
    """Which library this runs on."""
    return LOADED


def refuse(result):
    """Raises what a result says."""
    if result == NO_MEMORY:
        raise MemoryError
    if result != OK:
        raise Refused(RESULTS[result])


def added(told):
    """The number of an addition."""
    refuse(told.result)
    return told.number


def shown(told):
    """A number that is shown, or None."""
    if told.result == NONE:
        return None
    refuse(told.result)
    return told.number


def seen(told):
    """What became of an event."""
    what = WHAT[told.what]
    return Seen(what, REFUSALS[told.detail] if what == "refused" else told.detail)


def in_order(reader, *arguments):
    """The numbers that a reader shows, by place."""
    found = (shown(reader(*arguments, place)) for place in itertools.count())
    return list(itertools.takewhile(lambda number: number is not None, found))


def request(call, arguments):
    """A call by its name, as lock, with what it names."""
    number, names = named("call", call, CALLS)
    if len(arguments) != len(names):
        raise TypeError("%s takes %s" % (call, ", ".join(names)))
    return Request(call=number, **dict(zip(names, map(fitting, arguments))))


class Core:
    """A core. Threads, mutexes and condition variables are numbers from 1, in the order in which they are added. `log` is
    called with each line of its trace, which `replay` takes."""

    def __init__(self, threads=1024, mutexes=1024, conds=256, signals=4294967295, log=None):
        self.handle, limits = Handle(), (threads, mutexes, conds, signals)
        if log is None:
            self.asked, self.named = self.handle, "pif_"
            refuse(LIBRARY.pif_core_new(self.handle, *limits))
        else:
            self.asked, self.named = Log(), "pif_log_"
            self.sink = SINK(lambda _, text, length: log(text[:length].decode()))
            refuse(LIBRARY.pif_core_log(self.asked, self.handle, *limits, self.sink, None))

    def __del__(self):
        LIBRARY.pif_core_free(self.handle)

    def change(self, name, *arguments):
        """What a function answers that changes the core, and has a line in its log if there is one."""
        return getattr(LIBRARY, self.named + name)(self.asked, *arguments)

    def add_thread(self, prio):
        """Adds a thread of this base priority, 1 to 99: its number."""
        return added(self.change("add_thread", prio))

    def add_mutex(self, kind="normal", robust=False):
        """Adds a mutex, normal, recursive or errorcheck: its number."""
        return added(self.change("add_mutex", named("kind", kind, KINDS), robust))

    def add_cond(self, mutex):
        """Adds a condition variable that is bound to this mutex: its number."""
        return added(self.change("add_cond", mutex))

    def begin(self, thread, call, *arguments):
        """A thread begins a call."""
        return seen(self.change("begin", thread, request(call, arguments)))

    def go(self, thread):
        """A thread takes one step of its open call."""
        return seen(self.change("go", thread))

    def call(self, thread, call, *arguments):
        """A thread makes a whole call: it is answered, or waits."""
        return seen(self.change("call", thread, request(call, arguments)))

    def finish(self, thread):
        """A thread goes on with its open call until it is answered or waits."""
        return seen(self.change("finish", thread))

    def end(self, thread):
        """A thread ends."""
        return seen(self.change("end", thread))

    def tick(self, time):
        """The time is this from now on."""
        return seen(self.change("tick", time))

    def effective(self, thread):
        """The effective priority of a thread, or None."""
        return shown(LIBRARY.pif_effective(self.handle, thread))

    def waiting(self, thread):
        """Whether a thread is blocked, and its deadline, if it has one, isn't reached; None if it has no call open."""
        waiting = shown(LIBRARY.pif_waiting(self.handle, thread))
        return None if waiting is None else waiting == 1

    def word(self, mutex):
        """The word of a mutex, or None."""
        return shown(LIBRARY.pif_word(self.handle, mutex))

    def health(self, mutex):
        """The health of a mutex, fine, inconsistent or unusable, or None."""
        health = shown(LIBRARY.pif_health(self.handle, mutex))
        return None if health is None else HEALTHS[health]

    def cond_word(self, cond):
        """How often a condition variable was used, or None."""
        return shown(LIBRARY.pif_cond_word(self.handle, cond))

    def pick(self):
        """The thread that runs next, or None."""
        return shown(LIBRARY.pif_pick(self.handle))

    def owner(self, mutex):
        """The owner of a mutex, and how often it holds it, or None."""
        told = LIBRARY.pif_owner(self.handle, mutex)
        return None if told.result == NONE else (told.thread, told.count)

    def status(self, thread):
        """What a thread does, ready, queued, parked, stopped or ended, and for what it waits, or 0; or None."""
        told = LIBRARY.pif_status(self.handle, thread)
        return None if told.result == NONE else (STATES[told.state], told.waits_for)

    def base(self, thread):
        """The base priority of a thread, or None."""
        return shown(LIBRARY.pif_base(self.handle, thread))

    def kind(self, mutex):
        """The kind of a mutex, normal, recursive or errorcheck, and whether it is robust; or None."""
        kind = shown(LIBRARY.pif_mutex_kind(self.handle, mutex))
        names = {number: name for name, number in KINDS.items()}
        return None if kind is None else (names[kind], shown(LIBRARY.pif_robust(self.handle, mutex)) == 1)

    def bound(self, cond):
        """The mutex to which a condition variable is bound, or None."""
        return shown(LIBRARY.pif_bound(self.handle, cond))

    def waiters(self, mutex):
        """The threads that wait for a mutex, in the order in which they get it."""
        return in_order(LIBRARY.pif_waiter, self.handle, mutex)

    def parked(self, cond):
        """The threads that are parked on a condition variable, in the order in which they are woken."""
        return in_order(LIBRARY.pif_parked, self.handle, cond)

    def ready(self):
        """The ready threads, in the order in which they run."""
        return in_order(LIBRARY.pif_ready, self.handle)

    def path(self, thread):
        """The threads along whom each waits for the owner of a mutex, from this one on; or None."""
        return in_order(LIBRARY.pif_path, self.handle, thread) or None

    def time(self):
        """The time: that of the last tick that was not refused, 0 before the first."""
        return shown(LIBRARY.pif_time(self.handle))


def sized(text):
    """A text, or its bytes, as a function takes it, with how many bytes it has."""
    if not isinstance(text, (str, bytes)):
        raise TypeError("a text is str or bytes, and not %s" % type(text).__name__)
    taken = text.encode() if isinstance(text, str) else text
    return taken, len(taken)


def written(function, *arguments):
    """What a job prints, in as much room as it wants."""
    size = 4096
    while True:
        room = ctypes.create_string_buffer(max(size, 1))
        told = function(*arguments, room, size)
        ended = ENDS[told.ended]
        if ended in ("out of memory", "unwritten"):
            raise MemoryError
        if told.wanted <= size:
            return Printed(room.raw[:told.wanted].decode(errors="backslashreplace"), ended)
        size = told.wanted


def run(script):
    """What `pif run` prints of a script."""
    return written(LIBRARY.pif_run, *sized(script))


def check(story, name="-"):
    """What `pif check` prints of a story of this name."""
    return written(LIBRARY.pif_check, *sized(name), *sized(story))


def replay(trace):
    """What `pif replay` prints of a trace."""
    return written(LIBRARY.pif_replay, *sized(trace))


def done(function, text, seconds, goes_on, **how):
    """What a job prints that is done so, unless its seconds are over, or `goes_on` answers false."""
    asks = GOES_ON() if goes_on is None else GOES_ON(lambda _: goes_on())
    options = Options(ctypes.sizeof(Options), seconds=fitting(seconds), goes_on=asks,
                      **{name: fitting(value) for name, value in how.items()})
    return written(function, *sized(text), options)


def judge(history, states=200000, witness=False, seconds=0, goes_on=None):
    """What `pif judge --plain` prints of a history, with at most so many states made for one line. It is stopped
    after so many seconds, if that isn't 0, and once `goes_on` answers false, which is asked many times a second."""
    return done(LIBRARY.pif_judge_with, history, seconds, goes_on, states=max(states, 1), witness=witness)


def least(history, states=200000, seconds=0, goes_on=None):
    """What `pif judge --allow posix --least` prints of a history: the fewest rules of what POSIX leaves open with which it
    is legal. It is stopped as `judge` is."""
    return done(LIBRARY.pif_judge_with, history, seconds, goes_on, states=max(states, 1), least=True)


def explore(program, states=1000000, witness=False, seconds=0, goes_on=None):
    """What `pif explore` prints of a small program that locks, with at most so many states. It is stopped as `judge`
    is."""
    return done(LIBRARY.pif_explore_with, program, seconds, goes_on, states=max(states, 1), witness=witness)


# What is shown of a story.
SHOWN = {"changes": 0, "all": 1, "json": 2, "dot": 3}


def show(story, shown="changes"):
    """What `pif show` prints of a story or a script: what each command changes, or all of the core behind each; and with
    "json" or "dot" what it prints for programs."""
    return done(LIBRARY.pif_show_with, story, 0, None, shown=named("form", shown, SHOWN))


def next_schedule(bound, points):
    """Where the schedule that comes next in a search leaves that of a run: how many choices are kept, and the place of the
    option that is chosen then; None if there is no further one. `bound` is how many preemptions, ends and wake-ups there
    may be. A point is what each of its options counts towards these, and the place of the one that was chosen. The first
    option of each point counts nothing, and is chosen behind the change."""
    options = [Counts(*map(fitting, counts)) for offered, _ in points for counts in offered]
    taken = [Point(len(offered), chosen) for offered, chosen in points]
    told = LIBRARY.pif_choose_next(Counts(*map(fitting, bound)), (Point * len(taken))(*taken), len(taken),
                                   (Counts * len(options))(*options), len(options))
    return None if told.result == NONE else (told.kept, told.option)

"""What the tools of this folder share: programs are run by libschedule.so, and schedules are read and written."""

from __future__ import annotations

import ctypes
import functools
import hashlib
import json
import os
import re
import resource
import select
import shutil
import signal
import struct
import subprocess
import tempfile
import time
from pathlib import Path
from typing import NamedTuple

HERE = Path(__file__).resolve().parent
TOP = HERE.parent.parent
LIBRARY = HERE / "out" / "libschedule.so"
MEMORY = HERE / "out" / "memory"
FIRST_LINE = "pif-schedule 1"
STRATEGIES = ("random", "pct", "pick", "stay")  # by the numbers of schedule.h

# What ends a run without a verdict on the program.
UNDECIDED = ("hang", "diverged", "limit", "unsupported", "no call", "no access", "unconfirmed")

# The head of a file in which the library tells of a run, as told.c has it; its text is behind.
HEAD = struct.Struct("<8Q")
ROOM = 1 << 26
BY_LIBRARY = 2
ADDR_NO_RANDOMIZE = 0x0040000


class Refused(Exception):
    """What is asked can't be done, and why."""


def counted(count, one, several=None):
    return "%d %s" % (count, one if count == 1 else several or one + "s")


# What the sanitizers of compilers write.
REPORT = re.compile(r"(?m)(?:ERROR|WARNING): \w+Sanitizer: .*|^.*: runtime error: .*")


class Told(NamedTuple):
    """A file of the library."""

    takers: int
    points: int
    switches: int
    forks: int
    ended: int
    is_full: bool
    accesses: int
    text: str


LINE = re.compile(r"(\d+) t(\d+)\.(\d+) (?:> t(\d+)|end t(\d+)|wake t(\d+)|(time)) of((?: t\d+)*)"
                  r"(?: or end((?: t\d+)+))?(?: or wake((?: t\d+)+))? at .+")
WAY = re.compile(r"(\d+) t(\d+)\.(\d+) by (\S+) of((?: \S+)+) at .+")
MARKS = {"go": ">", "end": "end", "wake": "wake"}


class Choice(NamedTuple):
    """A line of a schedule: `kind` is `go`, `end`, `wake`, `time` or `by`, `can` are those who can go, `may_end` who may
    stop, `may_wake` who may wake by itself. `way` is that of a call, of `ways`."""

    line: str
    chooser: int
    kind: str
    thread: int = 0
    can: tuple = ()
    may_end: tuple = ()
    may_wake: tuple = ()
    way: str = ""
    ways: tuple = ()

    def is_preemption(self):
        """Whether a thread that can go on makes way for another one, or one wakes that nobody woke."""
        return self.kind == "wake" or self.kind == "go" and self.chooser in self.can and self.thread != self.chooser

    def is_usual(self):
        """Whether this is what happens without a choice: a thread goes on, then the next one by number."""
        if self.kind == "by":
            return self.way == self.ways[0]
        later = [thread for thread in self.can if thread > self.chooser]
        usual = self.chooser if self.chooser in self.can else (later or list(self.can))[0]
        return self.kind == "go" and self.thread == usual

    def with_instead(self, chosen):
        """This choice with another one in its place."""
        before = self.line[: self.line.index(" ", self.line.index(" t") + 1)]
        behind = self.line[self.line.index(" of ") :]
        return read_choice("%s %s%s" % (before, chosen, behind))

    def instead(self, kind, thread):
        """This choice with another thread."""
        return self.with_instead("%s t%d" % (MARKS[kind], thread))


def numbers_of(text):
    return tuple(int(word[1:]) for word in (text or "").split())


@functools.lru_cache(maxsize=1 << 16)
def read_choice(line):
    """A line of a schedule as a choice; None if it is none. Runs of one program have most of their lines in common."""
    found = WAY.fullmatch(line)
    if found is not None:
        return Choice(line, int(found[2]), "by", way=found[4], ways=tuple(found[5].split()))
    found = LINE.fullmatch(line)
    if found is None:
        return None
    kind = "go" if found[4] else "end" if found[5] else "wake" if found[6] else "time"
    thread = int(found[4] or found[5] or found[6] or 0)
    return Choice(line, int(found[2]), kind, thread, *map(numbers_of, found.groups()[7:]))


class Run(NamedTuple):
    """What became of a run. `kind` is the verdict in short, None if it didn't fail; `reasons` are its lines."""

    kind: str | None
    reasons: list
    points: int
    switches: int
    choices: list
    story: str
    is_story_cut: bool
    out: bytes
    err: str

    def failed(self):
        return self.kind is not None and self.kind not in UNDECIDED

    def preemptions(self):
        return sum(choice.is_preemption() for choice in self.choices)


class Asked(NamedTuple):
    """What is asked of each run. The names are those of asked.c; `expect` and what follows are the tool's."""

    strategy: str = "random"
    seed: int = 1
    depth: int = 3
    length: int = 100
    ends: int = 0
    time: int = 0
    steps: int = 1_000_000
    inherit: bool = False
    errors: bool = False
    each: bool = False
    loose: bool = False
    whole: bool = False
    story: bool = False
    memory: bool = False
    races: bool = False
    posix: bool = False
    spurious: int = 0
    expect: int = 0
    output: bytes | None = None
    seconds: float = 10.0
    allow: tuple = ()

    def text(self, choices):
        """The file that the library reads."""
        told = self._replace(strategy=STRATEGIES.index(self.strategy))._asdict()
        lines = ["%s %d" % (name, told[name]) for name in list(told)[: list(told).index("expect")]]
        lines += ["allow " + rule for rule in self.allow]
        return "".join(line + "\n" for line in [*lines, *(choice.line for choice in choices)])


# What a schedule keeps of what was asked: a replay needs it.
KEPT = ("ends", "time", "steps", "inherit", "errors", "each", "memory", "races", "spurious", "expect")

# What answers the calls of a program, by the words of --on.
MACHINES = ("core", "posix")

# The rules of POSIX that are choices on the POSIX machine: those of schedule.h.
CHOSEN_RULES = ("spurious", "barge", "any_waiter", "cycle_waits", "ends_apart", "timeout_consumes")

# Those that are choices, too, if they are allowed.
RULES = ("steal", "own_errorcheck", "any_consistent", "held_wait", "lost_signal", "revives", "cycle_refused",
         "stays_locked", "rebinds", "more_uses", "refuses_setprio", "consistent_by_any", "cut_unlock", "other_error",
         "wait_gives_all")
BOUNDS = re.compile(r"recursion=\d+\.\.\d+")


def is_rule(word):
    return word in RULES or BOUNDS.fullmatch(word) is not None


def sum_of(program):
    """A sum of the program's file."""
    return hashlib.sha256(Path(program).read_bytes()).hexdigest()[:16]


def program_named(word):
    """The file of a program that is named as a shell does it."""
    found = shutil.which(word)
    if found is None:
        raise Refused("there is no program %s" % word)
    return found


def whole(file):
    file.seek(0)
    return file.read()


def before_exec():
    """Of the process that becomes the program: the same addresses in each run, and no files of memory."""
    ctypes.CDLL(None).personality(ADDR_NO_RANDOMIZE)
    resource.setrlimit(resource.RLIMIT_CORE, (0, 0))


class Program:
    """A program that is started once, and runs by forks of that start."""

    def __init__(self, words):
        self.words = list(words)
        self.file = program_named(words[0])
        self.made = ""
        self.forks = self.others = 0  # the most children of a run, and other processes that wanted to be scheduled
        self.outside = set()  # the calls that went on outside of the schedule
        self.room = tempfile.TemporaryDirectory(prefix="pif-schedule.", dir="/dev/shm" if os.access("/dev/shm", os.W_OK)
                                                else None)
        self.folder = Path(self.room.name)
        self.process = None
        self.out, self.err = (open(self.file_of(name), "ab+", buffering=0) for name in ("out", "err"))
        self.asked, self.tellings = (open(self.file_of(name), "wb+", buffering=0) for name in ("asked", "told"))
        self.story = open(self.file_of("story"), "wb+", buffering=0)
        self.pipes = ()
        self.rest = b""  # what the program said that wasn't read as a line yet

    def __enter__(self):
        try:
            self.start()
        except BaseException:
            self.stop()
            raise
        return self

    def __exit__(self, *_):
        self.stop()

    def stop(self):
        """Ends the program, with a run that goes on, and removes the folder."""
        if self.process is not None:
            self.process.kill()
            self.process.wait()
        for end in self.pipes:
            os.close(end)
        for file in (self.out, self.err, self.asked, self.tellings, self.story):
            file.close()
        self.room.cleanup()

    def file_of(self, name):
        return self.folder / name

    def preloaded(self):
        """The library under a name without blanks and colons, at which LD_PRELOAD is cut."""
        link = self.folder / "libschedule.so"
        link.symlink_to(LIBRARY)  # the folder's own name has neither
        return " ".join(filter(None, [str(link), os.environ.get("LD_PRELOAD")]))

    def names(self):
        """What the environment of the program has for the library."""
        options = ":".join(filter(None, [os.environ.get("ASAN_OPTIONS"), "verify_asan_link_order=0"]))
        processors = ",".join(map(str, sorted(os.sched_getaffinity(0))))
        return {"LD_PRELOAD": self.preloaded(), "PIF_SCHEDULE": str(self.folder), "ASAN_OPTIONS": options,
                "PIF_SCHEDULE_PROCESSORS": processors}

    def start(self):
        read_end, self.to_program = os.pipe()
        self.from_program, write_end = os.pipe()
        self.pipes = self.to_program, self.from_program
        environment = {**os.environ, **self.names(), "PIF_SCHEDULE_SERVER": "%d,%d" % (read_end, write_end)}
        self.process = subprocess.Popen(
            [self.file, *self.words[1:]], env=environment, stdin=subprocess.DEVNULL, preexec_fn=before_exec,
            stdout=self.out, stderr=self.err, pass_fds=(read_end, write_end))
        os.close(read_end)
        os.close(write_end)
        self.made = self.answer("ready", 20)
        if self.made is None:
            raise Refused("libschedule.so isn't loaded by %s: it is linked statically, has other rights than yours, or "
                          "is no program" % self.words[0])

    def answer(self, word, seconds):
        """What is behind this word in the next line of the program; None if there is none in time."""
        until = time.monotonic() + seconds
        while b"\n" not in self.rest:
            ready, _, _ = select.select([self.from_program], [], [], max(0, until - time.monotonic()))
            more = os.read(self.from_program, 4096) if ready else b""
            if not more:
                return None
            self.rest += more
        line, _, self.rest = self.rest.partition(b"\n")
        said, _, behind = line.decode("utf-8", "replace").partition(" ")
        return behind if said == word else None

    def status(self, seconds):
        """How the process of a run ended, as waitpid has it; None if it had to be killed."""
        os.write(self.to_program, b"r")
        process = self.answer("process", 20)
        if process is None:
            raise Refused("the program isn't there any more")
        status = self.answer("status", seconds)
        if status is not None:
            return int(status)
        os.killpg(int(process), signal.SIGKILL)
        self.answer("status", 20)
        return None

    def told(self, file):
        file.seek(0)
        takers, length, points, switches, forks, ended, is_full, accesses = HEAD.unpack(file.read(HEAD.size))
        text = file.read(length).decode("ascii", "replace")
        return Told(takers, points, switches, forks, ended, bool(is_full), accesses, text)

    def prepare(self, asked, choices):
        """Makes the files for a run."""
        for file in (self.out, self.err, self.asked, self.tellings, self.story):
            file.truncate(0)
        for file in (self.tellings, self.story):
            file.truncate(ROOM)
        self.asked.seek(0)
        self.asked.write(asked.text(choices).encode())

    def run(self, asked, choices=()):
        """Runs the program once."""
        self.prepare(asked, choices)
        status = self.status(asked.seconds)
        told, story = self.told(self.tellings), self.told(self.story)
        made = [choice for choice in map(read_choice, told.text.splitlines()) if choice]
        out = whole(self.out)
        err = whole(self.err).decode("utf-8", "replace")
        kind, reasons = verdict(asked, told, status, out, err)
        self.outside |= {line[2:] for line in told.text.splitlines() if line.startswith("~ ")}
        self.forks, self.others = max(self.forks, told.forks), max(self.others, told.takers - 1)
        return Run(kind, reasons, told.points, told.switches, made, story.text, story.is_full, out,
                   err)


def reasons_of(told):
    """The lines in which the library says why it ended the run."""
    return [line[2:] for line in told.text.splitlines() if line.startswith("# ")]


def verdict(asked, told, status, out, err):
    """The verdict on a run in short, and its lines."""
    reasons = reasons_of(told)
    report = REPORT.search(err)
    if report and status is not None and told.ended != BY_LIBRARY:
        return "sanitizer", ["sanitizer: %s" % report[0]]
    if status is None:
        return "hang", ["hang: the run takes more than %g seconds" % asked.seconds]
    if told.ended == BY_LIBRARY:
        return reasons[0].partition(":")[0], reasons
    if os.WIFSIGNALED(status):
        name = signal.Signals(os.WTERMSIG(status)).name
        return name, ["%s: %s" % (name, signal.strsignal(os.WTERMSIG(status)))]
    if told.takers == 0:
        return "no call", ["no call: no thread was started, and no call on locks was seen"]
    if asked.memory and told.accesses == 0:
        return "no access", ["no access: the program isn't built with -fsanitize=thread against %s" % MEMORY]
    if os.WEXITSTATUS(status) != asked.expect:
        return "status %d" % os.WEXITSTATUS(status), ["status %d, and %d is expected" % (os.WEXITSTATUS(status),
                                                                                        asked.expect)]
    if asked.output is not None and out != asked.output:
        return "wrong output", ["wrong output: %d bytes, and %d are expected" % (len(out), len(asked.output))]
    return None, []


class Schedule(NamedTuple):
    """A schedule's file: of which program it is, what was asked, how it ended, and its choices."""

    words: list
    sum: str
    asked: Asked
    outcome: str
    reasons: list
    choices: list

    def text(self):
        asked = self.asked._asdict()
        kept = ["set %s %d" % (name, asked[name]) for name in KEPT]
        lines = [FIRST_LINE, "program %s" % self.sum, *("word %s" % json.dumps(word) for word in self.words),
                 "on %s" % MACHINES[self.asked.posix], "strategy %s" % self.asked.strategy,
                 "seed %d" % self.asked.seed, *kept, *("allow %s" % rule for rule in self.asked.allow),
                 "outcome %s" % self.outcome, *("# %s" % line for line in self.reasons),
                 *(choice.line for choice in self.choices)]
        return "".join(line + "\n" for line in lines)


def read_schedule(path):
    """The schedule of a file."""
    try:
        lines = Path(path).read_text("utf-8").splitlines()
    except (OSError, UnicodeDecodeError) as why:
        raise Refused("%s can't be read: %s" % (path, getattr(why, "strerror", None) or "it is no text")) from why
    if not lines or lines[0] != FIRST_LINE:
        raise Refused("%s is no schedule: its first line isn't '%s'" % (path, FIRST_LINE))
    words, head, kept, allow, reasons, choices = [], {}, {}, [], [], []
    for number, line in enumerate(lines[1:], 2):
        word, _, behind = line.partition(" ")
        if word == "word" and behind.startswith('"'):
            words.append(json.loads(behind))
        elif word in ("program", "on", "strategy", "seed", "outcome"):
            head[word] = behind
        elif word == "set" and re.fullmatch(r"(?:%s) \d+" % "|".join(KEPT), behind):
            kept[behind.split()[0]] = int(behind.split()[1])
        elif word == "allow" and is_rule(behind):
            allow.append(behind)
        elif word == "#":
            reasons.append(behind)
        elif choice := read_choice(line):
            choices.append(choice)
        else:
            raise Refused("%s is no schedule: its line %d is '%s'" % (path, number, line))
    missing = [word for word in ("program", "on", "strategy", "seed", "outcome") if word not in head]
    if (missing or not words or head["strategy"] not in STRATEGIES or not head["seed"].isdigit()
            or head["on"] not in MACHINES):
        why = "it has no line '%s'" % missing[0] if missing else "a line of its head is wrong"
        raise Refused("%s is no schedule: %s" % (path, why))
    asked = Asked(strategy=head["strategy"], seed=int(head["seed"]), posix=head["on"] == "posix", allow=tuple(allow),
                  **kept)
    return Schedule(words, head["program"], asked, head["outcome"], reasons, choices)

"""What the tools of this folder share: a program is recorded, and its history judged by `pif judge`."""

import atexit
import functools
import os
import re
import shutil
import subprocess
import tempfile
from pathlib import Path
from typing import NamedTuple

HERE = Path(__file__).resolve().parent
TOP = HERE.parent.parent
LIBRARY = HERE / "librecord.so"
LEGAL, FAULT, UNREAD, ILLEGAL, UNDECIDED, MISTAKE = 0, 2, 3, 5, 7, 10
VERDICTS = (LEGAL, FAULT, ILLEGAL, UNDECIDED, MISTAKE)
NOT_SEEN = "# not seen: "


class Verdict(NamedTuple):
    """What is told of a history, and where."""

    status: int
    text: str
    line: int  # of an illegal or undecided one, or of a mistake of the log; else 0


def make(*targets):
    """Builds what stands in this folder."""
    subprocess.run(["make", "-s", "-C", str(HERE), *targets], check=True)


@functools.cache
def preloaded(library):
    """A name of a library for LD_PRELOAD, which is cut at blanks and colons: a link, if its own has such."""
    if not re.search("[ :]", str(library)):
        return str(library)
    folder = tempfile.mkdtemp()
    atexit.register(shutil.rmtree, folder, ignore_errors=True)
    link = Path(folder) / library.name
    link.symlink_to(library)
    return str(link)


def environment(history, besides=None, variable="RECORD_FILE"):
    """The variables with which a program is recorded. What it preloads itself comes after the recorder."""
    libraries = " ".join(filter(None, [preloaded(LIBRARY), os.environ.get("LD_PRELOAD")]))
    names = {name: value for name, value in os.environ.items() if name != "RECORD_DIR"}  # it would come first
    return {**names, variable: str(history), "LD_PRELOAD": libraries, **(besides or {})}


def made_of(program, recording, history):
    """Writes a recording of several processes by `merge`, or one in parts by `join`, as one history, if it is anything."""
    status = subprocess.run([HERE / program, recording, history]).returncode
    if status not in (LEGAL, UNREAD):
        raise OSError(0, "it cannot be written as a history", str(recording))


def with_time(words, seconds, *options):
    """The words with a SIGALRM after so many seconds, and five seconds later the end; options as of timeout(1)."""
    return ["timeout", *options, "-k", "5", "-s", "ALRM", str(seconds), *map(str, words)]


def said_by_recorder(text):
    """What the recorder said on standard error."""
    return [line.removeprefix("librecord: ") for line in text.splitlines() if line.startswith("librecord: ")]


def first_lines(history, count):
    """Leaves the first lines of a history alone. They are one themselves: the calls that stay open may still do
    anything."""
    with history.open("rb") as file:
        lines = [line for _, line in zip(range(count), file)]
    history.write_bytes(b"".join(lines))


def passed_by(history):
    """What the recorder didn't see, as `12 calls on rwlocks`, by the comments of a history."""
    with history.open(encoding="utf-8", errors="replace") as file:
        return [line[len(NOT_SEEN):].strip() for line in file if line.startswith(NOT_SEEN)]


def get_ready(pif=None):
    """Has ./pif build the program, if it has to, and say so: while a history is judged nobody sees what it says."""
    subprocess.run([str(pif or TOP / "pif"), "run"], stdin=subprocess.DEVNULL, stdout=subprocess.DEVNULL)


def judge(history, pif=None, states=None, seconds=None, rules=()):
    """The verdict of the machine on a history, with what these rules allow, without what POSIX says; undecided if it isn't
    there after so many seconds."""
    allowed = [word for rule in rules for word in ("--allow", rule)]
    words = [str(pif or TOP / "pif"), "judge", "--plain", *allowed, *(["--states", str(states)] if states else []), str(history)]
    try:
        done = subprocess.run(words, stdin=subprocess.DEVNULL, capture_output=True, text=True, timeout=seconds)
    except subprocess.TimeoutExpired:
        return Verdict(UNDECIDED, "undecided: it takes more than %d seconds\n" % seconds, 0)
    found = re.match(r"(?:illegal at|(?:legal up to \d+; )?undecided from|log) (\d+)", done.stdout)
    told = done.stdout if done.stdout else done.stderr
    return Verdict(done.returncode, told, int(found[1]) if found else 0)


def page(history, pif=None, rules=()):
    """The page of the verdict, for a browser."""
    allowed = [word for rule in rules for word in ("--allow", rule)]
    words = [str(pif or TOP / "pif"), "judge", *allowed, "--html", str(history)]
    return subprocess.run(words, stdin=subprocess.DEVNULL, capture_output=True, text=True).stdout


def excerpt(history, line):
    """The calls on that line's mutex and its variables since it was last free, up to that line; else nothing."""
    done = subprocess.run([HERE / "excerpt", history, str(line)], capture_output=True, text=True)
    return done.stdout

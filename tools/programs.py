"""The programs of this clone: which crates `pif` stands on, the sum of their sources, and the program that is kept in
out/ with what it is, and how long a proof of it takes. tools/kept, tools/prove and tools/install use this."""

import hashlib
import math
import os
import re
import shutil
import subprocess
import sys
from pathlib import Path

TOP = Path(__file__).resolve().parent.parent

# The program that `./pif` runs, and the text that says what it is.
PROGRAM = TOP / "out" / "pif"
VERSION = TOP / "out" / "pif.version"

# Where `rt ci` and `rt run` leave the proved one.
PROVED = TOP / "crates" / "pif" / "out" / "pif"

HOW = {"proved": "proved", "checked": "checked as it runs, not proved"}

# The page with a row of costs for each crate, of the newest commit last: its name, and the processor seconds of its
# proof.
COSTS = TOP / "bench" / "results" / "gate.md"
COMMIT = "\n## Commit "
ROW = re.compile(r"^\| `(pif\w*)` \| ([\d,]+) \|", re.M)
# Of a crate that is newer than the page.
USUAL = 60


def said_by(*words):
    """What a command prints, without blanks at its ends; None if it can't be run or fails."""
    try:
        done = subprocess.run(words, stdin=subprocess.DEVNULL, stdout=subprocess.PIPE, stderr=subprocess.DEVNULL)
    except OSError:
        return None
    return done.stdout.decode("utf-8", "replace").strip() if done.returncode == 0 else None


def printed(text):
    """Prints a text; the status that this makes, which is that of the program too."""
    try:
        print(text, end="", flush=True)
    except OSError:
        # Else Python tries to write the rest once more at its end.
        os.dup2(os.open(os.devnull, os.O_WRONLY), sys.stdout.fileno())
        print("pif: the output cannot be written", file=sys.stderr)
        return 3
    return 0


def crates():
    """The crates that the program stands on and its own, lowest first, each with those that it uses."""
    uses = {}
    for line in (TOP / "crates.txt").read_text("utf-8").splitlines():
        head, cut, used = line.partition(":")
        if cut and not line.startswith("#"):
            uses[head.split()[0]] = used.split()
    wanted = {"pif"}
    for name in reversed(list(uses)):
        if name in wanted:
            wanted.update(uses[name])
    return {name: [other for other in used if other in uses] for name, used in uses.items() if name in wanted}


def costs():
    """The seconds of each crate's proof by the page."""
    newest = COSTS.read_text("utf-8").rpartition(COMMIT)[2]
    return {name: int(seconds.replace(",", "")) for name, seconds in ROW.findall(newest)}


def side_by_side():
    """How many crates are proved at a time: one for each processor and each five gigabytes of memory, as the gate does
    (bench/gate_sample.py)."""
    bytes_of_memory = os.sysconf("SC_PAGE_SIZE") * os.sysconf("SC_PHYS_PAGES")
    return max(1, min(len(os.sched_getaffinity(0)), bytes_of_memory // 5_000_000_000))


def seconds_to_prove(left, costs, most):
    """The seconds for the proofs of these crates, each of which has those that it uses: those of all, shared among what
    runs side by side, or of the longest chain."""
    chain = {}
    for name, uses in left.items():
        below = [chain[other] for other in uses if other in chain]
        chain[name] = costs.get(name, USUAL) + max(below, default=0)
    return max(sum(costs.get(name, USUAL) for name in left) / most, *chain.values()) if chain else 0


def minutes_to_prove():
    """The minutes that a proof of all takes here by the page."""
    return math.ceil(seconds_to_prove(crates(), costs(), side_by_side()) / 60)


def sources():
    """The files that the program is made of."""
    folders = [TOP / "crates" / name / part for name in crates() for part in ("src", "specs")]
    return [TOP / "crates.txt", *sorted(path for folder in folders for path in folder.rglob("*") if path.is_file())]


def sum_of_sources():
    """A sum of the names and texts of these files."""
    found = hashlib.sha256()
    for path in sources():
        text = path.read_bytes()
        found.update(b"%s %d\n" % (str(path.relative_to(TOP)).encode(), len(text)) + text)
    return found.hexdigest()


def commit():
    """The commit of this clone, and whether its sources have changes that it doesn't have."""
    found = said_by("git", "-C", str(TOP), "rev-parse", "--short=12", "HEAD")
    if found is None:
        return "unknown"
    changed = said_by("git", "-C", str(TOP), "status", "--porcelain", "--", "crates", "crates.txt")
    return found + (", with changes" if changed else "")


def version_text(how, program, made_of):
    """What is said of a program of the sources with this sum; None if it can't be run."""
    name = said_by(str(program), "--version")
    if name is None:
        return None
    kit = said_by("rt", "version") or "unknown"
    return "%s, %s\ncommit %s\nkit %s\nsources %s\n" % (name, HOW[how], commit(), kit, made_of)


def keep(how, program, made_of):
    """Keeps a program as the one that `./pif` runs; whether it could. `made_of` is the sum that its sources had before
    they were read. If they have another one now, `./pif` asks again, however new the file is that says what it is."""
    text = version_text(how, program, made_of)
    if text is None:
        return False
    PROGRAM.parent.mkdir(exist_ok=True)
    for path in (PROGRAM, VERSION):
        beside = path.with_name("%s.%d" % (path.name, os.getpid()))
        try:
            if path == PROGRAM:
                shutil.copyfile(program, beside)
                beside.chmod(0o755)
            else:
                beside.write_text(text, "utf-8")
            beside.replace(path)
        finally:
            beside.unlink(missing_ok=True)
    if sum_of_sources() != made_of:
        os.utime(VERSION, (0, 0))
    return True


def kept_version():
    """What is said of the program that is kept; None if there is none."""
    try:
        return VERSION.read_text("utf-8") if os.access(PROGRAM, os.X_OK) else None
    except OSError:
        return None


def is_of_sources(text):
    """Whether a program of which this is said has the sources of today."""
    return text is not None and text.splitlines()[-1:] == ["sources " + sum_of_sources()]


def is_proved(text):
    return text.splitlines()[0].endswith(", " + HOW["proved"])


def made_at(name):
    """When `rt` made the library of a crate, or took over one that another folder had of the same sources; None if there
    is no library. Of that it leaves a stamp beside the library."""
    folder = TOP / "crates" / name / "out" / "rlib"
    made = [path.stat().st_mtime_ns for path in (folder / (name + ".rlib"), folder / "stamp") if path.exists()]
    return max(made, default=None)


def is_made_of_all():
    """Whether each source is older than the library of its crate, and than the program. What is changed while the
    others are proved is newer than that library, and may be older than the program."""
    program = PROVED.stat().st_mtime_ns
    made = {name: min(made_at(name) or program, program) for name in crates()}
    return all(path.stat().st_mtime_ns < made.get("".join(path.relative_to(TOP).parts[1:2]), program)
               for path in sources())


def take_proved():
    """Keeps the program that `rt ci` or `rt run` has left, if it is newer than what is kept and was made of all sources
    as they are; whether it did."""
    try:
        if VERSION.exists() and VERSION.stat().st_mtime_ns > PROVED.stat().st_mtime_ns:
            return False
        made_of = sum_of_sources()
        return is_made_of_all() and keep("proved", PROVED, made_of)
    except OSError:
        return False

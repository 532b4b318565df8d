"""What the runs of host/others share: an implementation is fetched and built, recorded by batches of seeds, and judged."""

import argparse
import collections
import functools
import importlib.machinery
import importlib.util
import os
import platform
import re
import shutil
import subprocess
import sys
import tempfile
from concurrent.futures import ThreadPoolExecutor
from pathlib import Path
from typing import NamedTuple

HERE = Path(__file__).resolve().parent
TOP = HERE.parent.parent
RECORD = HERE.parent / "record"
sys.path.insert(0, str(RECORD))

from packages import CANNOT_ASK, CannotAsk, run, unpack  # noqa: E402

OUT = Path(os.environ.get("OTHERS_CACHE") or Path.home() / ".cache" / "pif-others")
C = HERE / "c"
FLAGS = ["-std=c11", "-O2", "-g", "-Wall", "-Wextra", "-Werror", "-D_GNU_SOURCE", "-pthread", "-I", str(C), "-I", str(RECORD)]
HUNG, NICE, AT_ONCE, PLACES = 9, 10, 2, ("packages", "root")
LEGAL, FORBIDDEN, UNDEFINED, UNDECIDED = "legal", "forbidden", "undefined", "undecided"
UNLIMITED_USES, ANY_HOLDS = "more_uses", "recursion=1..4294967295"


class Batch(NamedTuple):
    """Recordings of one kind. The words get `--seed N`, and write to RECORD_FILE. `may` are the rules that are known to be
    needed, `forbidden` if some are illegal with all, and what else may happen, as `hung` or `signal 6`. With `always` a
    history that is legal isn't right either. A `share` is how many times the
    number of seeds are made."""

    name: str
    words: list
    may: tuple = ()
    always: bool = False
    share: float = 1
    number: int = 0


class Implementation(NamedTuple):
    """What is judged: its name, and what fetches and builds it, which answers its version and its batches."""

    name: str
    make: object
    lacks: str = ""  # in words, what it hasn't got, so that it is left out


class Result(NamedTuple):
    """A recording: its verdict in a word or the names of rules, or None; how many calls; and what else happened."""

    verdict: str
    calls: int
    trouble: str
    history: Path
    told: str


# ---- packages

def fetched(name, packages, asked):
    """The folder below which these packages stand, as they would below /. They are fetched once."""
    place = OUT / name
    done = place / "fetched"
    if done.exists() and done.read_text().split() == sorted(packages):
        return place / "root"
    if asked.offline:
        raise CannotAsk("it isn't there, and nothing is fetched: %s" % " ".join(packages))
    for part in PLACES:
        shutil.rmtree(place / part, ignore_errors=True)
    place.mkdir(parents=True, exist_ok=True)
    unpack(sorted(packages), place)
    done.write_text("\n".join(sorted(packages)) + "\n")
    return place / "root"


def lines_of(*words):
    return subprocess.run(words, capture_output=True, text=True, stdin=subprocess.DEVNULL).stdout.splitlines()


def needed_by(package, pattern):
    """The packages of a metapackage whose names are so."""
    found = [line.split()[-1] for line in lines_of("apt-cache", "depends", package) if "Depends:" in line]
    return [name for name in found if re.match(pattern, name)]


def with_all_needed(package):
    """It, and what of its dependencies isn't installed."""
    words = ("apt-get", "install", "--no-install-recommends", "--print-uris", "-y", package)
    return [match[1] for line in lines_of(*words) if (match := re.match(r"'[^']*/([a-z0-9][^_/']*)_[^']*' ", line))]


def version_of(name, package):
    """Of a package that was fetched, or is installed."""
    for path in sorted((OUT / name / "packages").glob(package + "_*.deb")):
        return "%s %s (Debian)" % (package, "".join(lines_of("dpkg-deb", "-f", str(path), "Version")))
    said = "".join(lines_of("dpkg-query", "-W", "-f", "${Version}", package))
    return "%s %s (Debian)" % (package, said) if said else package


# ---- building

def place_of(name):
    place = OUT / name
    place.mkdir(parents=True, exist_ok=True)
    return place


def build(words):
    done = subprocess.run([str(word) for word in words], capture_output=True, text=True)
    if done.returncode != 0:
        errors = [line for line in done.stderr.splitlines() if "error" in line] or done.stderr.splitlines() or ["?"]
        raise CannotAsk("it can't be built: %s" % errors[0])


def build_pthreads(name, compiler, flags):
    """The hammer and the probes of a C library: their calls note themselves."""
    place = place_of(name)
    noted = place / "noted.o"
    build([*compiler, *FLAGS, *flags, "-c", "-o", noted, C / "noted.c"])
    whole = [*compiler, *FLAGS, *flags, "-static", "-include", C / "noted_calls.h"]
    rest = [RECORD / "hammer_glibc.c", C / "noted_hammer.c", noted]
    build([*whole, "-o", place / "hammer", RECORD / "hammer.c", RECORD / "hammer_work.c", *rest])
    build([*whole, "-o", place / "probe", C / "probe.c", C / "probe_calls.c", C / "probe_ends.c", *rest])
    return place / "hammer", place / "probe"


def build_callers():
    """The hammer and the probes that load a library."""
    subprocess.run(["make", "-s", "-C", str(RECORD), "hammer"], check=True)
    probe = place_of("callers") / "probe"
    sources = [C / "probe.c", C / "probe_calls.c", C / "probe_library.c", RECORD / "hammer_glibc.c", RECORD / "hammer_library.c"]
    build(["gcc", *FLAGS, "-o", probe, *sources, "-ldl"])
    return RECORD / "hammer", probe


# The random runs of mutexes that have no kinds, no ends and no priorities.
RANDOM = {
    "two threads": ["--threads", "2", "--mutexes", "1", "--calls", "40"],
    "three threads, two mutexes": ["--threads", "3", "--mutexes", "2", "--calls", "30"],
    "waits": ["--threads", "3", "--mutexes", "1", "--calls", "25", "--waits", "50", "--timed", "40"],
    "two variables": ["--threads", "4", "--mutexes", "2", "--variables", "2", "--calls", "20", "--waits", "40"],
    "trylocks": ["--threads", "4", "--mutexes", "2", "--variables", "0", "--calls", "30", "--trylock", "50"],
}
CALL_PROBES = ("signal_at_a_timeout", "timed_lock_of_pinned_threads", "one_sleeps_and_one_tries", "cycle_with_deadlines",
               "held_300_times", "wait_with_two_holds")


def library_batches(library, known, prefix=""):
    """The random runs and the probes of a library; `known` says by the name of a batch, or of all, what is known."""
    hammer, probe = build_callers()
    for name, words in RANDOM.items():
        yield Batch(prefix + name, [hammer, "--library", library, *words], known.get(name, known.get("", ())))
    for name in CALL_PROBES:
        may = known.get(name, known.get("", ()))
        words = [probe, name, "--library", library, *(["--fifo"] if name in RACES else [])]
        yield Batch(prefix + name, words, may, share=2 if name in RACES else 0.2)


# Probes whose threads race: they need many seeds.
RACES = {"signal_at_a_timeout", "owner_ends", "owner_ends_with_two", "owner_ends_with_two_and_one_waits", "signaller_ends",
         "one_sleeps_and_one_tries", "lost_and_wanted_by_two"}


# ---- recording and judging

def judged(history, asked, *options):
    words = [str(asked.pif), "judge", "--seconds", str(asked.seconds), *options, str(history)]
    return subprocess.run(words, stdin=subprocess.DEVNULL, capture_output=True, text=True).stdout


@functools.cache
def reachable_rules():
    """The options that allow all rules but that for uses beyond a variable's limit, which no recording reaches. With it
    each signal may count or not, so that searches are given up which are over in a second without it."""
    loader = importlib.machinery.SourceFileLoader("check_history", str(RECORD / "check_history"))
    module = importlib.util.module_from_spec(importlib.util.spec_from_loader("check_history", loader))
    loader.exec_module(module)
    names = [ANY_HOLDS if name == module.WITH_NUMBER else name for name in module.RULES if name != UNLIMITED_USES]
    return [word for name in names for word in ("--allow", name)]


def verdict_of(history, asked):
    """A word or the names of rules, and what is told."""
    told = judged(history, asked)
    first = told.split(" ")[0].strip()
    allowed = re.search(r"(?m)^POSIX allows it: (.*)$", told)
    if first == LEGAL or first not in ("illegal", UNDECIDED):
        return (LEGAL if first == LEGAL else told.strip() or "no verdict"), told
    if allowed:
        return re.sub("=[0-9.]+|, (perhaps fewer|but for).*", "", allowed[1]), told
    if re.search(r"(?m)^POSIX may leave it undefined: ", told):
        return UNDEFINED, told
    least = judged(history, asked, "--plain", *reachable_rules(), "--least")
    told += "with all rules but %s: %s" % (UNLIMITED_USES, least)
    with_rules = re.match(r"legal \d+, .*, with (.*)$", least.split("\n")[0])
    if with_rules:
        return re.sub("=[0-9.]+", "", with_rules[1]), told
    return (FORBIDDEN if least.startswith("illegal") else UNDECIDED), told


def trouble_of(status):
    """What a status tells, of a program or of a shell: nothing is wrong, it hung, or else; None if it can't be asked."""
    if status == CANNOT_ASK:
        return None
    signal = -status if status < 0 else status - 128
    return {0: "", HUNG: "hung"}.get(status, "signal %d" % signal if signal > 0 else "status %d" % status)


def record(batch, seed, history, seconds=30):
    """What went wrong with a recording, or nothing; None if it can't be asked."""
    env = {**os.environ, "RECORD_FILE": str(history), "GOMAXPROCS": "4"}
    words = [str(word) for word in batch.words] + ["--seed", str(seed)]
    try:
        done = subprocess.run(words, env=env, capture_output=True, stdin=subprocess.DEVNULL, timeout=seconds)
    except subprocess.TimeoutExpired:
        return "hung"
    return trouble_of(done.returncode)


def file_name(batch):
    return re.sub(r"\W+", "_", batch.name)


def made(batch, seed, folder, asked):
    """A recording, judged; None if it can't be asked."""
    history = folder / ("%s-%d.history" % (file_name(batch), seed))
    trouble = record(batch, seed, history)
    return None if trouble is None else result_of(history, trouble, asked)


def result_of(history, trouble, asked):
    text = history.read_bytes() if history.exists() else b""
    if b"begin" not in text or b"# lost" in text:
        return Result("", 0, trouble or "no history", history, "")
    verdict, told = verdict_of(history, asked)
    calls = history.read_text().count("\nbegin ")
    return Result(verdict, calls, trouble, history, told)


def is_known(batch, result):
    """Whether it is as it is said to be."""
    if result.trouble and result.trouble not in batch.may:
        return False
    if result.verdict in ("", UNDECIDED):
        return True
    return not batch.always if result.verdict == LEGAL else set(result.verdict.split()) <= set(batch.may)


def keep(asked, name, result):
    if not asked.keep or (result.verdict == LEGAL and not result.trouble):
        return
    place = asked.keep / name
    place.mkdir(parents=True, exist_ok=True)
    if result.history.exists():
        shutil.copy(result.history, place)
    (place / (result.history.stem + ".told")).write_text(result.trouble + "\n" + result.told)


COLUMNS = ("Batch", "Histories", "Calls", "Legal", "Else", "Undecided", "Trouble", "As known")


def row_of(batch, results):
    """A line of the table, of what was asked."""
    verdicts = collections.Counter(result.verdict for result in results if result.verdict)
    troubles = collections.Counter(result.trouble for result in results if result.trouble)
    others = {name: count for name, count in verdicts.items() if name not in (LEGAL, UNDECIDED)}
    listed = [", ".join("%d %s" % (count, name) for name, count in sorted(some.items())) for some in (others, troubles)]
    right = all(is_known(batch, result) for result in results)
    return (batch.name, sum(verdicts.values()), sum(result.calls for result in results), verdicts[LEGAL], listed[0],
            verdicts[UNDECIDED], listed[1], "yes" if right else "NO")


def play(batch, name, asked, pool):
    """The results of a batch; None if it can't be asked here."""
    seeds = max(1, round(asked.seeds * batch.share))
    with tempfile.TemporaryDirectory() as folder:
        results = list(pool.map(lambda seed: made(batch, seed, Path(folder), asked), range(1, seeds + 1)))
        if None in results:
            return None
        for result in results:
            keep(asked, name, result)
    return results


def read_words(name):
    parser = argparse.ArgumentParser(
        prog=name + "/run", description="Records %s and judges it; host/others/README.md says what is printed." % name)
    parser.add_argument("--seeds", type=int, default=20, help="how many of each random run; 20 without it")
    parser.add_argument("--seconds", type=int, default=8, help="of each search of the judge; 8 without it")
    parser.add_argument("--keep", type=Path, help="a folder for what isn't legal plainly")
    parser.add_argument("--pif", type=Path, default=TOP / "out" / "pif", help="the program; out/pif without it")
    parser.add_argument("--offline", action="store_true", help="fetch nothing")
    parser.add_argument("batches", nargs="*", help="parts of the names of batches; all without them")
    return parser.parse_args()


def print_row(cells):
    print("| %s |" % " | ".join(str(cell) for cell in cells), flush=True)


def judge_all(implementation, batches, asked, playing):
    """Prints the table; whether all is as known. A batch is recorded and judged by `playing`."""
    wanted = [batch for batch in batches if not asked.batches or any(part in batch.name for part in asked.batches)]
    print_row(COLUMNS)
    print("|---" * len(COLUMNS) + "|")
    right, all_results, unasked = True, [], []
    with ThreadPoolExecutor(AT_ONCE) as pool:
        for batch in wanted:
            results = playing(batch, implementation.name, asked, pool)
            if results is None:
                unasked.append(batch.name)
                continue
            print_row(row_of(batch, results))
            right = right and all(is_known(batch, result) for result in results)
            all_results += results
    print_row(row_of(Batch("all", []), all_results)[:-1] + ("yes" if right else "NO",))
    if unasked:
        print("can't be asked: %s" % ", ".join(unasked))
    return right


def main(implementation, playing=play):
    asked = read_words(implementation.name)
    os.nice(NICE)
    try:
        if not Path(asked.pif).exists():
            raise CannotAsk("there is no %s; ./pif builds it" % asked.pif)
        version, batches = implementation.make(asked)
    except (CannotAsk, OSError, subprocess.CalledProcessError) as why:
        print("%s: not asked: %s" % (implementation.name, why), file=sys.stderr)
        return CANNOT_ASK
    print("%s, on %s %s" % (version, platform.system(), platform.release()))
    if implementation.lacks:
        print("left out: %s" % implementation.lacks)
    return 0 if judge_all(implementation, list(batches), asked, playing) else 5

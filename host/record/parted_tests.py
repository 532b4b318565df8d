"""The tests of recordings in parts. `test` makes them, and gives what all tests use."""

import os
import platform
import re
import shutil
import signal
import subprocess
import time

# Their records are too many for one thread, or too late: recordings in parts have no such end.
OTHERWISE = ("many_calls", "cut_in_a_call", "later_than_all")


def names_of(kit, place, besides=None):
    """The variables of a recording in parts. RECORD_FILE is set, too, and isn't used then."""
    (place / "parts").mkdir(exist_ok=True)
    return kit.environment(place / "unused", {"RECORD_DIR": str(place / "parts"), **(besides or {})})


def join(kit, place, *words):
    return kit.run([kit.HERE / "join", *words, place / "parts", place / "history"])


def joined(kit, place, *words):
    """The history, and what is said when it is made."""
    done = join(kit, place, *words)
    kit.demand(done.returncode == 0, "join: status %d: %s" % (done.returncode, done.stderr.strip()))
    kit.demand(not (place / "unused").exists(), "there is a history without join")
    return kit.checked(place / "history"), done


def test_feature(kit, place, feature, is_stored):
    """The history is that of RECORD_FILE."""
    name, besides, said, how = feature
    if how == "fifo" and not kit.may_have_fifo():
        raise kit.NotAsked("SCHED_FIFO isn't allowed")
    done = kit.run([kit.FEATURES, name], env=names_of(kit, place, besides))
    kit.demand(done.returncode == 0 and done.stderr == "", "status %d: %s" % (done.returncode, done.stderr.strip()))
    text, told = joined(kit, place)
    passed_by, others = kit.parted(told)
    kit.demand(others == said, "join says %s" % others)
    kit.demand(passed_by == kit.PASSED_BY.get(name, passed_by), "not seen are %s" % passed_by)
    kit.compare(name, kit.plain(text), how, is_stored)


def test_names(kit, place, is_stored):
    kit.run([kit.FEATURES, "names"], env=names_of(kit, place))
    kit.compare("names.text", kit.with_comments(joined(kit, place)[0]), "", is_stored)


def test_where(kit, place, _):
    kit.run([kit.FEATURES, "timed_locks"], env=names_of(kit, place, {"RECORD_WHERE": "1"}))
    text = joined(kit, place)[0]
    places = len(re.findall(r"\nbegin .*\n# at \S+ in \S+\n", text))
    kit.demand(text.count("\nbegin ") == places, "a begin without a place")


def small_run(kit, place, words, besides=None):
    """Records a program in parts of few events; its result."""
    libraries = (kit.HERE / "out" / "small_parts.so", kit.HERE / "out" / "failing.so")
    (place / "parts").mkdir(exist_ok=True)
    names = kit.environment(place / "unused", {"RECORD_DIR": str(place / "parts"), **(besides or {})}, libraries)
    return kit.run(words, env=names)


def small(kit, place, name, besides=None, before=()):
    return small_run(kit, place, [*before, kit.FEATURES, name], besides)


def join_small(kit, place, *words):
    return kit.run([kit.HERE / "out" / "join_small", *words, place / "parts", place / "history"])


def numbers_of(place):
    """The numbers of the parts that are there, and the path of the run without its ending."""
    (run,) = (place / "parts").glob("*.run")
    found = sorted(int(path.suffix[1:]) for path in (place / "parts").iterdir() if path != run)
    return found, run.with_suffix("")


def demand_joined(kit, done, status, *said):
    kit.demand(done.returncode == status, "join: status %d: %s" % (done.returncode, done.stderr.strip()))
    lines = [line.removeprefix("join: ") for line in done.stderr.splitlines() if line.startswith("join: ")]
    kit.demand(lines == list(said), "join says %s" % lines)


def demand_legal(kit, history):
    kit.demand_legal(history, history.read_text().splitlines())


def test_killed(kit, place, is_stored):
    """A program that is killed loses nothing that was published. It may be joined before that, too."""
    with subprocess.Popen([kit.FEATURES, "hangs"], env=names_of(kit, place)) as program:
        end = time.monotonic() + kit.MOST_SECONDS
        while kit.blocked_threads(program.pid) < 2 and time.monotonic() < end:
            time.sleep(0.01)
        try:
            kit.compare("hangs", kit.plain(joined(kit, place)[0]), "", is_stored)
        finally:
            program.kill()
        kit.demand(program.wait(kit.MOST_SECONDS) == -signal.SIGKILL, "it isn't killed")
    kit.compare("hangs", kit.plain(joined(kit, place)[0]), "", is_stored)


def test_killed_anywhere(kit, place, _):
    """Threads are killed in the midst of their calls."""
    (place / "parts").mkdir()
    besides = {"RECORD_DIR": str(place / "parts")}
    names = kit.environment(place / "unused", besides, (kit.HERE / "out" / "small_parts.so",))
    words = "--threads 3 --mutexes 2 --variables 1 --calls 1000000".split()
    with subprocess.Popen([kit.HERE / "hammer", *words], env=names) as program:
        end = time.monotonic() + kit.MOST_SECONDS
        while len(list((place / "parts").iterdir())) < 9 and time.monotonic() < end:
            time.sleep(0.01)
        program.kill()
        program.wait(kit.MOST_SECONDS)
    demand_joined(kit, join_small(kit, place, "--last", 9), 0)
    kit.demand(kit.checked(place / "history").count("\nanswer ") > 300, "lines are lost")
    demand_legal(kit, place / "history")


def test_holding(kit, place, name, is_stored):
    kit.demand_ended(name, names_of(kit, place))
    kit.compare("holds_to_the_end", kit.plain(joined(kit, place)[0]), "", is_stored)


def test_own_end(kit, place, name, number, is_stored):
    done = kit.run([kit.FEATURES, name], env=names_of(kit, place))
    kit.demand(done.returncode == -number, "status %d" % done.returncode)
    kit.compare(name, kit.plain(joined(kit, place)[0]), "", is_stored)


def test_handler(kit, place, _):
    if platform.machine() != "x86_64":
        raise kit.NotAsked("this isn't x86-64")
    done = kit.run([kit.FEATURES, "handler_everywhere"], env=names_of(kit, place, kit.INHERITING))
    kit.demand(done.returncode == 0, "status %d" % done.returncode)
    text, told = joined(kit, place)
    return kit.demand_whole_calls(text, int(done.stdout), kit.parted(told)[1])


def test_rights(kit, place, _):
    """Later parts need no rights to the directory's path, and the program may have closed what is open."""
    if os.geteuid() != 0:
        raise kit.NotAsked("the test has no rights to give up")
    (place / "parts").mkdir()
    (place / "parts").chmod(0o777)
    place.chmod(0o700)
    done = small(kit, place, "drops_rights_early")
    kit.demand(done.returncode == 0 and kit.parted(done)[1] == [], "it says %s" % done.stderr.strip())
    kit.demand(len(numbers_of(place)[0]) > 10, "later parts aren't there")
    demand_joined(kit, join_small(kit, place), 0)
    kit.demand(kit.checked(place / "history").count("begin ") == 1004, "lines are lost")


def test_judge(kit, place, is_stored):
    kept = place / "kept"
    kit.demand_judged(kit.judge_words("--parts", "--keep", kept, kit.FEATURES, "leaves_at_once"), 0, ["legal 8, 2 calls"])
    kit.demand_judged(kit.judge_words("--parts", kit.FEATURES, "names_used_again"), 0, ["legal 28, 6 calls"])
    kit.demand_judged(kit.judge_words("--parts", kit.FEATURES, "no_call"), 3, [])
    kit.demand_judged(kit.judge_words("--parts", "--shared", kit.FEATURES, "no_call"), 1, [])


def test_exits_at_once(kit, place, _):
    kit.run([kit.FEATURES, "leaves_at_once"], env=names_of(kit, place))
    kit.demand("begin t1 lock m1" in joined(kit, place)[0], "_exit loses lines")


FLIGHT = """mutex normal
mutex normal
mutex normal
mutex normal
mutex recursive
cond m2
thread 1
thread 1
thread 1
begin t2 lock m1
answer t2 0
begin t2 lock m2
answer t2 0
begin t2 wait c1 m2
begin t3 lock m2
answer t3 0
begin t3 wait c1 m2
begin t1 lock m3
answer t1 0
begin t1 lock m4
answer t1 0
begin t1 lock m5
answer t1 0
begin t1 lock m5
answer t1 0
"""


def test_flight(kit, place, _):
    """The last parts alone are kept, and the history begins with what stood at their first line."""
    done = small(kit, place, "flight", {"RECORD_KEEP": "4"})
    kit.demand(done.returncode == 0 and done.stderr == "", "it says %s" % done.stderr.strip())
    found, _ = numbers_of(place)
    kit.demand(4 <= len(found) <= 6 and found[0] > 10, "there are the parts %s" % found)
    demand_joined(kit, join_small(kit, place), 0)
    text = kit.checked(place / "history")
    kit.demand(text.startswith("# begins at place "), "it doesn't say where it begins")
    lines = kit.without_comments(text).splitlines()
    # The mutexes that the first thread holds are given in any order.
    numbers = [re.sub(r"(?<=t1 lock )m\d", "m", line) for line in lines[9:]]
    wanted = [re.sub(r"(?<=t1 lock )m\d", "m", line) for line in FLIGHT.splitlines()]
    kit.demand(sorted(lines[:9]) == sorted(wanted[:9]), "what there is stands otherwise: %s" % lines[:9])
    kit.demand(numbers[:16] == wanted[9:], "what stood is given otherwise: %s" % numbers[:16])
    kit.demand(len(set(lines[17:24:2])) == 3, "the locks are %s" % lines[17:25])
    demand_legal(kit, place / "history")


def test_woken(kit, place, _):
    """A history begins while nobody is woken that still waits, though all were woken before; else that is said."""
    small(kit, place, "woken_before")
    for first, may_begin in ((5, False), (38, True), (45, True), (70, False)):
        done = join_small(kit, place, "--first", first, "--last", first + 15)
        if may_begin:
            demand_joined(kit, done, 0)
            begun = re.search(r"in part (\d+) of", (place / "history").read_text())[1]
            kit.demand(int(begun) == first, "it begins in part %s and not %d" % (begun, first))
            demand_legal(kit, place / "history")
        else:
            kit.demand(done.returncode == 7, "it begins in part %d" % first)
            kit.demand("whom a signal or broadcast has woken" in done.stderr or "a call is open" in done.stderr,
                       "join says %s" % done.stderr.strip())


def test_every_part(kit, place, _):
    """From each part on there is a legal history."""
    small(kit, place, "flight")
    found, _ = numbers_of(place)
    for number in found[1:-2:6]:
        demand_joined(kit, join_small(kit, place, "--first", number), 0)
        demand_legal(kit, place / "history")
    demand_joined(kit, join_small(kit, place, "--last", 3), 0)
    kit.demand(len(kit.without_comments(kit.checked(place / "history")).splitlines()) < 400, "--last is passed over")
    demand_legal(kit, place / "history")


def test_hammer(kit, place, _):
    """Many threads make parts at once, and no answer is lost."""
    words = "--threads 16 --mutexes 4 --variables 3 --calls 500 --kinds --robust --ends 1 --seed 1".split()
    done = small_run(kit, place, [kit.HERE / "hammer", *words])
    kit.demand(done.returncode == 0 and kit.parted(done)[1] == [], "it says %s" % done.stderr.strip())
    demand_joined(kit, join_small(kit, place), 0)
    answers = sum(int(number) for number in re.findall(r" \d+: (\d+)", done.stdout.split("answers")[1]))
    recorded = kit.checked(place / "history").count("\nanswer ")
    kit.demand(recorded >= answers, "%d answers and not %d" % (recorded, answers))
    return "%d parts" % len(numbers_of(place)[0])


def test_begins(kit, place, _):
    """If the whole is legal, so is what begins in each part."""
    words = "--threads 2 --mutexes 1 --variables 1 --robust --ends 1 --calls 120 --seed 1".split()
    small_run(kit, place, [kit.HERE / "hammer", *words])
    begun = 0
    for number in numbers_of(place)[0]:
        if join_small(kit, place, "--first", number).returncode == 0:
            demand_legal(kit, place / "history")
            begun += 1
    kit.demand(begun > 0, "no history begins anywhere")
    return "%d histories" % begun


def test_nowhere(kit, place, _):
    """A place at which no history may begin is refused by name."""
    for name, why in (
        ("waits_for_a_lock", "a call is open"),
        ("stays_inconsistent", "a robust mutex is inconsistent, or of no use any more"),
    ):
        shutil.rmtree(place / "parts", ignore_errors=True)
        small(kit, place, name)
        told = "a history may begin nowhere in parts 2 to 9: at the last place " + why
        demand_joined(kit, join_small(kit, place, "--first", 2, "--last", 9), 7, told)
    kit.demand(not (place / "history").exists(), "there is a history")


def test_all_day(kit, place, _):
    small(kit, place, "all_day")
    told = "it takes more than 71 minutes: times stand as their numbers in their order, not in microseconds"
    demand_joined(kit, join_small(kit, place), 0, told)
    text = kit.without_comments(kit.checked(place / "history"))
    wanted = r"timedlock m1 (\d+)\ntick (\d+)\nanswer t1 110\n.*\n.*\n.* m1 (\d+)\n"
    first, tick, second = re.search(wanted, text).groups()
    kit.demand(0 < int(first) < int(tick) < int(second) < 30, "the times are %s, %s, %s" % (first, tick, second))
    demand_legal(kit, place / "history")


def test_wrong_parts(kit, place, _):
    """A part that is missing, cut or of something else is named."""
    (place / "others").mkdir()
    small(kit, place, "flight", {"RECORD_DIR": str(place / "others")})
    small(kit, place, "flight")
    found, run = numbers_of(place)
    (foreign,) = (place / "others").glob("*.2")
    second, third = (run.with_name("%s.%d" % (run.name, number)) for number in (2, 3))
    whole = second.read_bytes()
    for bytes, why in (
        (None, "this part is missing"),
        (whole[:5000], "this part is cut: it has 5000 bytes, and not %d" % len(whole)),
        (foreign.read_bytes(), "this is no part 2 of the run %s" % run.name),
        (third.read_bytes(), "this is no part 2 of the run %s" % run.name),
        (b"x" * len(whole), "this is no part 2 of the run %s" % run.name),
    ):
        second.unlink()
        if bytes is not None:
            second.write_bytes(bytes)
        demand_joined(kit, join_small(kit, place), 2, "%s: %s" % (second, why))
        second.write_bytes(whole)
    demand_joined(kit, join_small(kit, place), 0)
    for bytes in (b"", b"thread 1\n"):
        (place / "parts" / "other.run").write_bytes(bytes)
        why = "%s: this is no recording in parts, or it is cut" % (place / "parts" / "other.run")
        demand_joined(kit, join_small(kit, place, "--run", "other"), 2, why)
    demand_joined(kit, join_small(kit, place), 1, "%s: there are 2 runs; name one by --run" % (place / "parts"))
    demand_joined(kit, join_small(kit, place, "--run", run.name), 0)
    too_late = join_small(kit, place, "--run", run.name, "--first", 999)
    demand_joined(kit, too_late, 1, "there are parts 1 to %d" % (found[-1] - 1))


def test_words(kit, place, _):
    wrong = "the words are DIRECTORY HISTORY; join --help has all"
    for words in ([], ["a"], ["--first", "0", "a", "b"], ["--last", "x", "a", "b"], ["a", "b", "c"]):
        demand_joined(kit, kit.run([kit.HERE / "join", *words]), 1, wrong)
    (place / "parts").mkdir()
    demand_joined(kit, join(kit, place), 3, "%s: there is no recording" % (place / "parts"))
    small(kit, place, "no_call")
    demand_joined(kit, join(kit, place), 3)
    kit.demand(kit.run([kit.HERE / "join", "--help"]).returncode == 0, "--help")


ENDED = "the recording ends here: a part cannot be made: RUN.%d: Input/output error"
NOTHING = "nothing is recorded: RECORD_DIR cannot be used: DIR: %s"

# Which call fails, by number; what is said; and whether all lines are there all the same.
FAILURES = [
    ("openat", 1, [NOTHING % "Input/output error"], None),
    ("ftruncate", 1, [NOTHING % "Input/output error"], None),
    ("mmap", 1, [NOTHING % "Input/output error"], None),
    ("madvise", 1, [NOTHING % "No space left on device"], None),
    ("openat", 2, [ENDED % 1], None),
    ("pwrite", 1, [ENDED % 1], None),
    ("ftruncate", 2, [ENDED % 1], None),
    ("mmap", 2, [ENDED % 1], None),
    ("unlinkat", 1, ["a part that isn't kept cannot be removed: RUN.1: Input/output error"], True),
]


def test_failures(kit, place, _):
    """Each call of the system's fails in turn. The program goes on; what was published before is there."""
    for call, number, said, is_whole in FAILURES:
        shutil.rmtree(place / "parts", ignore_errors=True)
        done = small(kit, place, "flight", {"FAILING": "%s:%d:5" % (call, number), "RECORD_KEEP": "9"})
        kit.demand(done.returncode == 0, "%s %d: status %d" % (call, number, done.returncode))
        told = [line for line in kit.parted(done)[1] if "left out" not in line]
        told = [re.sub(r"\d+-[0-9a-f]+\.(\d+)", r"RUN.\1", line.replace(str(place / "parts"), "DIR")) for line in told]
        kit.demand(told == said, "%s %d: it says %s" % (call, number, told))
        if is_whole:
            demand_joined(kit, join_small(kit, place), 0)
    return test_later_failures(kit, place)


def test_later_failures(kit, place):
    """A part in the middle that can't be made at the first time is made at the second; if that fails the recording ends
    before it, and says so."""
    for call in ("openat", "pwrite", "ftruncate", "mmap"):
        shutil.rmtree(place / "parts", ignore_errors=True)
        done = small(kit, place, "flight", {"FAILING": "%s:7:28" % call})
        kit.demand(done.returncode == 0 and kit.parted(done)[1] == [], "%s: it says %s" % (call, done.stderr.strip()))
        demand_joined(kit, join_small(kit, place), 0)
        shutil.rmtree(place / "parts")
        done = small(kit, place, "flight", {"FAILING": "%s:-7:28" % call})
        (said,) = kit.parted(done)[1]
        kit.demand(said.endswith("a part cannot be made: %s.%s: No space left on device" % re.search(
            r"(\d+-[0-9a-f]+)\.(\d+)", said).groups()), "%s: it says %s" % (call, said))
        told = join_small(kit, place)
        demand_joined(kit, told, 0)
        kit.demand("librecord: cut where a part could not be made, or memory was short" in told.stderr.splitlines(),
                   "join doesn't say that it is cut")
        lines = len(kit.without_comments(kit.checked(place / "history")).splitlines())
        kit.demand(500 < lines < 900, "%s: %d lines" % (call, lines))
        demand_legal(kit, place / "history")


def test_full(kit, place, _):
    """A file that may not be as large ends the recording, and not the program."""
    done = small(kit, place, "flight", None, ["prlimit", "--fsize=300000000"])
    kit.demand(done.returncode == 0, "status %d" % done.returncode)
    shutil.rmtree(place / "parts")
    done = small(kit, place, "flight", None, ["prlimit", "--fsize=100000"])
    why = ["nothing is recorded: RECORD_DIR cannot be used: %s: File too large" % (place / "parts")]
    kit.demand(done.returncode == 0 and kit.parted(done)[1] == why, "it says %s" % done.stderr.strip())
    shutil.rmtree(place / "parts")
    done = kit.run([kit.FEATURES, "kinds"], env=kit.environment(place / "x", {"RECORD_DIR": str(place / "parts")}))
    why = ["nothing is recorded: RECORD_DIR cannot be used: %s: No such file or directory" % (place / "parts")]
    kit.demand(kit.parted(done)[1] == why, "it says %s" % done.stderr.strip())


def test_measure(kit, place, _):
    said = kit.run([kit.HERE / "measure"], env=names_of(kit, place)).stdout
    least = int(said.split(" ")[0])
    kit.demand(least <= kit.MOST_NANOSECONDS, "%d nanoseconds a call" % least)
    return "%d nanoseconds a call" % least


ALL = {
    "killed": test_killed,
    "killed_anywhere": test_killed_anywhere,
    "aborts": lambda kit, place, keep: test_own_end(kit, place, "aborts", signal.SIGABRT, keep),
    "faults": lambda kit, place, keep: test_own_end(kit, place, "faults", signal.SIGSEGV, keep),
    "names": test_names,
    "where": test_where,
    "judge": test_judge,
    "exits_at_once": test_exits_at_once,
    "handler": test_handler,
    "rights": test_rights,
    "flight": test_flight,
    "woken": test_woken,
    "from_each": test_every_part,
    "hammer": test_hammer,
    "begins": test_begins,
    "nowhere": test_nowhere,
    "all_day": test_all_day,
    "wrong": test_wrong_parts,
    "words": test_words,
    "failures": test_failures,
    "full": test_full,
    "measure": test_measure,
}


def all_tests(kit):
    """The name and the body of each."""
    for name, body in ALL.items():
        yield "parts_" + name, lambda place, keep, body=body: body(kit, place, keep)
    for name in kit.HOLDING:
        yield "parts_" + name, lambda place, keep, name=name: test_holding(kit, place, name, keep)
    for feature in kit.FEATURE_TESTS:
        if feature[0] not in OTHERWISE:
            yield "parts_" + feature[0], lambda place, keep, feature=feature: test_feature(kit, place, feature, keep)

"""The tests of recordings in parts that are followed while their program runs. `test` makes them."""

import re
import shutil
import signal
import subprocess
import time

# Their histories end before the recording, or have fewer uses of variables. What call_in_handler leaves out may have
# lines already, or not.
OTHERWISE = ("call_in_handler", "bound_anew", "later_than_all", "cancelled_wait", "cancelled_lock")
JOIN_LATER = "the history ends before place N: %s; join the whole when the program has ended"
CANCELLED = JOIN_LATER % "a thread was cancelled inside a call"
TOO_LONG = JOIN_LATER % "it takes more than 71 minutes"


def words_of(kit, place, *words):
    (place / "parts").mkdir(exist_ok=True)
    return [kit.HERE / "out" / "join_small", "--follow", *words, place / "parts", place / "followed"]


def start(kit, place, *words):
    return subprocess.Popen(words_of(kit, place, *words), stderr=subprocess.PIPE, text=True)


def end(kit, follower, status, *said):
    """What it says besides its own lines."""
    try:
        told = follower.communicate(timeout=kit.MOST_SECONDS)[1]
    finally:
        follower.kill()
    lines = [line.removeprefix("join: ") for line in told.splitlines() if line.startswith("join: ")]
    kit.demand(follower.returncode == status, "status %d: %s" % (follower.returncode, told.strip()))
    kit.demand([re.sub(r"place \d+", "place N", line) for line in lines] == list(said), "join says %s" % lines)
    return [line for line in told.splitlines() if not line.startswith("join: ")]


def names_of(kit, place, besides=None):
    libraries = (kit.HERE / "out" / "small_parts.so", kit.HERE / "out" / "failing.so")
    return kit.environment(place / "unused", {"RECORD_DIR": str(place / "parts"), **(besides or {})}, libraries)


def join(kit, place):
    return kit.run([kit.HERE / "out" / "join_small", place / "parts", place / "joined"])


def is_use(line):
    return re.match(r"begin \S+ (signal|broadcast) ", line) is not None


def calls_of(text, are_uses_told=True):
    """The lines of calls and of the time, with names by their first use."""
    names, lines, begins = {}, [], {}
    for line in text.splitlines():
        if line.startswith("begin "):
            begins[line.split(" ")[1]] = line
        is_told = are_uses_told or line.startswith("tick ") or not is_use(begins.get(line.split(" ")[1], ""))
        if is_told and line.split(" ")[0] in ("begin", "answer", "tick"):
            for name in re.findall(r"\b[tmc]\d+", line):
                names.setdefault(name, "%s%d" % (name[0], len(names) + 1))
            lines.append(re.sub(r"\b[tmc]\d+", lambda found: names[found[0]], line))
    return lines


def demand_same_calls(kit, place, are_uses_told=True):
    followed, joined = (calls_of(kit.checked(place / name), are_uses_told) for name in ("followed", "joined"))
    for at, (line, wanted) in enumerate(zip(followed, joined), 1):
        kit.demand(line == wanted, "call line %d is '%s' and not '%s'" % (at, line, wanted))
    kit.demand(len(followed) == len(joined), "%d call lines and not %d" % (len(followed), len(joined)))


def demand_legal(kit, place):
    kit.demand_legal(place / "followed", (place / "followed").read_text().splitlines())


def test_feature(kit, place, feature):
    """What is followed has the calls of the whole recording, and the same is said of it."""
    name, besides, _, how = feature
    if how == "fifo" and not kit.may_have_fifo():
        raise kit.NotAsked("SCHED_FIFO isn't allowed")
    follower = start(kit, place)
    kit.run([kit.FEATURES, name], env=names_of(kit, place, besides))
    said = end(kit, follower, 0)
    joined = join(kit, place)
    kit.demand(joined.stderr.splitlines() == said, "it says %s" % said)
    demand_same_calls(kit, place)


def test_refused(kit, place, name, why):
    """What can't be known before it has lines ends the history there."""
    follower = start(kit, place)
    kit.run([kit.FEATURES, name], env=names_of(kit, place))
    end(kit, follower, 7, why)
    demand_legal(kit, place)


def test_bound_anew(kit, place):
    """A variable is added by its first wait, and then whenever it has another mutex."""
    follower = start(kit, place)
    kit.run([kit.FEATURES, "bound_anew"], env=names_of(kit, place))
    end(kit, follower, 0)
    join(kit, place)
    for name in "followed", "joined":
        kit.demand(kit.checked(place / name).count("\ncond ") == 3, "%s has not three variables" % name)
    demand_legal(kit, place)


def test_hammer(kit, place):
    """Many threads make parts at once, and robust mutexes are left by those that end."""
    words = "--threads 16 --mutexes 4 --variables 3 --calls 500 --kinds --robust --ends 1 --seed 1".split()
    follower = start(kit, place)
    done = kit.run([kit.HERE / "hammer", *words], env=names_of(kit, place))
    kit.demand(done.returncode == 0, "status %d" % done.returncode)
    end(kit, follower, 0)
    kit.demand(join(kit, place).returncode == 0, "it can't be joined")
    demand_same_calls(kit, place, are_uses_told=False)


def test_legal(kit, place):
    """Threads end with robust mutexes, and others get these before the ends are joined."""
    words = "--threads 2 --mutexes 1 --variables 0 --robust --ends 5 --calls 100 --seed 1".split()
    follower = start(kit, place)
    kit.run([kit.HERE / "hammer", *words], env=names_of(kit, place))
    end(kit, follower, 0)
    demand_legal(kit, place)


def has_lines(kit, place, count):
    """Whether the history has so many lines, while its program runs."""
    until = time.monotonic() + kit.MOST_SECONDS
    while time.monotonic() < until:
        if (place / "followed").exists() and (place / "followed").read_text().count("\n") >= count:
            return True
        time.sleep(0.02)
    return False


def test_killed(kit, place):
    """What a program has recorded is written while it hangs. If it is killed the history ends."""
    follower = start(kit, place)
    with subprocess.Popen([kit.FEATURES, "hangs"], env=names_of(kit, place)) as program:
        until = time.monotonic() + kit.MOST_SECONDS
        while kit.blocked_threads(program.pid) < 2 and time.monotonic() < until:
            time.sleep(0.01)
        wanted = len((kit.EXPECTED / "hangs.history").read_text().splitlines())
        is_there = has_lines(kit, place, wanted)
        is_running = follower.poll() is None
        program.kill()
    kit.demand(is_there and is_running, "lines are late, or the follower has ended")
    end(kit, follower, 0)
    join(kit, place)
    demand_same_calls(kit, place)


def test_killed_anywhere(kit, place):
    words = "--threads 3 --mutexes 2 --variables 1 --calls 1000000".split()
    follower = start(kit, place)
    with subprocess.Popen([kit.HERE / "hammer", *words], env=names_of(kit, place)) as program:
        has_lines(kit, place, 500)
        program.kill()
    end(kit, follower, 0)
    join(kit, place)
    demand_same_calls(kit, place, are_uses_told=False)


def test_stopped(kit, place):
    """A signal ends the follower in its order, also before there is a recording."""
    for number in signal.SIGTERM, signal.SIGINT:
        follower = start(kit, place)
        with subprocess.Popen([kit.FEATURES, "hangs"], env=names_of(kit, place)) as program:
            is_there = has_lines(kit, place, 5)
            follower.send_signal(number)
            end(kit, follower, 0, "ended by a signal: the history ends before place N")
            program.kill()
        kit.demand(is_there, "lines are late")
        demand_legal(kit, place)
        shutil.rmtree(place / "parts")
    follower = start(kit, place)
    time.sleep(0.2)
    follower.terminate()
    end(kit, follower, 3)


def test_wrong_parts(kit, place):
    """A part that is missing, cut or of something else is named."""
    (place / "parts").mkdir()
    kit.run([kit.FEATURES, "flight"], env=names_of(kit, place))
    (run,) = (place / "parts").glob("*.run")
    second, third = (run.with_suffix(".%d" % number) for number in (2, 3))
    whole = second.read_bytes()
    for bytes, why in (
        (None, "this part is missing"),
        (whole[:5000], "this part is cut: it has 5000 bytes, and not %d" % len(whole)),
        (third.read_bytes(), "this is no part 2 of the run %s" % run.stem),
    ):
        second.unlink()
        if bytes is not None:
            second.write_bytes(bytes)
        end(kit, start(kit, place), 2, "%s: %s" % (second, why))
        second.write_bytes(whole)
    end(kit, start(kit, place), 0)
    for bytes in b"", b"thread 1\n":
        (place / "parts" / "other.run").write_bytes(bytes)
        why = "%s: this is no recording in parts, or it is cut" % (place / "parts" / "other.run")
        end(kit, start(kit, place, "--run", "other"), 2, why)
    end(kit, start(kit, place), 1, "%s: there are 2 runs; name one by --run" % (place / "parts"))
    end(kit, start(kit, place, "--run", run.stem), 0)
    end(kit, start(kit, place, "--first", "2"), 1, "the words are DIRECTORY HISTORY; join --help has all")


def test_judged(kit, place):
    """The judge follows the follower."""
    words = [str(word) for word in words_of(kit, place)]
    follower = subprocess.Popen([*words[:-1], "/dev/stdout"], stdout=subprocess.PIPE, stderr=subprocess.DEVNULL)
    judge = subprocess.Popen([kit.program(), "judge", "--follow"], stdin=follower.stdout,
                             stdout=subprocess.PIPE, stderr=subprocess.DEVNULL, text=True)
    follower.stdout.close()
    kit.run([kit.FEATURES, "flight"], env=names_of(kit, place, kit.INHERITING))
    told = judge.communicate(timeout=kit.MOST_SECONDS)[0]
    kit.demand(follower.wait(kit.MOST_SECONDS) == 0 and told.startswith("legal "), "it is %s" % told.splitlines())


ALL = {
    "bound_anew": test_bound_anew,
    "cancelled_wait": lambda kit, place: test_refused(kit, place, "cancelled_wait", CANCELLED),
    "cancelled_lock": lambda kit, place: test_refused(kit, place, "cancelled_lock", CANCELLED),
    "all_day": lambda kit, place: test_refused(kit, place, "all_day", TOO_LONG),
    "hammer": test_hammer,
    "legal": test_legal,
    "killed": test_killed,
    "killed_anywhere": test_killed_anywhere,
    "stopped": test_stopped,
    "wrong": test_wrong_parts,
    "judged": test_judged,
}


def all_tests(kit):
    """The name and the body of each."""
    for name, body in ALL.items():
        yield "followed_" + name, lambda place, _, body=body: body(kit, place)
    for feature in kit.FEATURE_TESTS:
        if feature[0] not in OTHERWISE:
            yield "followed_" + feature[0], lambda place, _, feature=feature: test_feature(kit, place, feature)

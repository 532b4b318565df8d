"""The tests of runs whose processes are recorded in one file. `test` makes them, and gives what all tests use."""

import re
import signal
import subprocess
import time

SHARED = "left out: mutexes and variables shared between processes: "
UNIDENTIFIED = "left out: shared mutexes and variables whose memory can't be identified: "
HELD_AT_FORK = "left out: copies of mutexes that were held when a process was forked: "

# name, what the recorder says, what it says isn't seen, and how the history is compared.
FEATURES = [
    ("one_is_killed", [], ["2 calls on semaphores"], ""),
    ("killed_in_a_lock", [], ["2 calls on semaphores"], ""),
    ("threads_are_killed", [], ["2 calls on semaphores"], ""),
    ("killed_unseen", [], ["2 calls on semaphores"], ""),
    ("ends_by_itself", [], [], ""),
    ("one_exits", [], [], ""),
    ("end_unseen", [], [], ""),
    ("variable_of_two", [], ["2 calls on semaphores"], "each thread"),
    ("by_name", [], ["2 calls on semaphores"], ""),
    ("replaced", [], [], ""),
    ("copy_in_child", [], [], ""),
    ("held_at_fork", [HELD_AT_FORK + "1"], ["1 call on copies of mutexes that were held at a fork"], ""),
    ("mapped_again", [], [], ""),
    ("hidden_memory", [UNIDENTIFIED + "4"], ["2 calls on shared objects whose memory can't be identified"], ""),
    ("made_by_another", [SHARED + "1"], ["2 calls on objects shared between processes"], ""),
]


def names_of(kit, place, besides=None):
    """The variables of a shared recording. RECORD_FILE is set, too, and isn't used then."""
    shared = {"RECORD_SHARED": str(place / "shared"), "SHARED_MEMORY": str(place / "memory")}
    return kit.environment(place / "unused", {**shared, **(besides or {})})


def merge(kit, place):
    return kit.run([kit.HERE / "merge", place / "shared", place / "history"])


def merged(kit, place, said=(), passed_by=()):
    """The history, of which the recorder says just that."""
    done = merge(kit, place)
    kit.demand(done.returncode == 0, "merge: status %d: %s" % (done.returncode, done.stderr.strip()))
    kit.demand(kit.parted(done) == (list(passed_by), list(said)), "it says %s" % done.stderr.splitlines())
    kit.demand(not (place / "unused").exists(), "there is a history of one process")
    return kit.checked(place / "history")


def test_feature(kit, place, feature, is_stored):
    name, said, passed_by, how = feature
    if name == "made_by_another":
        kit.run([kit.FEATURES, "make_for_another"], env={"SHARED_MEMORY": str(place / "memory")})
    done = kit.run([kit.FEATURES, name], env=names_of(kit, place))
    kit.demand(done.returncode == 0 and done.stderr == "", "status %d: %s" % (done.returncode, done.stderr))
    text = merged(kit, place, said, passed_by)
    kit.demand(re.findall(r"(?m)^# not seen: (.*)$", text) == passed_by, "the history has others than %s" % passed_by)
    kit.demand(re.search(r"(?m)^# t1 is features of process \d+$", text), "t1 has no process")
    kit.compare(name, kit.plain(text), how, is_stored)


def test_holding(kit, place, name, is_stored):
    kit.demand_ended(name, names_of(kit, place))
    kit.compare("holds_to_the_end", kit.plain(merged(kit, place, [], ["2 calls on semaphores"])), "", is_stored)


def test_killed(kit, place, is_stored):
    """A program that is killed loses nothing."""
    with subprocess.Popen([kit.FEATURES, "hangs"], env=names_of(kit, place)) as program:
        end = time.monotonic() + kit.MOST_SECONDS
        while kit.blocked_threads(program.pid) < 2 and time.monotonic() < end:
            time.sleep(0.01)
        program.kill()
        kit.demand(program.wait(kit.MOST_SECONDS) == -signal.SIGKILL, "it isn't killed")
    kit.compare("hangs", kit.plain(merged(kit, place)), "", is_stored)


def test_cut(kit, place, is_stored):
    kit.run([kit.FEATURES, "many_calls"], env=names_of(kit, place, {"RECORD_MAX": "5"}))
    said = ["cut where a thread had more records than RECORD_MAX, or memory was short: 5"]
    kit.compare("many_calls", kit.plain(merged(kit, place, said)), "", is_stored)


def test_refused(kit, place, _):
    """The program goes on, and says why it isn't recorded. What can't be merged is said, too."""
    shared = place / "shared"
    names = names_of(kit, place)
    preload = "LD_PRELOAD=" + names.pop("LD_PRELOAD")
    for before, text, why in (
        (["prlimit", "--fsize=64"], None, "cannot be used: %s: File too large" % shared),
        ([], "thread 1\n", "is no recording: %s" % shared),
    ):
        if text is not None:
            shared.write_text(text)
        done = kit.run([*before, "env", preload, kit.FEATURES, "kinds"], env=names)
        said = kit.said_by_recorder(done)
        kit.demand(done.returncode == 0, "status %d" % done.returncode)
        kit.demand(said == ["nothing is recorded: RECORD_SHARED " + why], "it says %s" % said)
    kit.demand(merge(kit, place).returncode == 1, "another file is merged")
    shared.write_text("")
    kit.demand(merge(kit, place).returncode == 3, "an empty file is merged")
    kit.run([kit.FEATURES, "no_call"], env=names_of(kit, place))
    kit.demand(merge(kit, place).returncode == 3, "a run without a call is merged")
    kit.demand(kit.run([kit.HERE / "merge"]).returncode == 1, "merge without words")


def test_judge(kit, place, is_stored):
    kept = place / "kept"
    words, lines = kit.judge_words("--shared", "--keep", kept, kit.FEATURES, "one_is_killed"), ["legal 20, 5 calls"]
    kit.demand_judged(words, 0, [*lines, "not seen: 2 calls on semaphores"])
    kit.compare("one_is_killed", kit.plain(kit.checked(kept)), "", is_stored)
    kit.demand_judged(kit.judge_words("--shared", kit.FEATURES, "no_call"), 3, [])


def test_measure(kit, place, _):
    least = int(kit.run([kit.HERE / "measure"], env=names_of(kit, place)).stdout.split(" ")[0])
    kit.demand(least <= kit.MOST_NANOSECONDS, "%d nanoseconds a call" % least)
    return "%d nanoseconds a call" % least


def all_tests(kit):
    """The name and the body of each."""
    for feature in FEATURES:
        yield feature[0], lambda place, keep, feature=feature: test_feature(kit, place, feature, keep)
    for name in kit.HOLDING:
        yield "shared_%s" % name, lambda place, keep, name=name: test_holding(kit, place, name, keep)
    for name, body in (("killed", test_killed), ("cut", test_cut), ("refused", test_refused), ("judge", test_judge),
                       ("measure", test_measure)):
        yield "shared_%s" % name, lambda place, keep, body=body: body(kit, place, keep)

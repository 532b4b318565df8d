#!/usr/bin/env python3
"""Runs `rt ci` in this clone and prints, once it has ended, the processor seconds of each crate's proof, tests and edits.

    cd the top of a clean clone && python3 bench/gate_sample.py [LOG]      LOG is where the gate's own output goes (gate.log)
    python3 bench/gate_sample.py --below PID     samples what PID starts until SIGTERM comes; .ci/run does this beside `rt ci`
    python3 bench/gate_sample.py --jobs          prints how many crates `rt ci` is to check side by side; .ci/run asks for it
    python3 bench/gate_sample.py --temporary     makes a folder in memory for its temporary files, and prints it; prints
                                                 nothing if there is no room. .ci/run asks for it, and removes it

Once a second it reads what each process of the prover has spent so far, and adds it to the crate and part that the
process works for; what a process spends in its last second is lost, and so are linking and the runs of programs. Last
come the sums, and the longest chain: the crates that have to be proved one after the other, with the tests or edits of
the last. It judges nothing; the status is that of `rt ci`. SIGTERM and Ctrl-C end `rt ci`, too, with status 143 or 130.
`--below` prints the sums and the ten dearest parts alone. bench/gate_cost.py measures one part after the other, which
takes hours.

`rt ci` runs with RT_JOBS set: one check for each processor, in one process each. Without that it gives idle processors to
a check that has begun, which then loads its libraries several times: half as many processor seconds more. TMPDIR is in
memory, since a check writes each module that it loads to a file of its own, some thousands in all.
"""

import os
import re
import shutil
import signal
import subprocess
import sys
import tempfile
import time

TICKS = os.sysconf("SC_CLK_TCK")
CRATE = re.compile(r"--crate-name (\w+) ")
PARTS = ("proof", "tests", "edits")
# Where Linux keeps files in memory, and the bytes that the temporary files of the gate and each check of it may take.
MEMORY = "/dev/shm"
TEMPORARY, EACH = 3_000_000_000, 5_000_000_000


def read(path):
    """The text of a file of /proc, empty if its process has ended."""
    try:
        with open(path, encoding="utf-8", errors="replace") as file:
            return file.read()
    except OSError:
        return ""


def part_of(pid):
    """The crate and the part for which a process of the prover works, or None."""
    words = read(f"/proc/{pid}/cmdline").replace("\0", " ")
    crate = CRATE.search(words)
    try:
        folder = os.readlink(f"/proc/{pid}/cwd")
    except OSError:
        return None
    if not crate:
        return None
    if "/rt-edit-" in folder:
        return crate[1], "edits"
    return crate[1], "tests" if " --test " in words else "proof"


def below(root):
    """The processes that stand below this one, each with the one above it, what it has spent, and when it began."""
    stats = {}
    for name in filter(str.isdigit, os.listdir("/proc")):
        fields = read(f"/proc/{name}/stat").rpartition(")")[2].split()
        if fields:
            stats[int(name)] = int(fields[1]), (int(fields[11]) + int(fields[12])) / TICKS, fields[19]
    found = {root}
    while True:
        more = {pid for pid, (above, _, _) in stats.items() if above in found} - found
        if not more:
            return {pid: stats[pid] for pid in found if pid in stats}
        found |= more


def sample(root, spent, parts):
    """Notes what each process below `root` has spent so far, and for which part it works, where it or one above tells. A
    process that has ended may leave its number to another, which began later."""
    found = below(root)
    for pid, (above, seconds, begun) in found.items():
        part = part_of(pid)
        at = above
        while part is None and at in found:
            part, at = part_of(at), found[at][0]
        if part:
            parts[pid, begun] = part
        spent[pid, begun] = seconds


def longest_chain(each):
    """The longest chain in one line, by the processor seconds of each crate's parts and what crates.txt says it uses."""
    chains = {}
    for line in filter(lambda it: ":" in it and it[0] != "#", read("crates.txt").splitlines()):
        name, uses = line.split(":", 1)[0].split()[0], line.split(":", 1)[1].split()
        below = max((chains[it][:2] for it in uses if it in chains), default=(0, ()))
        behind = max(each.get((name, part), 0) for part in PARTS[1:])
        chains[name] = below[0] + each.get((name, "proof"), 0), (*below[1], name), behind
    proofs, names, behind = max(chains.values(), key=lambda it: it[0] + it[2])
    return f"longest chain: {proofs + behind:.0f} s, {proofs:.0f} of them proofs: {' '.join(names)}"


class Sums:
    """What the processes below one have spent, by crate and part."""

    def __init__(self):
        self.spent, self.parts, self.start = {}, {}, time.monotonic()

    def sample(self, root):
        sample(root, self.spent, self.parts)

    def each(self):
        """The processor seconds of each crate's parts."""
        sums = {}
        for pid, part in self.parts.items():
            sums[part] = sums.get(part, 0) + self.spent[pid]
        return sums

    def whole(self):
        """The processor minutes of each part, and all together, in one line."""
        sums = self.each()
        minutes = {part: sum(it for (_, other), it in sums.items() if other == part) / 60 for part in PARTS}
        wall = (time.monotonic() - self.start) / 60
        each = ", ".join(f"{part} {minutes[part]:.1f}" for part in PARTS)
        return f"processor minutes: {each}, together {sum(minutes.values()):.1f}; wall {wall:.1f} minutes"


def memory():
    """The bytes of memory that this machine has."""
    return os.sysconf("SC_PAGE_SIZE") * os.sysconf("SC_PHYS_PAGES")


def jobs():
    """How many checks run side by side: one for each processor, and 5 GB of memory for each. RT_JOBS overrides it."""
    return os.environ.get("RT_JOBS") or str(max(1, min(len(os.sched_getaffinity(0)), memory() // EACH)))


def temporary():
    """A new folder in memory for temporary files, or None if memory lacks room for them beside the checks, or such a folder
    can't be made or run from. TMPDIR overrides it."""
    if os.environ.get("TMPDIR") or memory() < TEMPORARY + EACH * int(jobs()):
        return None
    try:
        found = os.statvfs(MEMORY)
        if found.f_bavail * found.f_frsize < TEMPORARY or found.f_flag & os.ST_NOEXEC:
            return None
        folder = tempfile.mkdtemp(prefix="pif-gate-", dir=MEMORY)
        # As /tmp: `rt` runs tests as somebody who owns nothing.
        os.chmod(folder, 0o1777)
        return folder
    except OSError:
        return None


def watch(root):
    """Samples what this process starts until SIGTERM comes, and prints the sums and the ten dearest parts."""
    ended = []
    signal.signal(signal.SIGTERM, lambda *_: ended.append(True))
    sums = Sums()
    while not ended and os.path.exists(f"/proc/{root}"):
        sums.sample(root)
        time.sleep(1)
    dearest = sorted(sums.each().items(), key=lambda it: -it[1])[:10]
    print(sums.whole())
    for (crate, part), seconds in dearest:
        print(f"{crate} {part}: {seconds:.0f} s")
    return 0


def end(run):
    """Ends a command that leads a process group, with all that it started there."""
    if run.poll() is None:
        os.killpg(run.pid, signal.SIGTERM)
        run.wait()


def gate(log):
    """Runs `rt ci`, its output to this file, and prints what each crate cost. The status is that of `rt ci`."""
    signal.signal(signal.SIGTERM, lambda number, _: sys.exit(128 + number))
    sums, folder, run = Sums(), temporary(), None
    settings = {**os.environ, "RT_JOBS": jobs(), **({"TMPDIR": folder} if folder else {})}
    try:
        with open(log, "w", encoding="utf-8") as output:
            run = subprocess.Popen(["rt", "ci"], env=settings, stdout=output, stderr=subprocess.STDOUT,
                                   start_new_session=True)
            while run.poll() is None:
                sums.sample(run.pid)
                time.sleep(1)
    finally:
        if run:
            end(run)
        if folder:
            shutil.rmtree(folder, ignore_errors=True)
    each = sums.each()
    for crate in dict.fromkeys(crate for crate, _ in each):
        print(f"{crate}: " + ", ".join(f"{part} {each.get((crate, part), 0):.0f} s" for part in PARTS))
    print(sums.whole())
    print(longest_chain(each))
    return run.returncode


def main():
    words = sys.argv[1:]
    if words in (["-h"], ["--help"]):
        print(__doc__, end="")
        return 0
    if words == ["--jobs"]:
        print(jobs())
        return 0
    if words == ["--temporary"]:
        print(temporary() or "")
        return 0
    if len(words) == 2 and words[0] == "--below" and words[1].isdigit():
        return watch(int(words[1]))
    if len(words) > 1 or words and words[0].startswith("-"):
        print(__doc__, end="", file=sys.stderr)
        return 2
    return gate(words[0] if words else "gate.log")


if __name__ == "__main__":
    try:
        sys.exit(main())
    except KeyboardInterrupt:
        sys.exit(130)

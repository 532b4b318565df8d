#!/usr/bin/env bash
# Prints, for a script of 16 MB of `pick` lines, one of uncontended `call` lines and a trace of 16 MB of uncontended
# calls: lines a second, nanoseconds a line and peak memory, through a pipe. Then the benchmarks of single layers, of the
# quick path, and of a desk: events a second with 1 to 8 threads, on mutexes of their own and all on one, beside the same
# calls on a core without a desk; and the seconds of `drive 64`. What the program is stands above. It has to be the
# proved one of these sources, which `./pif --prove` makes; else the status is 2. It is a benchmark, never a test:
# nothing here passes or fails.
set -euo pipefail
case "${1-}" in -h | --help) sed -n '2,/^set /s/^# //p' "$0"; exit ;; esac
here="$(cd "$(dirname "$0")/.." && pwd)"
program="$here/out/pif"
if ! "$here/tools/kept" look || ! head -1 "$here/out/pif.version" | grep -q ', proved$'; then
  echo "run.sh: there is no proved program of these sources; './pif --prove' makes it" >&2
  exit 2
fi
head -2 "$here/out/pif.version"
python3 - "$program" <<'PYTHON'
import subprocess, sys, tempfile, time

program = sys.argv[1]
LIMIT = 16_777_216


def picks():
    return b"pick\n" * (LIMIT // 5)


def calls():
    head = b"thread 10\nmutex normal\n"
    pair = b"call t1 lock m1\ncall t1 unlock m1\n"
    return head + pair * ((LIMIT - len(head)) // len(pair))


def trace():
    head = b"pif-trace 2\nthread 10 = t1\nmutex normal = m1\n"
    steps = b"go t1 = went\ngo t1 = answer 0\n"
    pair = b"begin t1 lock m1 = begun\n" + steps + b"begin t1 unlock m1 = begun\n" + steps
    return head + pair * ((LIMIT - len(head)) // len(pair))


def peak_of(pid, peak):
    """The greatest resident size of a process so far, in kB, or what was known before where it has ended."""
    try:
        with open(f"/proc/{pid}/status") as status:
            for line in status:
                if line.startswith("VmHWM:"):
                    return max(peak, int(line.split()[1]))
    except OSError:
        pass
    return peak


def measure(name, job, script):
    lines = script.count(b"\n")
    with tempfile.NamedTemporaryFile() as file:
        file.write(script)
        file.flush()
        start = time.monotonic()
        feed = subprocess.Popen(["cat", file.name], stdout=subprocess.PIPE)
        run = subprocess.Popen([program, job], stdin=feed.stdout, stdout=subprocess.DEVNULL)
        feed.stdout.close()
        peak = 0
        while run.poll() is None:
            peak = peak_of(run.pid, peak)
            time.sleep(0.005)
        seconds = time.monotonic() - start
        feed.wait()
    print(
        f"{name}: {lines} lines, {lines / seconds / 1e6:.2f} million lines a second, "
        f"{seconds * 1e9 / lines:.0f} ns a line, peak memory {peak / 1024:.1f} MB, exit status {run.returncode}"
    )


measure("pick", "run", picks())
measure("call", "run", calls())
measure("replay", "replay", trace())
PYTHON

bench="$here/crates/pif_bench/out/pif_bench"
[ -x "$bench" ] || (cd "$here/crates/pif_bench" && rt run > /dev/null)
names="$("$bench")"
for name in $names; do
  "$bench" "$name"
done
TIMEFORMAT='drive 64: %R s, of which %U s in the program and %S s in the system'
time "$program" drive 64 > /dev/null

#!/usr/bin/env python3
"""Refuses each request for memory of the built program in turn, by a `malloc` and a `realloc` that refuse the Nth: for
a run, a run that is shown, a replay, a migration, a trace, checks, pictures, a random script, help, a wrong word and two
clients in real threads. Each time it must end for that: with status 4, nothing on standard output and `pif: out of
memory` on standard error, or with status 6 and `fault threads` if a thread could not be started. Or all must be as with
no refusal, since the standard library asks again for some. A shell may go on, and say that a line has changed nothing.
With the words of a job behind the program it is that job alone, over an example.

The two clients are asked once more with each two requests in a row refused. A client whose call was refused memory asks
for its end until it is made: one that asks once, and holds the mutex, leaves the other waiting.

Two rows more are asked if they are built. The test `desk_keeps_receipts` of pif_test_core (by `rt test` there) asks
again for what was refused, by `resume` if a call is open: no answer, book or replayed trace may change. The
benchmark `new_core` of pif_bench (by `rt run` there) makes cores: whichever request of `Core::new` is refused, the
status is 1.

    bench/refused_requests.py [PROGRAM [WORD..]]        PROGRAM is crates/pif/out/pif by default

Prints a line for each row, and how many differ; a row in which no request was seen, or a run takes more than 120
seconds, is one of them. A program of `rt try` itself has a `malloc` of its own, so that none is seen. The
status is 0 if none differs, 1 if one does, and 2 if there is no program or no C compiler.
"""

import os
import re
import subprocess
import sys
import tempfile
from pathlib import Path
from typing import NamedTuple

TOP = Path(__file__).resolve().parent.parent
PROGRAM = TOP / "crates/pif/out/pif"
TESTS = TOP / "crates/pif_test_core/out/pif_test_core_tests"
BENCH = TOP / "crates/pif_bench/out/pif_bench"
SCRIPT = TOP / "examples/holder_is_boosted_until_it_unlocks.pif"

# How the program ends for a refused request: its status, what it prints, and what it prints of the error.
REFUSALS = ((4, b"", b"pif: out of memory\n"), (6, b"fault threads\n", b"pif: a thread cannot be started\n"))

# The jobs of the program, each with its status. A replay and a migration read the trace of the script, a shell its own
# lines, and the others may read the script.
JOBS = (
    ("run", 0),
    ("show", 0),
    ("replay", 0),
    ("migrate", 0),
    ("trace", 0),
    ("show --all", 0),
    ("show --json", 0),
    ("show --dot", 0),
    ("draw", 0),
    ("draw --html", 0),
    ("check", 0),
    ("check --strict", 0),
    ("check --print", 0),
    ("shell", 0),
    ("random --seed=1 --lines=9", 0),
    ("--help", 0),
    ("walk", 1),
    ("drive 2", 0),
)

# The lines of a shell, and what it says of one that was refused memory.
LINES = b"thread 10\nundo\nthread 10\nload %s\nundo\nload %s\n" % ((os.path.relpath(SCRIPT).encode(),) * 2)
NOTHING_CHANGED = b"out of memory: nothing has changed\n"

MOST_SECONDS = 120

# What a benchmark measures is another number each time.
MEASURED = re.compile(rb"[0-9]+(\.[0-9]+)? (ns|ps|bare pairs)")

REFUSE = r"""
#define _GNU_SOURCE
#include <dlfcn.h>
#include <fcntl.h>
#include <stdatomic.h>
#include <stdlib.h>
#include <unistd.h>

static _Atomic long requests;

/* Whether the next request is one of those in a row that are refused, which leaves a file. None is from number 0 on. */
static int is_refused(void) {
  const char *number = getenv("REFUSED_REQUEST"), *many = getenv("REFUSED_IN_A_ROW"), *path = getenv("REFUSED");
  if (!number || !many || !path || atol(number) < 1) return 0;
  long behind = ++requests - atol(number);
  if (behind < 0 || behind >= atol(many)) return 0;
  close(open(path, O_CREAT | O_WRONLY, 0600));
  return 1;
}

void *malloc(size_t size) {
  static void *(*next)(size_t);
  if (!next) next = (void *(*)(size_t))dlsym(RTLD_NEXT, "malloc");
  return is_refused() ? NULL : next(size);
}

void *realloc(void *old, size_t size) {
  static void *(*next)(void *, size_t);
  if (!next) next = (void *(*)(void *, size_t))dlsym(RTLD_NEXT, "realloc");
  return is_refused() ? NULL : next(old, size);
}
"""


class Row(NamedTuple):
    """What is run: its name, its words, its input, its status with no refusal, whether an end is that of a refused
    request, beside the end with no refusal, and how many requests in a row are refused."""

    name: str
    words: list
    text: bytes
    status: int
    is_refusal: object
    in_a_row: int = 1


class Stopped(Exception):
    """Why nothing can be asked."""


def run(room, row, number):
    """Runs a row with the requests from this one on refused: its status, what it printed, and whether a request was
    refused. A run that takes too long has no status."""
    left = room / "refused"
    left.unlink(missing_ok=True)
    variables = dict(os.environ, LD_PRELOAD=str(room / "refuse.so"), REFUSED_REQUEST=str(number),
                     REFUSED_IN_A_ROW=str(row.in_a_row), REFUSED=str(left))
    try:
        done = subprocess.run(row.words, input=row.text, capture_output=True, env=variables, timeout=MOST_SECONDS)
    except subprocess.TimeoutExpired as why:
        return (None, why.stdout or b"", why.stderr or b""), left.exists()
    return (done.returncode, MEASURED.sub(b"", done.stdout), done.stderr), left.exists()


def sweep(room, row):
    """Refuses each request of a row in turn, and prints what came out; whether all was as it must be."""
    whole, _ = run(room, row, 0)
    if whole[0] != row.status:
        print("%s: with no refusal the status is %s" % (row.name, whole[0]))
        return False
    number, same = 1, []
    ended, refused = run(room, row, number)
    while refused:
        if ended == whole:
            same.append(number)
        elif not row.is_refusal(ended, whole):
            print("%s: with request %d refused: %s" % (row.name, number, ended))
            return False
        number += 1
        ended, refused = run(room, row, number)
    if number == 1:
        print("%s: no request was seen" % row.name)
        return False
    how = "alone" if row.in_a_row == 1 else "with the next"
    print("%s: %d requests, each refused %s; as with no refusal at %d" % (row.name, number - 1, how, len(same)))
    return True


def is_refused(ended, whole):
    """Whether a job of the program ended so for a refused request; without one it ends as whole."""
    return ended in REFUSALS or (ended[::2] == (0, b"") and NOTHING_CHANGED in ended[1])


def rows_of(program, words):
    """The rows: of the program those of JOBS, or the one of these words; and the two that may be built beside it."""
    script = SCRIPT.read_bytes()
    trace = subprocess.run([program, "trace"], input=script, stdout=subprocess.PIPE, check=True).stdout
    for job, status in [(" ".join(words), 0)] if words else JOBS:
        text = {"replay": trace, "migrate": trace, "shell": LINES}.get(job, script)
        yield Row("pif " + job, [program] + (words or job.split(" ")), text, status, is_refused)
    if words:
        return
    yield Row("pif drive 2, two in a row", [program, "drive", "2"], b"", 0, is_refused, 2)
    if TESTS.is_file():
        yield Row("desk_keeps_receipts", [TESTS, "desk::receipts::desk_keeps_receipts"], b"", 0,
                  lambda ended, whole: False)
    if BENCH.is_file():
        yield Row("pif_bench new_core", [BENCH, "new_core"], b"", 0,
                  lambda ended, whole: ended[:2] == (1, b"") and ended[2].count(b"\n") == 1)


def make_library(room):
    """The library with the two functions, in this folder."""
    (room / "refuse.c").write_text(REFUSE)
    try:
        made = subprocess.run(["cc", "-O1", "-shared", "-fPIC", "-o", room / "refuse.so", room / "refuse.c", "-ldl"])
    except FileNotFoundError as error:
        raise Stopped("there is no C compiler, cc") from error
    if made.returncode != 0:
        raise Stopped("cc made no library")


def main():
    if sys.argv[1:] in (["-h"], ["--help"]):
        print(__doc__, end="")
        return 0
    program = Path(sys.argv[1] if len(sys.argv) > 1 else PROGRAM).resolve()
    try:
        if not program.is_file():
            raise Stopped("there is no program %s; ./pif --prove builds it" % program)
        with tempfile.TemporaryDirectory() as folder:
            make_library(Path(folder))
            done = [sweep(Path(folder), row) for row in rows_of(program, sys.argv[2:])]
    except Stopped as why:
        print("refused_requests: %s" % why, file=sys.stderr)
        return 2
    print("%d rows, %d differ" % (len(done), done.count(False)))
    return 0 if all(done) else 1


if __name__ == "__main__":
    sys.exit(main())

#!/usr/bin/env python3
"""Prints for how much memory a core under the default limits asks, and in how many requests, by a `malloc` and a
`realloc` that note what the benchmark `new_core` of pif_bench asks for. It needs a C compiler, is no part of the gate,
and judges nothing.

    bench/core_memory.py [PROGRAM]      PROGRAM is crates/pif_bench/out/pif_bench by default

The status is 2 if there is no program.
"""

import os
import subprocess
import sys
import tempfile
from pathlib import Path

TOP = Path(__file__).resolve().parent.parent

# How many cores the benchmark makes.
CORES = 100

NOTE = r"""
#define _GNU_SOURCE
#include <dlfcn.h>
#include <fcntl.h>
#include <stdio.h>
#include <stdlib.h>
#include <unistd.h>

/* Adds the size of a request to a file. */
static void note(size_t size) {
  static int file = -1;
  char line[32];
  if (file < 0) file = open(getenv("REQUESTS"), O_CREAT | O_WRONLY | O_APPEND, 0600);
  if (write(file, line, (size_t)snprintf(line, sizeof line, "%zu\n", size)) < 0) abort();
}

void *malloc(size_t size) {
  static void *(*next)(size_t);
  if (!next) next = (void *(*)(size_t))dlsym(RTLD_NEXT, "malloc");
  note(size);
  return next(size);
}

void *realloc(void *old, size_t size) {
  static void *(*next)(void *, size_t);
  if (!next) next = (void *(*)(void *, size_t))dlsym(RTLD_NEXT, "realloc");
  note(size);
  return next(old, size);
}
"""


def requests(room, program):
    """The sizes for which a run of the benchmark asks, in their order."""
    source, library, noted = room / "note.c", room / "note.so", room / "requests"
    source.write_text(NOTE)
    subprocess.run(["cc", "-O1", "-shared", "-fPIC", "-o", library, source, "-ldl"], check=True)
    variables = dict(os.environ, LD_PRELOAD=str(library), REQUESTS=str(noted))
    subprocess.run([program, "new_core"], stdout=subprocess.DEVNULL, env=variables, check=True)
    return [int(line) for line in noted.read_text().split()]


def main():
    if sys.argv[1:] in (["-h"], ["--help"]):
        print(__doc__, end="")
        return 0
    program = Path(sys.argv[1] if len(sys.argv) > 1 else TOP / "crates/pif_bench/out/pif_bench").resolve()
    if not os.access(program, os.X_OK):
        print("core_memory.py: there is no program %s; 'rt run' in crates/pif_bench builds it" % program,
              file=sys.stderr)
        return 2
    with tempfile.TemporaryDirectory() as folder:
        sizes = requests(Path(folder), program)
    # What a run asks for besides its cores is a few requests at its front.
    each = len(sizes) // CORES
    core = sizes[len(sizes) - each:]
    print("a core under the default limits: %d requests, %d bytes" % (each, sum(core)))
    return 0


if __name__ == "__main__":
    sys.exit(main())

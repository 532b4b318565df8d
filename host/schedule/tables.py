"""Tables of many programs that are run by pif-schedule, as pages have them."""

import os
import subprocess

import scheduling


def run_by_tool(words, folder, names=None):
    """The status of pif-schedule, and its lines, with these variables of the environment."""
    done = subprocess.run([scheduling.HERE / "pif-schedule", *map(str, words)], cwd=folder, stdin=subprocess.DEVNULL,
                          capture_output=True, text=True, env={**os.environ, **(names or {})})
    return done.returncode, (done.stdout + done.stderr).splitlines()


def verdict_in(lines):
    """The verdict behind `run 1, seed 1`, and its kind: `refused` if it is of a call that can't be scheduled."""
    said = next((line.partition(": ")[2] for line in lines if line.startswith("run ")), lines[0])
    kind, _, why = said.partition(": ")
    return ("refused: " + why, "refused") if kind == "unsupported" else (said.partition("; ")[0], kind)


def library_in(lines):
    """Of what libpif it holds."""
    return next(("libpif" + line.partition(": libpif")[2] for line in lines if ": libpif" in line), "")


def write_page(path, head, rows):
    """A page that ends with a table, of which these are the rows."""
    with path.open("w") as page:
        page.write(head)
        page.writelines("| %s |\n" % " | ".join(row) for row in rows)

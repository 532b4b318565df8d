"""The lines of outcomes that `pif explore` prints."""

import re

ANSWERS = re.compile(r"^(t\d+)(?: (?:-|\d+))+(?= |$)")


def without_answers(line):
    """The line of an outcome as `--claims` prints it: a thread has nothing but what has become of it."""
    return "; ".join(ANSWERS.sub(r"\1", part) for part in line.split("; "))

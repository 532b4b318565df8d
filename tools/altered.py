"""Histories that are legal, and the same with one answer changed, by a seed."""

import random
import re

import played

ANSWERS = ("0", "16", "110", "131")
# kinds without ticks, which all threads of a history share
TIMELESS = ("locks", "tries", "waits")


def commented(lines, chance):
    """The lines with a comment or an empty line before some of them."""
    found = []
    for line in lines:
        if chance.random() < 0.1:
            found.append(chance.choice(("# at main.c:7", "")))
        found.append(line)
    return found


def changed(lines, chance):
    """The lines with one answer changed."""
    place = chance.choice([i for i, line in enumerate(lines) if line.startswith("answer")])
    verb, thread, answer = lines[place].split()
    answer = chance.choice([a for a in ANSWERS if a != answer])
    return lines[:place] + ["%s %s %s" % (verb, thread, answer)] + lines[place + 1 :]


def made(seed):
    """What the history of a seed is, its lines, and the lines with one answer changed."""
    chance = random.Random(seed)
    kind, threads, size = chance.choice(played.KINDS), chance.randint(2, 3), chance.randint(200, 300)
    lines = commented(played.history_of(kind, threads, size, seed), chance)
    return "%s of %d threads, seed %d" % (kind, threads, seed), lines, changed(lines, chance)


def of_group(line, group):
    """The line with the names of this group, from 0: two threads, a mutex and a variable."""
    line = re.sub(r"\bt([12])\b", lambda name: "t%d" % (int(name[1]) + 2 * group), line)
    return re.sub(r"\b([mc])1\b", lambda name: "%s%d" % (name[1], group + 1), line)


def of_groups(seed, groups):
    """What the history of a seed is, its lines, and the lines with one answer changed: groups of two threads, each with
    a mutex and a variable of its own, whose lines are mixed."""
    chance = random.Random(seed)
    before, behind = [], []
    for group in range(groups):
        lines = played.history_of(chance.choice(TIMELESS), 2, 100, chance.random())
        first = next(place for place, line in enumerate(lines) if line.startswith("begin"))
        own = [of_group(line, group) for line in lines]
        before += own[:first]
        behind.append(own[first:])
    turns = [group for group, lines in enumerate(behind) for _ in lines]
    chance.shuffle(turns)
    at = [iter(lines) for lines in behind]
    lines = before + [next(at[group]) for group in turns]
    return "%d groups, seed %d" % (groups, seed), lines, changed(lines, chance)

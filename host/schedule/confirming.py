"""What the program pif is asked of a run's story and history: whether they are right, and pages of them."""

import subprocess
import tempfile
from pathlib import Path

import scheduling
from scheduling import counted

SECONDS_OF_CHECK = 60
MOST_OF_STORY = 1 << 24  # bytes that the program pif reads


def history_of(story):
    """The story of a run as a history: whole calls become their begins and answers."""
    for line in story.splitlines():
        command, _, said = line.partition(" = ")
        how, _, rest = command.partition(" ")
        if how == "call":
            yield "begin " + rest
        if how in ("call", "finish") and said.startswith("answer "):
            yield "answer %s %s" % (rest.split()[0], said.split()[1])
        elif how not in ("call", "finish"):
            yield command


def program_pif(read):
    """The program that checks stories; None if there is none."""
    default = scheduling.TOP / "out" / "pif"
    return read.pif or (default if default.exists() else None)


def asked_of(words):
    """The status of a program, and what it says; no status if it takes too long."""
    try:
        done = subprocess.run(words, stdin=subprocess.DEVNULL, capture_output=True, text=True, timeout=SECONDS_OF_CHECK)
    except subprocess.TimeoutExpired:
        return None, "nothing in %d seconds" % SECONDS_OF_CHECK
    return done.returncode, done.stdout + done.stderr


def said_by(words):
    """The status, and the first line."""
    status, said = asked_of(words)
    return status, (said.splitlines() or ["nothing"])[0]


def allowing(asked):
    """The words that allow the rules that were choices."""
    return [word for rule in (*scheduling.CHOSEN_RULES, *asked.allow) for word in ("--allow", rule)]


def judged(pif, asked, history):
    """What the program pif says of the history of a run on the POSIX machine, by the rules that were choices, in words."""
    status, said = said_by([pif, "judge", *allowing(asked), history])
    if status == 0 or said.startswith("legal"):
        return "confirmed by `pif judge` with these rules, which says %s" % said
    return "NOT confirmed: `pif judge` with these rules says %s" % said


def confirmed(pif, story, history):
    """What the program pif says of the two files, in words."""
    status, said = said_by([pif, "check", "--strict", story])
    if status != 0:
        return "NOT confirmed: `pif check --strict` says %s" % said
    return "confirmed by `pif check --strict`; `pif judge` says %s" % said_by([pif, "judge", history])[1]


def write_pages(pif, asked, folder, story, history):
    """The pages of the two files, or of a history alone, and what is said of them."""
    folder.mkdir(parents=True, exist_ok=True)
    made, missing = [], []
    jobs = [("history.html", "judge", history)]
    if story is not None:
        jobs.insert(0, ("story.html", "draw", story))
    for name, job, file in jobs:
        status, said = asked_of([pif, job, "--html", *(allowing(asked) if story is None else []), file])
        if said.startswith("<"):
            (folder / name).write_text(said)
            made.append(str(folder / name))
        else:
            missing.append("`pif %s --html` says %s" % (job, (said.splitlines() or ["nothing"])[0]))
    return "; ".join((["pages: " + ", ".join(made)] if made else []) + missing)


def check_history(read, asked, run):
    """The same of a run on the POSIX machine, which has no story."""
    history = "".join(line + "\n" for line in history_of(run.story))
    with tempfile.TemporaryDirectory() as folder:
        file = read.history or Path(folder) / "history"
        file.write_text(history)
        pif = program_pif(read)
        lines = counted(history.count("\n"), "line")
        if run.is_story_cut or len(history) > MOST_OF_STORY:
            return "its history of %s is longer than pif reads, and isn't checked" % lines, False
        if pif is None:
            return "its history of %s isn't checked: there is no program pif (./pif makes one)" % lines, False
        said = "its history of %s is %s" % (lines, judged(pif, asked, file))
        pages = "\n" + write_pages(pif, asked, read.page, None, file) if read.page else ""
        return said + pages, "NOT confirmed" in said


def check_story(read, asked, run):
    """Writes the story, the history and the pages of a run where they are wanted; what is said of them, and whether the
    program pif has refused them."""
    if asked.posix:
        return check_history(read, asked, run)
    history = "".join(line + "\n" for line in history_of(run.story))
    with tempfile.TemporaryDirectory() as folder:
        files = [read.story or Path(folder) / "story", read.history or Path(folder) / "history"]
        for file, text in zip(files, (run.story, history)):
            file.write_text(text)
        pif = program_pif(read)
        lines = counted(run.story.count("\n"), "line")
        if run.is_story_cut or len(run.story) > MOST_OF_STORY:
            return "its story of %s is longer than pif reads, and isn't checked" % lines, False
        if pif is None:
            return "its story of %s isn't checked: there is no program pif (./pif makes one)" % lines, False
        said = "its story of %s is %s" % (lines, confirmed(pif, *files))
        pages = "\n" + write_pages(pif, asked, read.page, *files) if read.page else ""
        return said + pages, "NOT confirmed" in said

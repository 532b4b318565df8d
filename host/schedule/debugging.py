"""A schedule's run in gdb."""

import shlex
import shutil
import signal
import subprocess

from scheduling import BY_LIBRARY, Program, Refused, reasons_of


def commands(program):
    """What gdb is told before it reads commands of its own. The run is as without it: its files are those of a replay.
    Whatever ends it without a signal is the call of the kernel exit_group."""
    names = " ".join(shlex.quote("%s=%s" % pair) for pair in program.names().items())
    return [
        "set exec-wrapper env -u LINES -u COLUMNS %s" % names,
        "catch syscall exit_group",
        "run </dev/null >>%s 2>>%s" % tuple(shlex.quote(str(program.file_of(name))) for name in ("out", "err")),
    ]


def run_in_gdb(schedule, program):
    """On the terminal that is here, whose ^C is for gdb."""
    words = [word for command in commands(program) for word in ("-ex", command)]
    signal.signal(signal.SIGINT, lambda *_: None)
    subprocess.call(["gdb", "-q", *words, "--args", program.file, *schedule.words[1:]])


def debug(schedule):
    """Runs it in gdb. What is returned is whether the library ended it in another way than the schedule says."""
    if shutil.which("gdb") is None:
        raise Refused("there is no program gdb")
    program = Program(schedule.words)
    try:
        program.prepare(schedule.asked._replace(strategy="stay", whole=True), schedule.choices)
        for line in ("the schedule ends with %s" % schedule.outcome, *schedule.reasons):
            print(line)
        print("what it prints is in %s and %s" % (program.file_of("out"), program.file_of("err")), flush=True)
        run_in_gdb(schedule, program)
        told = program.told(program.tellings)
        reasons = reasons_of(told)
    finally:
        program.stop()
    is_other = told.ended == BY_LIBRARY and reasons[0].partition(":")[0] != schedule.outcome
    if is_other:
        print("in gdb it ended otherwise: %s" % reasons[0])
    return is_other

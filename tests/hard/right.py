"""What is right: by the independent program, and by what a program and ./record have to say."""
import re
import signal
import subprocess

from inputs import PAPER
from runs import SECONDS, run

BAD = b"bad capture\n"
KNOWN = {}  # what the independent program writes, by capture


def due(capture):
    """What is to be written, by the independent program."""
    if capture not in KNOWN:
        KNOWN[capture] = subprocess.run([PAPER, "record"], input=capture, stdout=subprocess.PIPE, check=False).stdout
    return KNOWN[capture]


def program_is_right(given, ended):
    """Whether the program did what it has to do: it says in a line why a capture is bad, and where nothing can be
    written says so in a line. It need not tell what cannot be read."""
    wanted, status, out = due(given.capture), ended.status, ended.out
    exited = status is not None and status >= 0
    if given.rule in ("whole", "limited"):
        said_well = re.fullmatch(rb"bad capture: [^\n]+\n" if wanted == BAD else rb"", ended.told)
        return out == wanted and exited and (status == 0 or wanted == BAD) and said_well is not None
    if given.rule == "unread":
        return exited and (out == BAD or out == b"" and status != 0)
    if given.rule == "unwritten":
        return exited and out == b"" and ended.told.count(b" cannot be written\n") == 1
    return (exited or status == -signal.SIGPIPE) and wanted.startswith(out)


def record_is_right(given, ended):
    """Whether ./record did what its usage says: 0 and silent; 1 and a line about a bad capture; 2 and why in a line."""
    wanted, status, out = due(given.capture), ended.status, ended.out
    line = rb"record: standard input: bad capture: [^\n]+\n" if wanted == BAD else rb""
    ended_well = status == (wanted == BAD) and re.fullmatch(line, ended.told) is not None
    failed = status == 2 and re.fullmatch(rb"record: [^\n]+\n", ended.told) is not None
    if given.rule == "whole":
        return ended_well and out == wanted
    if given.rule == "cut" and given.room > 0:  # all may have been written before nobody read it
        return wanted.startswith(out) and (failed or ended_well)
    return failed and out == b""


def wrong(command, inputs, is_right, seconds=SECONDS):
    """The inputs over which a program does wrong, one after the other, each with what it did."""
    for given in inputs:
        ended = run(command, given, seconds)
        if not is_right(given, ended):
            yield given, ended

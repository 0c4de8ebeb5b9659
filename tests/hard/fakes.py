"""Wrong programs, started by `run --fake NAME`. Each does one thing wrong, and is to be noticed in some inputs."""
import os
import signal
import sys
import tempfile
import time

from inputs import MOST, limits, pieces, random_octets, unread, unwritten
from right import BAD, due, program_is_right, record_is_right

OPENING = b"#!EVRC\n"


def all_input():
    """All of standard input."""
    return sys.stdin.buffer.read()


def put(octets):
    """Writes to standard output."""
    sys.stdout.buffer.write(octets)
    sys.stdout.buffer.flush()


def say(octets):
    """The same, with a reason on standard error where a capture is bad."""
    put(octets)
    if octets == BAD:
        os.write(2, b"bad capture: for a reason\n")


def drops_a_frame():
    """Leaves out the end of a recording."""
    recording = due(all_input())
    say(recording if recording in (BAD, OPENING) else recording[:-3])


def hangs():
    """Does not end."""
    say(due(all_input()))
    time.sleep(3600)


def crashes():
    """Ends by a signal."""
    say(due(all_input()))
    os.kill(os.getpid(), signal.SIGTERM)


def opening_first():
    """Writes before the capture is judged."""
    put(OPENING)
    say(due(all_input()).removeprefix(OPENING))


def reads_once():
    """Takes the first piece for the capture."""
    say(due(os.read(0, MOST + 1)))


def reads_no_more():
    """Does not see that there are too many octets."""
    say(due(sys.stdin.buffer.read(MOST)))


def reads_one_less():
    """Refuses the most octets too."""
    octets = all_input()
    say(due(octets) if len(octets) < MOST else BAD)


def waits_for_the_end():
    """Reads on after too many octets."""
    say(due(all_input()[:MOST + 1]))


def crashes_unread():
    """Ends by a signal where its input cannot be read."""
    try:
        say(due(all_input()))
    except (OSError, AttributeError):  # there is no stdin if it is closed
        os.kill(os.getpid(), signal.SIGTERM)


def writes_until_it_can():
    """Does not give up where its output cannot be written."""
    octets = due(all_input())
    while octets:
        try:
            octets = octets[os.write(1, octets):]
        except OSError:
            pass


def kept_in_a_file(octets):
    """What a file without room for all has of the octets."""
    with tempfile.TemporaryFile(buffering=0) as kept:
        try:
            kept.write(octets)
        except OSError:
            pass
        kept.seek(0)
        return kept.read()


def keeps_a_cut_file():
    """As ./record is, but for a file that it does not notice to be cut."""
    octets = kept_in_a_file(due(all_input()))
    try:
        put(octets)
    except (OSError, AttributeError):  # there is no stdout if it is closed
        os.write(2, b"record: standard output: cannot be written\n")
        os._exit(2)
    if octets == BAD:
        os.write(2, b"record: standard input: bad capture: for a reason\n")
    sys.exit(octets == BAD)


def says_nothing():
    """Writes nothing."""
    all_input()


def gives_no_reason():
    """Does not say why a capture is bad."""
    put(due(all_input()))


def tells_too_much():
    """Says something on standard error of a good capture."""
    say(due(all_input()))
    os.write(2, b"bad capture: not at all\n")


# Each with the inputs by which it is noticed, by the rule for the program or for ./record.
FAKES = [
    (says_nothing, random_octets, program_is_right), (gives_no_reason, random_octets, program_is_right),
    (crashes, random_octets, program_is_right), (opening_first, random_octets, program_is_right),
    (tells_too_much, limits, program_is_right),
    (drops_a_frame, limits, program_is_right), (reads_no_more, limits, program_is_right),
    (reads_one_less, limits, program_is_right), (reads_once, pieces, program_is_right),
    (crashes_unread, unread, program_is_right), (keeps_a_cut_file, unwritten, record_is_right),
]
ENDLESS = [(hangs, random_octets), (waits_for_the_end, pieces), (writes_until_it_can, unwritten)]

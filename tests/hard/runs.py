"""Runs of a program on an input."""
import os
import signal
import subprocess
import tempfile
import threading
import time
from dataclasses import dataclass

SECONDS = 30  # in which a program has to end


@dataclass
class Ended:
    """How a program ended: its status, which is -N for signal N and None where it did not end in time, and what it
    wrote."""
    status: object
    out: bytes
    told: bytes


def feed(to, given):
    """Writes the input as it is to come. A program may end before it has read all."""
    try:
        for start in range(0, len(given.capture), given.piece):
            os.write(to, given.capture[start:start + given.piece])
            time.sleep(given.pause)
    except BrokenPipeError:
        pass
    if not given.stays_open:
        os.close(to)


def collect(given, source, found):
    """Reads the output as it is to be read, and then no more of it."""
    while len(found) < given.room and (octets := os.read(source, min(4096, given.room - len(found)))):
        found.extend(octets)
        time.sleep(0.002 * given.slowly)
    os.close(source)


def end_of(child, seconds):
    """The status of a program. One that does not end in time is ended, with all that it started."""
    try:
        return child.wait(seconds)
    except subprocess.TimeoutExpired:
        os.killpg(child.pid, signal.SIGKILL)
        child.wait()
        return None


def run(command, given, seconds=SECONDS):
    """Runs a program on an input."""
    (its_input, to), (source, its_output), found = os.pipe(), os.pipe(), bytearray()
    threads = [threading.Thread(target=collect, args=(given, source, found), daemon=True)]
    if given.room == 0:
        collect(given, source, found)
        threads = []
    with tempfile.TemporaryFile() as told:
        child = subprocess.Popen(["sh", "-c", given.shell, "sh", *command], stdin=its_input, stdout=its_output,
                                 stderr=told, start_new_session=True)
        os.close(its_input)
        os.close(its_output)
        threads.append(threading.Thread(target=feed, args=(to, given), daemon=True))
        [thread.start() for thread in threads]
        status = end_of(child, seconds)
        [thread.join(seconds) for thread in threads]
        if given.stays_open:
            os.close(to)
        told.seek(0)
        return Ended(status, bytes(found), told.read())

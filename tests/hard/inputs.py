"""The inputs of hard use, group by group."""
import itertools
import os
import struct
import subprocess
from dataclasses import dataclass

PAPER = os.path.join(os.path.dirname(os.path.abspath(__file__)), "../../compare/target/release/compare")
MOST = 65536  # octets of a capture


@dataclass
class Input:
    """A capture, how it comes, where the recording goes, and the rule that says what is right: whole, unread,
    unwritten, cut or limited."""
    name: str
    capture: bytes
    rule: str = "whole"
    shell: str = 'exec "$@"'  # what starts the program
    piece: int = 2**20  # octets that come at a time
    pause: float = 0.0  # seconds after each piece
    stays_open: bool = False  # the end of the input never comes
    room: int = 2**20  # octets that are read of the output, at most
    slowly: bool = False  # they are read with pauses


# Captures.

def capture_of(packets):
    """A capture of packets: source, sequence, timestamp and payload."""
    table = b"".join(struct.pack(">IHIH", *numbers, len(payload)) for *numbers, payload in packets)
    return struct.pack(">H", len(packets)) + table + b"".join(payload for *_, payload in packets)


def talk(draw, count):
    """Packets of one frame each. Some are lost on the way, and before some there is silence."""
    packets, sequence, time = [], draw.randrange(2**16), draw.randrange(2**32)
    for _ in range(count):
        packets.append((7, sequence % 2**16, time % 2**32, b"\0\1" + draw.randbytes(2)))
        lost, silence = draw.choice([0, 0, 0, 2]), draw.choice([0, 0, 0, 50])
        sequence += 1 + lost
        time += 160 * (1 + lost + silence)
    return packets


def of_size(draw, size, count):
    """A capture of so many octets: its last two packets have all that are left, and are skipped."""
    packets = talk(draw, count - 2)
    left = size - len(capture_of(packets)) - 2 * 12
    filled = [(7, packets[-1][1], 0, draw.randbytes(octets)) for octets in (left // 2, left - left // 2)]
    return capture_of(packets + filled)


def largest():
    """The capture with the largest recording."""
    return subprocess.run([PAPER, "random-capture", "0"], stdout=subprocess.PIPE, check=True).stdout


# Inputs.

def random_octets(draw):
    """Random octets, also behind a small count."""
    for size in [*range(201), MOST - 2, MOST - 1, MOST, MOST + 1, 70000, 2**20]:
        octets = draw.randbytes(size)
        yield Input(f"{size} random octets", octets)
        yield Input(f"{size} random octets, count 0 or 1", bytes([0, draw.randrange(2)])[:size] + octets[2:])


def random_payload(draw):
    """A payload of at most 26 octets, random but for its first two, which are likely ones."""
    first, second = draw.choice([0, 8, 9, 0x39, draw.randrange(256)]), draw.choice([0, 1, 4, 0x81])
    return (bytes([first, second]) + draw.randbytes(24))[:draw.randrange(27)]


def random_payloads(draw):
    """Captures of random payloads; the same cut, and with an octet more."""
    for number in range(60):
        step = draw.choice([160, 1600])  # a frame, or the most frames of a packet
        capture = capture_of([(7, n, step * n, random_payload(draw)) for n in range(draw.randrange(9))])
        yield Input(f"random payloads {number}", capture)
        yield Input(f"random payloads {number}, cut", capture[:-1])
        yield Input(f"random payloads {number}, with an octet more", capture + b"\0")


def limits(draw):
    """Counts and sizes at their ends."""
    full = [(count, of_size(draw, MOST, count)) for count in (3, 256)]
    yield from (Input(f"{MOST} octets and one more, count {count}", capture + b"\0") for count, capture in full)
    yield from (Input(f"{MOST} octets but the last, count {count}", capture[:-1]) for count, capture in full)
    counts = 0, 1, 2, 254, 255, 256, 257, 258, 512
    yield from (Input(f"count {count}", capture_of(talk(draw, count))) for count in counts)
    for size, count in itertools.product((MOST - 2, MOST - 1, MOST, MOST + 1, MOST + 2, 70000), (3, 255, 256)):
        yield Input(f"{size} octets as the table says, count {count}", of_size(draw, size, count))


def pieces(draw):
    """Input that comes in pieces, with pauses."""
    small, full, long = capture_of(talk(draw, 4)), of_size(draw, MOST, 256), of_size(draw, MOST + 1, 256)
    yield Input("an octet at a time", small, piece=1, pause=0.005)
    yield Input("an octet at a time, the last one missing", small[:-1], piece=1, pause=0.005)
    yield Input("the most octets in small pieces", full, piece=997, pause=0.003)
    yield Input("one octet too many in small pieces", long, piece=997, pause=0.003)
    yield Input("one octet too many, and late", long, piece=MOST, pause=0.5)
    yield Input("the end comes late", small, pause=1.0)
    yield Input("too many octets, and no end", long, stays_open=True)
    yield Input("the output is read slowly", largest(), slowly=True)


def unread(draw):
    """Input that is empty, or cannot be read."""
    yield Input("/dev/null", b"", shell='exec "$@" </dev/null')
    yield Input("closed input", b"", "unread", 'exec "$@" <&-')
    yield Input("a folder as input", b"", "unread", 'exec "$@" </')
    yield Input("input that is for writing", b"", "unread", 'exec "$@" 0>/dev/null')


def unwritten_of(name, capture):
    """Output of a capture that cannot be written, or is not read."""
    yield Input(f"{name}, output closed", capture, "unwritten", 'exec "$@" >&-')
    yield Input(f"{name}, output full", capture, "unwritten", 'exec "$@" >/dev/full')
    for room, ignored in itertools.product((0, 3), (False, True)):
        told = f"{name}, {room} octets are read{', the signal is ignored' * ignored}"
        yield Input(told, capture, "cut", 'trap "" PIPE; ' * ignored + 'exec "$@"', room=room)


def unwritten(draw):
    """Output that cannot be written, or is not read."""
    yield from unwritten_of("bad", b"\0")
    yield from unwritten_of("small", capture_of(talk(draw, 4)))
    yield from unwritten_of("large", largest())
    yield Input("files have little room", largest(), "limited", 'trap "" XFSZ; ulimit -f 8; exec "$@"')


GROUPS = random_octets, random_payloads, limits, pieces, unread, unwritten

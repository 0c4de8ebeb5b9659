#!/usr/bin/env python3
"""captures.py [--check]: makes the files of examples/captures from examples/captures.txt, NAME.capture and NAME.recording
for each example; or checks that they are there, are as captures.txt says, and are all that is there."""
import os
import re
import sys

HERE = os.path.dirname(os.path.abspath(__file__))
FOLDER = os.path.join(HERE, "..", "examples", "captures")
BAD = b"bad capture\n"


def octets(line):
    """The octets of a line in hex: `0E` is one, `0Ex4` four of it."""
    found = b""
    for word in line.split():
        repeated = re.fullmatch(r"([0-9A-F]{2})(?:x([0-9]+))?", word)
        if not repeated:
            raise ValueError(f"no octet: {word}")
        found += bytes.fromhex(repeated[1]) * int(repeated[2] or 1)
    return found


def examples(text):
    """Each example: its name, its capture, and what is written for it."""
    found, name, part = {}, None, None
    for number, line in enumerate(text.splitlines(), 1):
        line = line.split("#")[0].strip()
        if line.startswith("== "):
            name, part = line[3:], "words"
            if not re.fullmatch(r"[a-z0-9_]+", name) or name in found:
                raise ValueError(f"line {number}: no name, or one that stands before: {name}")
            found[name] = {"words": "", "in": b"", "out": b""}
        elif line in ("in:", "out:", "out: bad capture") and name:
            part = line.split(":")[0]
            found[name][part] = BAD if line.endswith("capture") else b""
        elif line and part == "words":
            found[name]["words"] += line
        elif line and part:
            try:
                found[name][part] += octets(line)
            except ValueError as error:
                raise ValueError(f"line {number}: {error}") from None
    for name, parts in found.items():
        if not parts["words"] or not parts["out"]:
            raise ValueError(f"{name}: words or a recording are missing")
    return found


def files(text):
    """What each file is to hold."""
    due = {}
    for name, parts in examples(text).items():
        due[name + ".capture"] = parts["in"]
        due[name + ".recording"] = parts["out"]
    return due


def write(due):
    """Writes the files."""
    os.makedirs(FOLDER, exist_ok=True)
    for name, content in due.items():
        with open(os.path.join(FOLDER, name), "wb") as file:
            file.write(content)


def wrong(due):
    """The files that are missing, too many, or not as they are to be."""
    there = set(os.listdir(FOLDER)) if os.path.isdir(FOLDER) else set()
    found = sorted(there ^ set(due))
    for name in sorted(there & set(due)):
        with open(os.path.join(FOLDER, name), "rb") as file:
            if file.read() != due[name]:
                found.append(name)
    return found


def main(words):
    """Makes the files, or checks them."""
    if words in (["-h"], ["--help"]):
        print(__doc__)
        return 0
    if words not in ([], ["--check"]):
        sys.exit(__doc__)
    with open(os.path.join(HERE, "..", "examples", "captures.txt"), encoding="utf-8") as file:
        due = files(file.read())
    if not words:
        write(due)
    found = wrong(due)
    for name in found:
        print(f"captures.py: {name} is missing, too many or not as captures.txt says")
    print(f"captures.py: {len(due)} files, {len(found)} wrong")
    return 1 if found else 0


if __name__ == "__main__":
    sys.exit(main(sys.argv[1:]))

"""What the tools read of the crates: their code, and the wrong answers of their must-fail edits."""
import collections
import glob
import os
import re
import shutil
import signal
import sys

ROOT = os.path.join(os.path.dirname(os.path.abspath(__file__)), "..")
# What a check says of a proof that names what the code has no more; and besides, of one that rests on what failed.
UNNAMED = r"has no `|has no field `|can be named from here"
UNFIT = UNNAMED + r"|is not in scope|was not admitted|was rejected|was not checked"
EXPORTS = "landing_c"  # the crate that exports landing's calls to C, with their contracts: no calls of its own
signal.signal(signal.SIGPIPE, signal.SIG_DFL)  # a reader that has enough, as head, ends a tool quietly

# A wrong answer: its crate and file, its three headings, and the texts that it changes, as pairs (file, old).
Answer = collections.namedtuple("Answer", "crate label name calls what on within olds")


def read(path):
    """The text of a file, of which the path may be given from the root."""
    return open(os.path.join(ROOT, path), encoding="utf-8").read()


def copied(room):
    """A copy of the crates in a folder, with what earlier checks left."""
    shutil.copytree(os.path.join(ROOT, "crates"), os.path.join(room, "crates"), ignore=shutil.ignore_patterns("must-fail"))
    shutil.copy(os.path.join(ROOT, "crates.txt"), room)
    os.mkdir(os.path.join(room, ".git"))  # the top of a checkout


def functions(source):
    """Of a file of Rattle: the name, the extent and the text of the body of each function, a method as TYPE::NAME, or
    TYPETRAIT::NAME as the prover names it."""
    found, kind = [], None
    for m in re.finditer(r'^impl(?:<.*?>)? (?:(\S+) for )?(\w+)|^( *)(?:pub(?:\(crate\))? )?(?:extern "C" )?fn (\w+)', source, re.M):
        if m.group(2):
            kind = m.group(2) + re.sub(r"\W", "", m.group(1) or "")
            continue
        indent = m.group(3)
        end = re.search(rf"^{indent}\}}$", source[m.start():], re.M).end() + m.start()
        body = re.search(rf"^{indent}\{{$|\{{$", source[m.start():end], re.M).start() + m.start()
        found.append((f"{kind}::{m.group(4)}" if indent else m.group(4), m.start(), end, source[body:end]))
    return found


def sources():
    """The crate, the path and the text of each file of code."""
    for path in sorted(glob.glob(os.path.join(ROOT, "crates", "*", "src", "*.rt"))):
        yield path.split(os.sep)[-3], os.path.relpath(path, ROOT), read(path)


def calls():
    """Of each function: its crate, its name, whether it is public, whether internal, its contract and its body."""
    for crate, _, source in sources():
        for name, start, end, body in functions(source):
            head = source[start:end - len(body)]
            above = re.search(r"(?:^ *(?://|#\[).*\n)*\Z", source[:start], re.M).group(0)
            yield crate, name, head.lstrip().startswith("pub "), "// internal:" in above, head, body


def statements():
    """The claims that a wrong answer may be one of."""
    for path in glob.glob(os.path.join(ROOT, "crates", "claims", "specs", "*.antt")):
        for name in re.findall(r"^(?:unfoldable pub|pub record) (\w+)", read(path), re.M):
            yield "claims", name


def heading(text, key):
    """What stands behind a heading `# KEY: ` of a wrong answer, or None."""
    found = re.search(rf"^# {key}: (.*)$", text, re.M)
    return found and found.group(1)


def answers():
    """Each wrong answer of crates/*/must-fail. Where a heading is not as it should be, its part is None."""
    for path in sorted(glob.glob(os.path.join(ROOT, "crates", "*", "must-fail", "*.edit"))):
        crate, label, file = path.split(os.sep)[-3], os.path.basename(path)[:-5], None
        for text in re.split(r"^(?=# (?!on: |in: ))", read(path), flags=re.M):
            head = re.match(r"# (\w+): ([\w:]+(?:, [\w:]+)*): (.+)$", text, re.M)
            name, calls, what = head.groups() if head else (None, "", None)
            olds = []
            for named, old in re.findall(r"^(?:file: (.*)\n)?old: (.*)$", text, re.M):
                file = named or file
                olds.append((file, old))
            if text.strip():
                on, within = heading(text, "on"), heading(text, "in")
                yield Answer(crate, label, name, calls.split(", "), what, on, within, olds)


def usage(text, options=(), least=0):
    """Prints what a tool is for and ends, if it is asked; ends with status 2 at an unknown option or too few words."""
    name, words = os.path.basename(sys.argv[0]), sys.argv[1:]
    if "-h" in words or "--help" in words:
        print(text)
        sys.exit(0)
    unknown = [word for word in words if word.startswith("-") and word not in options]
    if unknown or len(words) < least:
        print(f"{name}: {'no such option: ' + unknown[0] if unknown else 'too few words'} (--help)", file=sys.stderr)
        sys.exit(2)

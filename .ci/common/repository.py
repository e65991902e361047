"""What the Python scripts of .ci share: where things stand, the lines of crates.txt, and words that ask for help."""
import hashlib
import os
import shutil
import sys
from pathlib import Path

TOP = Path(__file__).resolve().parents[2]
CRATES = TOP / "crates"


def help_if_asked(text, least=0):
    """Prints a script's page and ends, where a word asks for it, or where there are fewer words than it takes at least."""
    if {"-h", "--help"} & set(sys.argv[1:]):
        print(text.strip())
        sys.exit(0)
    if len(sys.argv) <= least:
        print(text.strip(), file=sys.stderr)
        sys.exit(2)


def kit():
    """The folder of the kit, by the `rt` that the shell finds."""
    rt = shutil.which("rt")
    if rt is None:
        sys.exit("there is no rt here: the kit isn't installed")
    return Path(os.path.realpath(rt)).parent.parent


def crate_lines(text):
    """By the text of crates.txt each crate: its name, what it stands on, and the words of its line."""
    found = []
    for line in text.split("\n"):
        line = line.partition("#")[0].strip()
        if line:
            name, _, below = line.partition(":")
            found.append((name.split()[0], below.split(), name.split()[1:]))
    return found


def crates():
    """Each crate, lowest first, with what it stands on and the words of its line."""
    return crate_lines((TOP / "crates.txt").read_text())


def at_or_below(lines, name):
    """A crate and the repository's crates that it stands on, however far below, in the order of the lines."""
    below = {crate: on for crate, on, _ in lines}
    found, todo = set(), [name]
    while todo:
        crate = todo.pop()
        if crate in below and crate not in found:
            found.add(crate)
            todo += below[crate]
    return [crate for crate, _, _ in lines if crate in found]


def sources_of(crate):
    """What a program is built of: each file of src/ of a crate and of those below."""
    names = at_or_below(crates(), crate)
    return sorted(path for name in names for path in (CRATES / name / "src").rglob("*.rt"))


def digest_of(crate):
    """A word that is the same only for the same sources of a program, the same lines of crates.txt, and the same kit."""
    lines = [line for line in crates() if line[0] in at_or_below(crates(), crate)]
    made = hashlib.sha256(repr(lines).encode() + (kit() / "KIT-ID").read_bytes())
    for path in sources_of(crate):
        text = path.read_bytes()
        made.update(f"{path.relative_to(TOP)} {len(text)}\n".encode() + text)
    return made.hexdigest()[:24]

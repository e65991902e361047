"""Reads the tables of crates/test_plays/data; crates/test_plays/README.md has their form."""
import re
import sys
from pathlib import Path

sys.path.insert(0, str(Path(__file__).resolve().parents[1]))
from common.repository import CRATES

DATA = CRATES / "test_plays/data"


def names():
    """The tables that the gate plays."""
    return (CRATES / "test_plays/args").read_text().split()


def plain(text):
    return text.replace("~", "\n").replace("^", "\r")


def wanted_text(word, data):
    """What has to be printed, and whether that is only the front."""
    if word.startswith("@"):
        return (data / word[1:]).read_bytes(), False
    return (plain(word[:-1]).encode(), True) if word.endswith("*") else (plain(word).encode(), False)


def changed(text, pairs):
    """A file with the changes of a play."""
    for old, new in zip(pairs[::2], pairs[1::2]):
        count, times, rest = new.partition("*")
        new = plain(rest).encode() * int(count) if times and count.isdigit() else plain(new).encode()
        if old == "=":
            text = new
        elif old == "":
            text += new
        else:
            text = text.replace(plain(old).encode(), new)
    return text


def plays_of(table, data):
    """Each play of a table: its line, command line, status, standard output and error as they stand there, and the file that
    is changed with its text, or nothing."""
    command, file = None, None
    for number, line in enumerate(table.split("\n"), 1):
        if not line or line.startswith("#"):
            continue
        if line.startswith("> "):
            command, file = line[2:], None
        elif line.startswith("@ "):
            file = line[2:]
        elif (range_ := re.match(r"([0-9]+)\.\.([0-9]+)\|([0-9]+)\|", line)):
            out, err = line[range_.end():].split("|")
            for size in range(int(range_[1]), int(range_[2]) + 1):
                yield number, command, int(range_[3]), out, err, file, (data / file).read_bytes()[:size]
        else:
            status, out, err, *pairs = line.split("|")
            text = changed((data / file).read_bytes(), pairs) if pairs else None
            yield number, command, int(status), out, err, file if pairs else None, text


def is_answered(wanted, got, data):
    text, is_front = wanted_text(wanted, data)
    return got.startswith(text) if is_front else got == text

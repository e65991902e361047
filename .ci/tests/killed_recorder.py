#!/usr/bin/env -S python3 -B
"""Starts crates/demo_mounted_recorder on a file, kills it at random moments (SIGKILL), and looks each time whether a write was lost
that it had reported as done: by its own look at the pages when it is started again, and by a reading of the file that knows
nothing of the program.

    .ci/tests/killed_recorder.py PROGRAM [--kills N] [--seed S] [--most SECONDS]    100 kills, each within 0.6 seconds"""
import argparse
import random
import re
import struct
import subprocess
import sys
import tempfile
import zlib
from pathlib import Path

BLOCKS, PAGES, ERASE_SLOTS, LOGICAL, STRIDE = 16, 4, 3, 16, 4096
HEADER = b"Maulgreen chip 1" + struct.pack("<III", BLOCKS, PAGES, ERASE_SLOTS)
LINE = re.compile(r"page (\d+) (has|asks|done) (\d+)")


class Wrong(Exception):
    """What the program or the file says isn't what it should be."""


def label_of(file, block, page):
    """The label of a cell, with its bytes, if it is good."""
    at = (block * PAGES + page + 1) * STRIDE
    record = file[at:at + 36]
    if len(record) < 36 or record[:4] != b"cell":
        return None
    mark, logical, serial, content, check = struct.unpack("<4sIQ16sI", record)
    if zlib.crc32(struct.pack("<II", block, page) + record[:32]) != check:
        return None
    return serial, logical, content


def numbers_in(file):
    """By page the number of the write that its newest label has, 0 where it has none."""
    if file and file[:28] != HEADER:
        raise Wrong("the file's header")
    labels = [label for block in range(BLOCKS) for page in range(PAGES) if (label := label_of(file, block, page))]
    if len({serial for serial, _, _ in labels}) < len(labels):
        raise Wrong("two cells have one serial")
    numbers = [0] * LOGICAL
    for _, logical, content in sorted(labels):
        number, page, check = struct.unpack("<QII", content)
        if page != logical or zlib.crc32(content[:12]) != check:
            raise Wrong(f"what page {logical} has was never written")
        numbers[logical] = number
    return numbers


class Watch:
    """What was heard of the program, over all its lives."""

    def __init__(self):
        self.done, self.asked, self.writes = [0] * LOGICAL, [0] * LOGICAL, 0

    def look(self, numbers, who):
        """Each page has its last finished write, or the one that was asked for after it."""
        for page, number in enumerate(numbers):
            if number not in (self.done[page], self.asked[page]):
                raise Wrong(f"{who}: page {page} has write {number}, and write {self.done[page]} was done")

    def hear(self, said, numbers):
        """What the program said in a life, on a file with these numbers. Answers whether it looked at all pages."""
        found = {}
        for line in said.split("\n")[:-1]:
            if line == "all pages were looked at":
                continue
            page, what, number = (match := LINE.fullmatch(line)) and match.groups() or (None, line, None)
            if page is None:
                raise Wrong(f"the program says: {line}")
            page, number = int(page), int(number)
            if what == "has":
                found[page] = number
                if number != numbers[page]:
                    raise Wrong(f"the program finds write {number} on page {page}, and the file has {numbers[page]}")
                self.done[page] = self.asked[page] = number
            elif what == "asks":
                self.asked[page] = number
            elif number == self.asked[page]:
                self.done[page] = number
                self.writes += 1
            else:
                raise Wrong(f"write {number} of page {page} is done, and {self.asked[page]} was asked for")
        return len(found) == LOGICAL


def life(program, path, seconds):
    """What the program says until it is killed."""
    process = subprocess.Popen([program, path], stdin=subprocess.DEVNULL, stdout=subprocess.PIPE, stderr=subprocess.PIPE, text=True)
    try:
        said, complained = process.communicate(timeout=seconds)
    except subprocess.TimeoutExpired:
        process.kill()
        return process.communicate()[0]
    raise Wrong(f"the program ended by itself: {complained}{said[-200:]}")


def main():
    asks = argparse.ArgumentParser(allow_abbrev=False, description=__doc__, formatter_class=argparse.RawDescriptionHelpFormatter)
    asks.add_argument("program")
    asks.add_argument("--kills", type=int, default=100)
    asks.add_argument("--seed", type=int, default=1)
    asks.add_argument("--most", type=float, default=0.6)
    asked = asks.parse_args()
    dice, watch, early = random.Random(asked.seed), Watch(), 0
    with tempfile.TemporaryDirectory() as room:
        path = Path(room) / "chip"
        path.touch()
        numbers = numbers_in(path.read_bytes())
        try:
            for kill in range(1, asked.kills + 1):
                early += not watch.hear(life(asked.program, path, dice.uniform(0, asked.most)), numbers)
                numbers = numbers_in(path.read_bytes())
                watch.look(numbers, f"after kill {kill}")
        except Wrong as wrong:
            print(f"seed {asked.seed}, kill {kill}: {wrong}")
            return 1
    if not watch.writes or not early:
        print("no write was done, or none of the kills came before the pages were looked at: take another --most")
        return 1
    print(f"{asked.kills} kills, {early} of them before all pages were looked at; {watch.writes} writes were done, and none was lost")
    return 0


if __name__ == "__main__":
    sys.exit(main())

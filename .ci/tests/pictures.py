#!/usr/bin/env -S python3 -B
"""Tests of the pictures of `flashplan`, by their texts: labels don't overprint and stay in the picture, curves that lie on each
other can be told apart and are named, a die that failed is marked, and there is a background.

    .ci/tests/pictures.py PROGRAM           flashplan, as `.ci/build/program` finds it; ends with 1 where a test fails
    .ci/tests/pictures.py PROGRAM TEST..    these tests alone

How wide a label is, is reckoned by the widths of DejaVu Sans, which browsers on Linux take for sans-serif."""
import re
import subprocess
import sys
import tempfile
import unittest
from pathlib import Path

TOP = Path(__file__).resolve().parents[2]
DATA = TOP / "crates/test_plays/data"
PROGRAM = None

# By character in parts of the size; all others are narrower than the last.
WIDTHS = {**dict.fromkeys("0123456789", 0.636), " ": 0.318, ".": 0.318, "(": 0.39, ")": 0.39, "-": 0.361, "s": 0.521, "m": 0.974,
          "u": 0.634, "l": 0.278, "o": 0.612, "t": 0.392}
HEAD = "at,die,task,kind,release,due,ops\n"


class Label:
    """A text of a picture: where it begins and ends, and its line."""

    def __init__(self, found, sizes, anchors):
        kind, x, self.y, self.text = found
        wide = sum(WIDTHS.get(sign, 0.7) for sign in self.text) * sizes(kind)
        before = {"start": 0, "middle": wide / 2, "end": wide}[anchors(kind)]
        self.begin = float(x) - before
        self.end = self.begin + wide


class Pictures(unittest.TestCase):
    def setUp(self):
        self.work = tempfile.TemporaryDirectory()
        self.addCleanup(self.work.cleanup)
        self.at = Path(self.work.name)

    def picture(self, words):
        done = subprocess.run([PROGRAM, *words.split()], cwd=self.at, capture_output=True, timeout=60)
        self.assertEqual(done.returncode, 0, done.stderr)
        return done.stdout.decode()

    def plan(self, name, tasks, front=""):
        """A die with a number of tasks that all have the same cap."""
        lines = [front, "version = 1", "dies = 1", "blocks = 64", "pages = 4", "erase_slots = 3", "logical = 12", "alpha = 2"]
        lines += ["[[task]]", "die = 0", "cap = 4"] * tasks
        (self.at / name).write_text("\n".join(lines) + "\n")

    def labels(self, svg, kinds):
        """The labels of these classes, by their lines."""
        def styled(kind, key, default):
            named = [re.search(rf"^\.{part}{{[^}}]*{key}:([^;}}]*)", svg, re.M) for part in kind.split()]
            return [met[1] for met in named if met] or [default]

        own = float(re.search(r"^text{font:(\d+)px", svg, re.M)[1])
        lines = {}
        for found in re.findall(r'<text class="([a-z ]+)" x="(-?\d+)" y="(\d+)">([^<]*)</text>', svg):
            if set(found[0].split()) & kinds:
                label = Label(found, lambda kind: float(styled(kind, "font-size", f"{own}px")[-1].removesuffix("px")),
                              lambda kind: styled(kind, "text-anchor", "start")[-1])
                lines.setdefault(label.y, []).append(label)
        return lines

    def stand_apart(self, svg, kinds, fewest):
        width = float(re.search(r'<svg [^>]*width="(\d+)"', svg)[1])
        lines = self.labels(svg, kinds)
        self.assertTrue(any(len(line) >= fewest for line in lines.values()), lines)
        for line in lines.values():
            line.sort(key=lambda label: label.begin)
            self.assertGreaterEqual(line[0].begin, 0)
            self.assertLessEqual(line[-1].end, width, line[-1].text)
            for first, second in zip(line, line[1:]):
                self.assertLess(first.end, second.begin, (first.text, second.text))

    def test_numbers_of_slots_stand_apart(self):
        self.plan("plan.toml", 1)
        (self.at / "none.csv").write_text(HEAD)
        for window in ("--from 999900 --to 1000000", "--from 999960 --to 1000000", "--from 999985 --to 1000000", "--from 0 --to 100"):
            for units in ("", " --slot-us 250", " --slot-us 1033"):
                svg = self.picture(f"draw plan.toml none.csv --slots 1000000 {window}{units}")
                rulers = "".join(line + "\n" for line in svg.splitlines() if 'y="135"' in line or not line.startswith("<text"))
                self.stand_apart(rulers, {"n", "l"}, 3)

    def test_numbers_of_latenesses_stand_apart(self):
        self.plan("plan.toml", 1)
        (self.at / "far.csv").write_text(HEAD + "0,0,0,job,0,1000000,R0\n0,0,0,job,0,5,R1\n")
        for units in ("", " --slot-us 250"):
            self.stand_apart(self.picture(f"compare plan.toml far.csv --slots 1000000 --draw{units}"), {"m"}, 4)

    def test_curves_of_tokens_can_be_told_apart_and_are_named(self):
        """All sixteen lie on each other: each is drawn otherwise than the others, and leaves some of each before it to be seen."""
        self.plan("plan.toml", 16)
        (self.at / "none.csv").write_text(HEAD)
        svg = self.picture("draw plan.toml none.csv --slots 10")
        curves = re.findall(r'<path class="(tokens [a-z0-9 ]+)" d="([^"]*)"><title>tokens of task (\d+)</title>', svg)
        self.assertEqual(([int(task) for _, _, task in curves], len({path for _, path, _ in curves})), (list(range(16)), 1))
        samples = re.findall(r'<path class="(tokens [a-z0-9 ]+)" d="M\d+,103h23"/><text x="\d+" y="107">(\d+)</text>', svg)
        self.assertEqual(samples, [(kind, task) for kind, _, task in curves])

        def style(kind, key, default):
            found = [re.search(rf"^\.{part}{{[^}}]*{key}:([^;}}]*)", svg, re.M) for part in kind.split()]
            return [met[1] for met in found if met][-1:] or [default]

        drawn = [(float(style(kind, "stroke-width", "1")[0]), float(style(kind, "stroke-dasharray", "1000")[0].split()[0]))
                 for kind, _, _ in curves]
        for place, (wide, dash) in enumerate(drawn):
            for other_wide, other_dash in drawn[:place]:
                self.assertTrue(wide < other_wide or (wide == other_wide and dash < other_dash), (place, drawn))

    def test_numbers_in_cells_are_as_wide_as_their_cells_at_most(self):
        """Six digits in a cell of 40 pixels, three in one of 20, and none in one of 10."""
        (self.at / "large.toml").write_text("version = 1\ndies = 1\nblocks = 1024\npages = 256\nerase_slots = 3\nlogical = 200000\n"
                                            "alpha = 2\n[[task]]\ndie = 0\ncap = 70\n")
        pages = (9, 99, 999, 1000, 12345, 199999)
        (self.at / "reads.csv").write_text(HEAD + "0,0,0,job,0,9," + " ".join(f"R{page}" for page in pages) + "\n")
        for slots, shown in ((25, pages), (50, pages[:3]), (100, ())):
            svg = self.picture(f"draw large.toml reads.csv --slots {slots}")
            self.assertEqual([int(page) for page in re.findall(r'<text class="p[^>]*>(\d+)<', svg)], list(shown))

    def test_a_die_that_failed_is_marked(self):
        self.plan("plan.toml", 1)
        (self.at / "reads.csv").write_text(HEAD + "0,0,0,job,0,9,W1=" + "1" * 32 + " R1 R1 R1\n")
        svg = self.picture("draw plan.toml reads.csv --slots 9 --fail-at 0:3")
        self.assertRegex(svg, r'<path class="failed" d="M230,\d+V\d+"><title>the die failed in slot 2</title></path>')

    def test_each_picture_has_a_background(self):
        self.plan("plan.toml", 1)
        (self.at / "none.csv").write_text(HEAD)
        (self.at / "terms.toml").write_bytes((DATA / "terms.toml").read_bytes())
        for words in ("draw plan.toml none.csv --slots 5", "compare plan.toml none.csv --slots 5 --draw", "draw terms.toml --demand"):
            drawn = re.sub(r"<(style|defs|title)>.*?</\1>", "", self.picture(words), flags=re.S)
            self.assertRegex(drawn, r'^<svg [^>]*>\s*<rect class="back" width="100%" height="100%"/>', words)


def main():
    global PROGRAM
    if len(sys.argv) < 2 or sys.argv[1].startswith("-"):
        sys.exit(__doc__)
    PROGRAM = str(Path(sys.argv[1]).resolve())
    loader = unittest.defaultTestLoader
    tests = unittest.TestSuite(map(Pictures, sys.argv[2:])) if sys.argv[2:] else loader.loadTestsFromTestCase(Pictures)
    sys.exit(not unittest.TextTestRunner().run(tests).wasSuccessful())


if __name__ == "__main__":
    main()

#!/usr/bin/env -S python3 -B
"""Tests of what `flashplan` takes at its most, in seconds of a processor and in memory: a picture of a longest run in which ever more
jobs wait, what is solved for of a plan of 8 dies of 16 tasks, and plans for datasheets of 16 tasks.

    .ci/tests/speed.py PROGRAM            flashplan, as `.ci/build/program` finds it; ends with 1 where a test fails
    .ci/tests/speed.py PROGRAM TEST..     these tests alone

It takes some seconds. A build without a proof takes up to three times as long as a proved one, and is judged by the same limits."""
import os
import random
import resource
import subprocess
import sys
import tempfile
import unittest
from importlib.machinery import SourceFileLoader
from pathlib import Path

TOP = Path(__file__).resolve().parents[2]
PROGRAM = None
fits, explains = (SourceFileLoader(name, str(TOP / f".ci/bench/{name}")).load_module() for name in ("fits", "explains"))
HEAD = "at,die,task,kind,release,due,ops\n"


class Limits(unittest.TestCase):
    def setUp(self):
        work = tempfile.TemporaryDirectory()
        self.addCleanup(work.cleanup)
        self.at = Path(work.name)

    def taken(self, words, statuses=(0,)):
        """The seconds of a processor and the bytes that a command takes."""
        done = subprocess.Popen([PROGRAM, *words.split()], cwd=self.at, stdin=subprocess.DEVNULL, stdout=subprocess.DEVNULL,
                                stderr=subprocess.PIPE)
        said = done.stderr.read()
        _, status, used = os.wait4(done.pid, 0)
        done.returncode = os.waitstatus_to_exitcode(status)
        done.stderr.close()
        self.assertIn(done.returncode, statuses, (words, said))
        return used.ru_utime + used.ru_stime, used.ru_maxrss * 1024

    def waiting_jobs(self, jobs, slots):
        """A script whose jobs of 64 reads come faster than they are done, over a number of slots."""
        operations = " ".join(f"R{page % 12}" for page in range(64))
        comings = (at * slots // jobs for at in range(jobs))
        (self.at / "wide.csv").write_text(HEAD + "".join(f"{at},0,0,job,{at},{at + 20},{operations}\n" for at in comings))
        (self.at / "plan.toml").write_text("version = 1\ndies = 1\nblocks = 8\npages = 4\nerase_slots = 3\nlogical = 12\nalpha = 2\n"
                                           "[[task]]\ndie = 0\ncap = 4\n")

    def test_a_picture_of_a_longest_run(self):
        """65,536 jobs, of which ever more wait, in 1,048,576 slots: below 10 s and 1 GiB, also of the worst alone, whose busy interval
        is the run."""
        self.waiting_jobs(65_536, 983_040)
        for words in ("--all -o run.svg", "--all --text -o run.txt", "--worst -o worst.svg"):
            seconds, memory = self.taken(f"draw plan.toml wide.csv --slots 1048576 {words}")
            self.assertLess(seconds, 10, words)
            self.assertLess(memory, 2**30, words)
        self.assertLess((self.at / "worst.svg").stat().st_size, 2**23)

    def test_a_picture_grows_with_its_slots(self):
        """And not with the jobs that wait: twice as many slots, jobs and rows are at most a little more than twice as many bytes."""
        sizes = []
        for slots in (20_000, 40_000):
            self.waiting_jobs(slots // 16, slots)
            for kind in ("svg", "txt"):
                text = " --text" if kind == "txt" else ""
                self.taken(f"draw plan.toml wide.csv --slots {slots} --all{text} -o run.{kind}")
                sizes.append((self.at / f"run.{kind}").stat().st_size)
        for small, large in zip(sizes[:2], sizes[2:]):
            self.assertLess(large, 2.2 * small)

    def test_what_is_solved_for_of_many_tasks(self):
        """With times, whose longest periods are 1,048,576; with terms, at loads below and at what a die can do, and beyond."""
        dice, lines = random.Random(1), ["version = 2", "dies = 8", "blocks = 1024", "pages = 64", "erase_slots = 8", "logical = 30000",
                                         "alpha = 16", "common = 1048576"]
        for die in range(8):
            for _ in range(16):
                period, writes = dice.choice((1024, 2048, 4096, 8192)), dice.choice((0, 1, 2))
                lines += ["[[task]]", f"die = {die}", f"cap = {2 * writes + 32}", f"period = {period}",
                          f"collect_period = {period * 16 // max(1, writes)}", f"work = {writes + 1}", f"writes = {writes}"]
        (self.at / "times.toml").write_text("\n".join(lines) + "\n")
        self.assertLess(self.taken("explain times.toml")[0], 0.5)
        for load in (0.8, 0.99, 1.0):
            for is_sooner in (False, True):
                dies = [explains.make_die(dice, load, is_sooner) for _ in range(8)]
                (self.at / "terms.toml").write_text(explains.text_of(dies))
                self.assertLess(self.taken("explain terms.toml")[0], 0.5, load)

    def test_plans_for_sixteen_tasks(self):
        dice = random.Random(1)
        for has_terms in (False, True):
            for _ in range(8):
                (self.at / "sheet.toml").write_text(fits.make_sheet(dice, has_terms))
                self.assertLess(self.taken("fit sheet.toml", (0, 3))[0], 0.5)


def main():
    global PROGRAM
    if len(sys.argv) < 2 or sys.argv[1].startswith("-"):
        sys.exit(__doc__)
    PROGRAM = str(Path(sys.argv[1]).resolve())
    loader = unittest.defaultTestLoader
    tests = unittest.TestSuite(map(Limits, sys.argv[2:])) if sys.argv[2:] else loader.loadTestsFromTestCase(Limits)
    sys.exit(not unittest.TextTestRunner().run(tests).wasSuccessful())


if __name__ == "__main__":
    main()

#!/usr/bin/env -S python3 -B
"""Tests of a program's manual page and of bash's completions, as .ci/release/manual makes them: the page has each part, and what
the help has; its examples are words that the program takes; and bash completes a word by what may stand there, a file name with a
space as one word.

    .ci/tests/manual.py PROGRAM            flashplan or flashrec, as `.ci/build/program` finds it; ends with 1 where one fails
    .ci/tests/manual.py PROGRAM TEST..     these tests alone

It takes some seconds. Without man (man-db) or bash what they show is left out."""
import os
import re
import select
import shlex
import shutil
import subprocess
import sys
import tempfile
import time
import unittest
from pathlib import Path

TOP = Path(__file__).resolve().parents[2]
PROGRAM = NAME = None
PARTS = ["NAME", "SYNOPSIS", "OPTIONS", "COMMANDS", "EXIT STATUS", "FILES", "EXAMPLES", "SEE ALSO"]
COMMANDS = {"flashrec": ["audit", "plan", "run"],
            "flashplan": ["arrivals", "audit", "compare", "cut", "design", "draw", "explain", "fill", "fit", "import", "keeps", "report",
                          "run", "wear"]}


class Shell:
    """An interactive bash that has read the completions, in a folder. The program's name is a function that prints its words."""

    def __init__(self, completions, at):
        self.own, their = os.openpty()
        self.bash = subprocess.Popen(["bash", "--norc", "--noprofile", "-i"], cwd=at, stdin=their, stdout=their, stderr=their,
                                     env={"PATH": os.environ["PATH"], "TERM": "dumb", "HOME": str(at), "INPUTRC": "/dev/null"},
                                     start_new_session=True)
        os.close(their)
        self.said(f"bind 'set enable-bracketed-paste off'; {NAME}() {{ printf '<%s>\\n' \"$@\"; printf 'all%s\\n' words; }}; "
                  f"source {shlex.quote(str(completions))}; {NAME}\n")

    def said(self, typed):
        """The lines that bash prints up to the end of the words."""
        os.write(self.own, typed.encode())
        said, end = "", time.monotonic() + 20
        while "\nallwords\n" not in said.replace("\r", ""):
            if not select.select([self.own], [], [], max(0, end - time.monotonic()))[0]:
                raise AssertionError((typed, said))
            said += os.read(self.own, 4096).decode()
        return said.replace("\r", "").splitlines()

    def words(self, line, key):
        """The words that the program would get of a line, after a key that completes."""
        return [word[1:-1] for word in self.said(f"{NAME} {line}{key}\n") if word.startswith("<") and word.endswith(">")]

    def close(self):
        self.bash.kill()
        self.bash.wait()
        os.close(self.own)


class Case(unittest.TestCase):
    @classmethod
    def setUpClass(cls):
        work = tempfile.TemporaryDirectory()
        cls.addClassCleanup(work.cleanup)
        cls.made, cls.at = Path(work.name, "made"), Path(work.name, "at")
        cls.at.mkdir()
        subprocess.run([TOP / ".ci/release/manual", PROGRAM, cls.made], check=True)


class Page(Case):
    @classmethod
    def setUpClass(cls):
        super().setUpClass()
        cls.text = (cls.made / f"{NAME}.1").read_text()
        cls.parts = {}
        for part in cls.text.split("\n.SH ")[1:]:
            heading, _, body = part.partition("\n")
            cls.parts[heading] = body.replace("\\-", "-").replace("\\&", "").replace("\\e", "\\")

    def test_each_part_is_there_and_says_something(self):
        self.assertEqual([heading for heading in self.parts if heading != "NOTES"], PARTS)
        self.assertEqual([heading for heading, body in self.parts.items() if len(body.split()) < 2], [])

    def test_its_commands_and_options_are_those_of_the_help(self):
        shown = self.parts["COMMANDS"]
        self.assertEqual(sorted(re.findall(rf"^\.SS {NAME} (\S+)", shown, re.M)), COMMANDS[NAME])
        for command in COMMANDS[NAME]:
            said = subprocess.run([PROGRAM, command, "--help"], capture_output=True, check=True, text=True).stdout
            part = re.search(rf"^\.SS {NAME} {command}\b.*?(?=^\.SS |\Z)", shown, re.M | re.S)[0]
            for option in re.findall(r"^  +(?:-\w, )?(--[a-z-]+)", said, re.M):
                self.assertIn(option, part, command)

    def test_each_status_has_its_reason(self):
        numbers = re.findall(r"^\.TP\n\.B (\d+)\n(\S.+)", self.parts["EXIT STATUS"], re.M)
        self.assertEqual([number for number, _ in numbers], list("01234" if NAME == "flashplan" else "0123"))

    def test_examples_are_words_that_the_program_takes(self):
        """In a folder without files each ends with another status than that of wrong words; each command has one."""
        lines = self.parts["EXAMPLES"].removeprefix(".nf\n").removesuffix("\n.fi").replace("\n.fi", "").splitlines()
        self.assertEqual(sorted({line.split()[1] for line in lines}), COMMANDS[NAME])
        for line in lines:
            name, *words = shlex.split(line.partition(" >")[0].partition(" |")[0])
            done = subprocess.run([PROGRAM, *words], cwd=self.at, stdin=subprocess.DEVNULL, capture_output=True, text=True)
            self.assertEqual((name, done.returncode), (NAME, 1), (line, done.stderr))

    def test_pages_that_it_names_are_there_and_no_path_of_the_repository(self):
        other = {"flashrec": "flashplan", "flashplan": "flashrec"}[NAME]
        made = {(path.stem, path.suffix[1:]) for path in self.made.iterdir()} | {(other, "1")}
        named = set(re.findall(r"([a-z-]+)\((\d)\)", "\n".join(self.parts.values())))
        self.assertLessEqual(named, made)
        self.assertEqual(len(re.findall(r"\(\d\)", self.parts["SEE ALSO"])), 3)
        # But for what is installed, below share/doc.
        self.assertEqual(re.findall(r"\S*(?<!maulgreen/)(?:docs|crates|\.ci)/\S*", self.text), [])

    def shown(self, page, width):
        done = subprocess.run(["man", "--warnings", "-l", page], capture_output=True, text=True,
                              env={**os.environ, "MANWIDTH": str(width), "LC_ALL": "C.UTF-8"})
        return done.stdout.splitlines(), [line for line in done.stderr.splitlines() if "troff" in line]

    def test_man_shows_each_page_in_80_columns(self):
        """But for examples, and words that can't be broken, as the record of a report."""
        if not shutil.which("man"):
            self.skipTest("there is no man")
        for page in self.made.glob("*.[17]"):
            lines, warnings = self.shown(page, 80)
            self.assertGreater(len(lines), 50)
            self.assertEqual([line for line in lines if len(line) > 86 and not line.startswith(f"       {NAME} ")], [], page)
            self.assertEqual([line for line in warnings if "break line" not in line], [], page)

    def test_the_name_of_each_page_is_a_line(self):
        for page in self.made.glob("*.[17]"):
            named = re.search(r"^\.SH NAME\n(.*?)\n\.SH ", page.read_text(), re.M | re.S)[1]
            self.assertRegex(named, rf"^{page.stem} \\- [^\n]+$")


class Completions(Case):
    ALL, ONE = "\x1b*", "\t"

    def setUp(self):
        if not shutil.which("bash"):
            self.skipTest("there is no bash")
        for name in ("a plan.toml", "it's $5.csv", "other"):
            (self.at / name).write_text("")
        self.shell = Shell(self.made / f"{NAME}.bash", self.at)
        self.addCleanup(self.shell.close)

    def test_a_file_name_with_a_space_is_one_word(self):
        command = COMMANDS[NAME][0]
        self.assertEqual(self.shell.words(f"{command} a", self.ONE), [command, "a plan.toml"])
        self.assertEqual(self.shell.words(f"{command} it", self.ONE), [command, "it's $5.csv"])
        self.assertEqual(self.shell.words(f"{command} ", self.ALL), [command, "a plan.toml", "it's $5.csv", "other"])

    def test_commands_and_what_help_is_asked_of(self):
        options = {"--help", "-h", "--version", "-V"}
        self.assertEqual(set(self.shell.words("", self.ALL)), {*COMMANDS[NAME], "help", *options})
        self.assertEqual(self.shell.words("help ", self.ALL)[1:], sorted([*COMMANDS[NAME], "help"]))
        self.assertEqual(self.shell.words("help ru", self.ONE), ["help", "run"])

    def test_options_and_their_values(self):
        words = self.shell.words("run --", self.ALL)
        said = subprocess.run([PROGRAM, "run", "--help"], capture_output=True, check=True, text=True).stdout
        self.assertEqual(words[1:], sorted(re.findall(r"^  +(?:-\w, )?(--[a-z-]+)", said, re.M)))
        # A number completes to no file.
        self.assertEqual(self.shell.words("run --slots o", self.ONE), ["run", "--slots", "o"])
        if NAME == "flashrec":
            self.assertEqual(self.shell.words("run --workers ", self.ALL)[2:], sorted(map(str, range(1, 17))))
            self.assertEqual(self.shell.words("run --workers=1", self.ALL)[1:2], ["--workers=1"])
        else:
            self.assertEqual(self.shell.words("explain --from a", self.ONE), ["explain", "--from", "a plan.toml"])
            self.assertEqual(self.shell.words("explain -o ot", self.ONE), ["explain", "-o", "other"])


def main():
    global PROGRAM, NAME
    if len(sys.argv) < 2 or sys.argv[1].startswith("-"):
        sys.exit(__doc__)
    PROGRAM = str(Path(sys.argv[1]).resolve())
    version = subprocess.run([PROGRAM, "--version"], capture_output=True, check=True, text=True).stdout
    NAME = version.split()[0]
    loader = unittest.defaultTestLoader
    cases = Page, Completions
    tests = unittest.TestSuite([case(name) for case in cases for name in loader.getTestCaseNames(case)
                                if name in sys.argv[2:] or not sys.argv[2:]])
    sys.exit(not unittest.TextTestRunner().run(tests).wasSuccessful())


if __name__ == "__main__":
    main()

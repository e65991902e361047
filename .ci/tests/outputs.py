#!/usr/bin/env -S python3 -B
"""Tests on real files of what the programs write and of what they report: links, devices, pipes, full disks, two writers at
once, names of one file, and the sentence after each refusal.

    .ci/tests/outputs.py PROGRAM            flashplan or flashrec, as `.ci/build/program` finds it; ends with 1 where one fails
    .ci/tests/outputs.py PROGRAM TEST..     these tests alone

It takes some seconds. What only root may do, as devices and owners, is left out for others, and the other way round."""
import os
import resource
import signal
import stat
import subprocess
import sys
import tempfile
import threading
import time
import unittest
from pathlib import Path

TOP = Path(__file__).resolve().parents[2]
DATA = TOP / "crates/test_plays/data"
PROGRAM = None
IS_ROOT = os.geteuid() == 0


def small_files():
    """Files may have 4,096 bytes; a write beyond that fails, and ends nothing."""
    signal.signal(signal.SIGXFSZ, signal.SIG_IGN)
    resource.setrlimit(resource.RLIMIT_FSIZE, (4096, 4096))


class Case(unittest.TestCase):
    def setUp(self):
        self.work = tempfile.TemporaryDirectory()
        self.addCleanup(self.work.cleanup)
        self.at = Path(self.work.name)
        for name in ["one_die.toml", "one_die.csv", "two_dies.toml", "two_dies.csv", "planned.toml", "refused_rows.toml",
                     "refused_rows.csv"]:
            (self.at / name).write_bytes((DATA / name).read_bytes())

    def run_words(self, words, **more):
        words = [PROGRAM, *words.split()] if isinstance(words, str) else [PROGRAM, *words]
        more = {"stdin": subprocess.DEVNULL, "stdout": subprocess.PIPE, "stderr": subprocess.PIPE, **more}
        done = subprocess.run(words, cwd=self.at, timeout=60, **more)
        return done.returncode, done.stdout or b"", (done.stderr or b"").decode()

    def text(self, words):
        status, out, err = self.run_words(words)
        self.assertEqual((status, err), (0, ""), words)
        return out

    def refused(self, words, *lines, status=1, **more):
        """It ends so, prints nothing, and reports these lines."""
        got, out, err = self.run_words(words, **more)
        self.assertEqual((got, out), (status, b""), (words, err))
        self.assertEqual(err.splitlines(), list(lines), words)

    def device(self, name):
        """The name of a device or of standard output: for root one of this folder's own, since a program with a fault could
        put a file in the place of the system's."""
        if not IS_ROOT:
            return f"/dev/{name}"
        path = self.at / f"dev_{name}"
        if name == "stdout":
            path.symlink_to("/proc/self/fd/1")
        else:
            os.mknod(path, stat.S_IFCHR | 0o666, os.stat(f"/dev/{name}").st_rdev)
        return path.name

    def on_terminal(self, words, kind):
        """What a terminal of this kind gets on standard error."""
        own, their = os.openpty()
        done = subprocess.Popen([PROGRAM, *words.split()], cwd=self.at, stdin=subprocess.DEVNULL, stdout=subprocess.DEVNULL,
                                stderr=their, env={**os.environ, "TERM": kind})
        os.close(their)
        said = b""
        try:
            while more := os.read(own, 4096):
                said += more
        except OSError:
            pass
        os.close(own)
        done.wait(60)
        return said.decode()

    def test_a_dumb_terminal_gets_no_escapes(self):
        words = "run one_die.toml nope.csv --slots 1"
        said = "error 21 ReadFault\r\nnope.csv: No such file or directory (os error 2)\r\n"
        self.assertEqual(self.on_terminal(words, "xterm"), "\x1b[K" + said)
        self.assertEqual(self.on_terminal(words, "dumb"), said)

    def in_parts(self, name, text):
        """A pipe of this name, through which a text comes in two parts, the second a third of a second later."""
        path = self.at / name
        os.mkfifo(path)

        def write():
            with open(path, "wb", buffering=0) as pipe:
                pipe.write(text[:40])
                time.sleep(0.3)
                pipe.write(text[40:])

        writer = threading.Thread(target=write)
        writer.start()
        self.addCleanup(writer.join)

    def test_help_that_is_not_taken_is_reported_with_the_cause(self):
        with open("/dev/full", "wb") as full:
            self.refused("--help", "error 22 WriteFault", "standard output: No space left on device (os error 28)", stdout=full)

    def no_part(self):
        self.assertEqual([path.name for path in self.at.rglob("*.part")], [])


class Planned(Case):
    """Of flashplan."""

    def test_an_audit_tells_how_much_it_read(self):
        report = (DATA / "one_die.report.csv").read_bytes()
        self.in_parts("slow.csv", report)
        said = self.on_terminal("audit slow.csv", "xterm")
        self.assertTrue(said.endswith(f"\x1b[K{len(report)} bytes were read\r\x1b[K"), said)
        self.in_parts("quiet.csv", report)
        self.assertEqual(self.on_terminal("audit quiet.csv --quiet", "xterm"), "")

    def test_cuts_of_each_call_tell_how_far_they_are(self):
        for name in ("tight.toml", "tight.csv"):
            (self.at / name).write_bytes((DATA / name).read_bytes())
        script = (self.at / "tight.csv").read_bytes()
        self.in_parts("slow.csv", script)
        said = self.on_terminal("cut tight.toml slow.csv --slots 200 --every", "xterm")
        # After the first part of the pipe 512 bytes are read at once, and the rows in these are run.
        lines = script[:40 + 512].split(b"\n")
        slot = [line.split(b",")[0].decode() for line in lines if b"," in line][-1]
        self.assertTrue(said.startswith(f"\x1b[Kslot {slot} of 200, {len(lines) - 1} rows, about 0 s left\r"), said)
        self.in_parts("quiet.csv", script)
        # Of its rows seven are refused, which is said all the same.
        said = self.on_terminal("cut tight.toml quiet.csv --slots 200 --every --quiet", "xterm")
        self.assertTrue(said.startswith("\x1b[Krefused 7 first line 10 with 12\r\n"), said)

    def setUp(self):
        super().setUp()
        self.said = self.text("explain one_die.toml")

    def test_a_device_stays_one(self):
        if not IS_ROOT:
            self.skipTest("root alone makes devices")
        node = self.at / "null"
        os.mknod(node, stat.S_IFCHR | 0o666, os.makedev(1, 3))
        self.assertEqual(self.run_words("explain one_die.toml -o null"), (0, b"", ""))
        self.assertTrue(stat.S_ISCHR(node.stat().st_mode))

    def test_a_pipe_gets_the_text_and_stays_one(self):
        pipe, read = self.at / "pipe", []
        os.mkfifo(pipe)
        (self.at / "link").symlink_to("pipe")
        for name in "pipe", "link":
            reader = threading.Thread(target=lambda: read.append(pipe.read_bytes()), daemon=True)
            reader.start()
            self.assertEqual(self.run_words(f"explain one_die.toml -o {name}"), (0, b"", ""))
            reader.join(20)
        self.assertEqual(read, [self.said] * 2)
        self.assertTrue(stat.S_ISFIFO(pipe.stat().st_mode))

    def test_standard_output_may_be_named(self):
        named = self.device("stdout")
        self.assertEqual(self.run_words(f"explain one_die.toml -o {named}"), (0, self.said, ""))
        self.assertEqual(self.run_words("explain one_die.toml -o /proc/self/fd/1"), (0, self.said, ""))
        with open(self.at / "both", "wb") as both:
            for word in named, "both", "-":
                self.assertEqual(self.run_words(f"explain one_die.toml -o {word}", stdout=both)[0], 0)
        self.assertEqual((self.at / "both").read_bytes(), self.said * 3)

    def test_an_open_file_gets_the_text_after_what_it_has(self):
        with open(self.at / "log", "ab") as log:
            log.write(b"before\n")
            log.flush()
            status = self.run_words(f"explain one_die.toml -o /dev/fd/{log.fileno()}", pass_fds=[log.fileno()])[0]
        self.assertEqual((status, (self.at / "log").read_bytes()), (0, b"before\n" + self.said))

    def test_a_link_leads_to_the_file_which_keeps_its_mode_and_owner(self):
        real, link = self.at / "real", self.at / "link"
        real.write_text("old")
        real.chmod(0o640)
        if IS_ROOT:
            os.chown(real, 1234, 4321)
        (self.at / "far").mkdir()
        (self.at / "far/link").symlink_to("../link")
        link.symlink_to("real")
        before = real.stat()
        for name in "link", "far/link":
            real.write_text("old")
            self.assertEqual(self.run_words(f"explain one_die.toml -o {name}"), (0, b"", ""))
            now = real.stat()
            self.assertEqual(real.read_bytes(), self.said)
            self.assertEqual((now.st_mode, now.st_uid, now.st_gid), (before.st_mode, before.st_uid, before.st_gid))
        self.assertTrue(link.is_symlink() and (self.at / "far/link").is_symlink())
        self.no_part()

    def test_a_link_to_nothing_makes_its_file(self):
        (self.at / "link").symlink_to("new")
        self.assertEqual(self.run_words("explain one_die.toml -o link", umask=0o027), (0, b"", ""))
        self.assertEqual((self.at / "new").read_bytes(), self.said)
        self.assertEqual((self.at / "new").stat().st_mode & 0o777, 0o640)
        self.assertTrue((self.at / "link").is_symlink())

    def test_a_file_that_is_not_to_be_written_stays(self):
        if IS_ROOT:
            self.skipTest("root writes any file")
        kept = self.at / "kept"
        kept.write_text("old")
        kept.chmod(0o444)
        self.refused("explain one_die.toml -o kept", "error 22 WriteFault",
                     "kept: nothing was written to it: Permission denied (os error 13)")
        self.assertEqual(kept.read_text(), "old")

    def test_what_stands_beside_a_file_stays(self):
        (self.at / "precious").write_text("precious")
        (self.at / "said.part").symlink_to("precious")
        (self.at / "said.1.part").write_text("mine")
        self.assertEqual(self.run_words("explain one_die.toml -o said"), (0, b"", ""))
        self.assertEqual((self.at / "said").read_bytes(), self.said)
        self.assertFalse((self.at / "said").is_symlink())
        self.assertEqual((self.at / "precious").read_text(), "precious")
        self.assertEqual((self.at / "said.1.part").read_text(), "mine")
        self.assertTrue((self.at / "said.part").is_symlink())
        self.assertFalse((self.at / "said.2.part").exists())

    def test_a_folder_and_a_missing_folder_are_named(self):
        (self.at / "folder").mkdir()
        self.refused("explain one_die.toml -o folder", "error 22 WriteFault", "folder: it is a directory; name a file")
        self.refused("explain one_die.toml -o nowhere/x", "error 22 WriteFault",
                     "nowhere/x: nothing was written to it: No such file or directory (os error 2)")

    def test_a_full_disk_is_reported_and_the_file_stays(self):
        words = "arrivals planned.toml --slots 4000"
        (self.at / "script.csv").write_text("old")
        self.refused(f"{words} -o script.csv", "error 22 WriteFault",
                     "script.csv: nothing was written to it: File too large (os error 27)", preexec_fn=small_files)
        self.assertEqual((self.at / "script.csv").read_text(), "old")
        self.no_part()
        full_name = self.device("full")
        self.refused(f"{words} -o {full_name}", "error 22 WriteFault",
                     f"{full_name}: not the whole text was written to it: No space left on device (os error 28)")
        with open("/dev/full", "wb") as full:
            self.refused(words, "error 22 WriteFault", "standard output: No space left on device (os error 28)", stdout=full)
        read, write = os.pipe()
        os.close(read)
        self.refused(words, stdout=write)
        os.close(write)

    def test_two_writers_leave_one_of_both_texts(self):
        words = "arrivals planned.toml --slots 3000 --seed"
        texts = {seed: self.text(f"{words} {seed}") for seed in range(4)}
        for _ in range(6):
            writers = [subprocess.Popen([PROGRAM, *f"{words} {seed} -o script.csv".split()], cwd=self.at) for seed in texts]
            self.assertEqual([writer.wait() for writer in writers], [0] * 4)
            self.assertIn((self.at / "script.csv").read_bytes(), texts.values())
        self.no_part()

    def test_two_names_of_one_file_are_refused_and_nothing_is_done(self):
        run = "run one_die.toml one_die.csv --slots 2"
        (self.at / "to_plan").symlink_to("one_die.toml")
        os.link(self.at / "one_die.csv", self.at / "hard.csv")
        (self.at / "here").symlink_to(".")
        (self.at / "new_link").symlink_to("new.ck")
        before = {path: path.read_bytes() for path in self.at.iterdir() if path.is_file()}
        named, null = self.device("stdout"), self.device("null")
        for words, both in [
            (f"{run} --to z.ck -o ./z.ck", "-o ./z.ck and --to z.ck"),
            (f"{run} --to z.ck -o here/z.ck", "-o here/z.ck and --to z.ck"),
            (f"{run} --to new.ck -o new_link", "-o new_link and --to new.ck"),
            (f"{run} --to to_plan", "--to to_plan and the plan one_die.toml"),
            (f"{run} --to hard.csv", "--to hard.csv and the script one_die.csv"),
            (f"{run} --from ./one_die.csv -o hard.csv", "-o hard.csv and the script one_die.csv"),
            (f"{run} --to -", "standard output and --to -"),
            (f"{run} --to {named}", f"standard output and --to {named}"),
            ("explain one_die.toml -o here/to_plan", "-o here/to_plan and the plan one_die.toml"),
        ]:
            self.refused(words, "error 22 WriteFault", f"{both} are one file: name another for one of them")
        self.assertEqual({path: path.read_bytes() for path in before}, before)
        with open(self.at / "one_die.csv", "ab") as out:
            status, _, err = self.run_words(run, stdout=out)
        self.assertEqual((status, "standard output and the script" in err), (1, True))
        self.assertEqual(self.run_words(f"{run} --to {null} -o {null}"), (0, b"", ""))

    def test_a_checkpoint_goes_on_only_where_its_report_was_written(self):
        run = "run one_die.toml one_die.csv --slots 2"
        report = self.text(f"{run} --to a.ck")
        first = (self.at / "a.ck").read_bytes()
        self.refused(f"{run} --from a.ck --to a.ck -o nowhere/x", "error 22 WriteFault",
                     "nowhere/x: nothing was written to it: No such file or directory (os error 2)")
        with open("/dev/full", "wb") as full:
            self.assertEqual(self.run_words(f"{run} --from a.ck --to a.ck", stdout=full)[0], 1)
        self.assertEqual((self.at / "a.ck").read_bytes(), first)
        self.assertEqual(self.text(f"{run} --from a.ck --to a.ck -o r.part"), b"")
        self.assertNotEqual((self.at / "a.ck").read_bytes(), first)
        self.assertEqual(self.text(f"{run} --to r.part -o r"), b"")
        self.assertEqual(((self.at / "r").read_bytes(), (self.at / "r.part").read_bytes()), (report, first))
        self.assertEqual(self.run_words(f"{run} --to - -o r"), (0, first, ""))

    def records(self, name, kind):
        """The fields of a checkpoint's records of a kind, without the kind."""
        lines = (self.at / name).read_text().splitlines()
        return [line.split(",")[1:] for line in lines if line.startswith(f"{kind},")]

    def test_a_fault_of_a_datasheet_is_reported_with_its_file_and_line(self):
        sheet = (TOP / "crates/flashplan_fit/datasheets/recorder.toml").read_text()
        (self.at / "part.toml").write_text(sheet.replace("\nlogical", "\nLogical"))
        (self.at / "few.toml").write_text(sheet.replace("reads = 8", "reads = 65"))
        for words in ("fit part.toml", "design part.toml -o page.html"):
            self.refused(words, "error: line 9, column 1: the datasheet has the key `Logical`, which no datasheet has",
                         "part.toml, line 9: man maulgreen-texts has the form")
        self.refused("fit few.toml", "error: line 23, column 1: [[task]] 3 needs `reads`, a whole number from 0 to 64",
                     "few.toml, line 23: man maulgreen-texts has the form")

    def test_a_checkpoint_of_other_dies_and_a_trace_of_nothing_are_named(self):
        self.assertEqual(self.run_words("fill planned.toml --to two.ck -o said")[0], 0)
        self.refused("run one_die.toml one_die.csv --slots 5 --from two.ck", "error: the checkpoint has 2 dies, and the plan has 1",
                     "two.ck: it was saved of the dies of another plan")
        (self.at / "none.log").write_text("fio version 3 iolog\n")
        self.refused("import none.log --slot-us 100", "error: the trace has no read, write or trim",
                     "none.log: flashplan import --help has the form")

    def test_full_dies_are_left_after_lives(self):
        status, out, err = self.run_words("fill planned.toml --to full.ck --lives 2")
        self.assertEqual((status, err), (0, "the dies are full after 2 lives\n"))
        self.assertEqual(len(self.records("full.ck", "page")), 4)
        self.assertTrue(all(block and page for block, page, _ in self.records("full.ck", "page")))
        self.assertTrue(self.text("explain planned.toml --from full.ck").endswith(out))
        for die in 0, 1:
            self.assertIn(f"die {die}: 2 of 2 logical pages lie in cells; ", out.decode())
        self.refused("fill one_die.toml --to x.ck", "error 3 BadPlan",
                     "fill wants a plan that is accepted, with times (version 2): flashplan explain says more",
                     "one_die.toml: flashplan explain one_die.toml says what is wrong, and what would mend it")
        self.refused("fill planned.toml --to planned.toml", "error 22 WriteFault",
                     "--to planned.toml and the plan planned.toml are one file: name another for one of them")
        self.assertFalse((self.at / "x.ck").exists())

    def test_full_dies_are_what_arrivals_and_runs_leave(self):
        """130 of the 200 pages are written in a life of 130,000 slots, the most that its numbers last for and `common` divides."""
        (self.at / "slow.toml").write_text("""version = 2
dies = 1
blocks = 60
pages = 4
erase_slots = 1
logical = 200
alpha = 1
common = 1000
[[task]]
die = 0
cap = 2
period = 2
collect_period = 1000
work = 1
writes = 0
[[task]]
die = 0
cap = 4
period = 1000
collect_period = 1000
work = 1
writes = 1
""")
        status, _, err = self.run_words("fill slow.toml --to full.ck --seed 7")
        self.assertEqual((status, err), (0, "the dies are full after 2 lives\n"))
        slots = "--slots 130000"
        status, _, err = self.run_words(f"arrivals slow.toml {slots} --fill --seed 8 -o first.csv")
        self.assertEqual((status, err), (0, "die 0 isn't full in its life of 130286 slots: that would take 200000, so it has to have "
                                            "fewer logical pages, or its tasks to write more\n"))
        self.text(f"run slow.toml first.csv {slots} --to first.ck -o first.report")
        self.assertEqual(sum(1 for block, _, _ in self.records("first.ck", "page") if block), 130)
        status, _, err = self.run_words(f"arrivals slow.toml {slots} --from first.ck --seed 9 -o second.csv")
        self.assertEqual((status, err), (0, "die 0 is full from slot 70000 on\n"))
        self.text(f"run slow.toml second.csv {slots} --from first.ck --to second.ck -o second.report")
        self.assertEqual((self.at / "second.ck").read_bytes(), (self.at / "full.ck").read_bytes())
        self.refused("fill slow.toml --to x.ck --lives 1001", "error: at most 1000 lives are run: --lives has to be 1000 at most")
        (self.at / "reads.toml").write_text((self.at / "slow.toml").read_text().replace("writes = 1", "writes = 0"))
        self.refused("fill reads.toml --to x.ck", "error: die 0 is never full: none of its tasks writes, and one has to")
        self.assertFalse((self.at / "x.ck").exists())

    def test_what_is_watched_goes_on_from_a_checkpoint(self):
        """What a run from a checkpoint wears is what the blocks of the one at its end were erased more, and its figures begin with
        the pages that are spare there."""
        write = "W1=000102030405060708090a0b0c0d0e0f"
        (self.at / "small.csv").write_text(f"at,die,task,kind,release,due,ops\n0,0,0,job,0,10,{write}\n0,1,0,job,0,10,{write}\n")
        self.text("run planned.toml small.csv --slots 5 --to small.ck")
        status, script, err = self.run_words("arrivals planned.toml --slots 3000 --from small.ck -o script.csv")
        self.assertEqual((status, script), (0, b""))
        self.assertRegex(err, r"\Adie 0 is full from slot [0-9]+ on\ndie 1 is full from slot [0-9]+ on\n\Z")
        self.text("run planned.toml script.csv --slots 3000 --from small.ck --to end.ck")
        worn = [line.split(",") for line in self.text("wear planned.toml script.csv --slots 3000 --from small.ck").decode().splitlines()]
        before, after = ([int(erases) for _, erases in self.records(name, "block")] for name in ("small.ck", "end.ck"))
        self.assertEqual([int(row[3]) for row in worn if row[0] == "block"], [b - a for a, b in zip(before, after)])
        self.assertGreater(sum(after), sum(before))
        (self.at / "none.csv").write_text("at,die,task,kind,release,due,ops\n")
        figures = self.text("report planned.toml none.csv --slots 7 --from end.ck --csv").decode().splitlines()
        names = figures[0].split(",")
        spare = [row.split(",")[names.index("least_spare")] for row in figures[1:] if row.split(",")[1] == ""]
        self.assertEqual(spare, [spare for _, spare in self.records("end.ck", "die")])
        self.assertIn("slots 0 to 7", self.text("draw planned.toml none.csv --slots 7 --text --checkpoint end.ck").decode())
        self.refused("report one_die.toml none.csv --slots 7 --from end.ck", "error: the checkpoint has 2 dies, and the plan has 1",
                     "end.ck: it was saved of the dies of another plan")
        self.refused("draw one_die.toml none.csv --slots 7 --checkpoint end.ck", "error: the checkpoint has 2 dies, and the plan has 1",
                     "end.ck: it was saved of the dies of another plan")

    def test_a_name_of_a_die_is_reported_with_how_many_there_are(self):
        self.refused("draw two_dies.toml two_dies.csv --slots 5 --die 3", "error 4 UnknownDie",
                     "two_dies.toml: --die is 3; there are 2 dies, numbered from 0")
        self.refused("report two_dies.toml two_dies.csv --slots 5 --fail-at 2:1", "error 4 UnknownDie",
                     "two_dies.toml: the die of --fail-at is 2; there are 2 dies, numbered from 0")
        self.refused("compare one_die.toml one_die.csv --slots 3 --draw --task 14", "error 5 UnknownTask",
                     "one_die.toml, die 0: --task is 14; there is task 0 alone")
        for name in ("terms.toml", "terms.csv", "crash.toml"):
            (self.at / name).write_bytes((DATA / name).read_bytes())
        self.refused("compare terms.toml terms.csv --slots 60 --draw --die 2", "error 4 UnknownDie",
                     "terms.toml: --die is 2; there are 2 dies, numbered from 0")
        self.refused("compare terms.toml terms.csv --slots 60 --draw --task 2", "error 5 UnknownTask",
                     "terms.toml, die 0: --task is 2; there are 2 tasks, numbered from 0")
        self.refused("draw terms.toml --demand --die 2", "error 4 UnknownDie",
                     "terms.toml: --die is 2; there are 2 dies, numbered from 0")
        crash = (DATA / "crash.toml").read_text()
        (self.at / "tight.toml").write_text(crash.replace("deadline = 8000", "deadline = 1500"))
        self.assertNotEqual(crash, (self.at / "tight.toml").read_text())
        self.refused("draw tight.toml --demand --die 1", "error 4 UnknownDie", "tight.toml: --die is 1; there is die 0 alone")
        (self.at / "stray.csv").write_text((DATA / "terms.csv").read_text() + "59,2,0,job,59,99,R0\n")
        status, _, err = self.run_words("run terms.toml stray.csv --slots 60")
        self.assertEqual((status, err.splitlines()[1].partition(": ")[2]), (1, "`die` is 2, and the plan has 2 dies, from 0 to 1"))

    def test_a_strict_run_may_have_its_script_from_standard_input(self):
        """Of `wear`, `draw` and `compare` a run is reported, too, and its texts are read once."""
        late = (self.at / "one_die.csv").read_text().replace("1,0,0,job,1,3,R3", "1,0,0,job,1,3,R3 R3 R3")
        self.assertIn("R3 R3 R3", late)
        (self.at / "late.csv").write_text(late)
        for words, front in (("wear one_die.toml -", b"row,die,block"), ("draw one_die.toml - --text", b"Die 0, slots"),
                             ("compare one_die.toml - --csv", b"policy,die,task")):
            with open(self.at / "late.csv", "rb") as script:
                status, out, err = self.run_words(f"{words} --slots 4 --strict", stdin=script)
            self.assertEqual((status, out[:len(front)], err), (4, front, "strict: 1 job wasn't done by its deadline\n"), words)

    def test_a_fault_of_one_of_several_reports_is_reported_with_its_place(self):
        report = (DATA / "two_dies.report.csv").read_text()
        (self.at / "good.csv").write_text(report)
        (self.at / "bad.csv").write_text(report.replace("job,0,1", "job,0,2", 1))
        status, _, err = self.run_words("audit good.csv bad.csv")
        self.assertEqual((status, err.splitlines()), (1, [
            "bad.csv: error 20 ReportText 3",
            "bad.csv, line 3 (record 3): `job` is 2, and has to be 1: the rows of a die are numbered from 0, one after the other"]))

    def test_a_run_too_short_for_a_rate_says_how_long_it_was(self):
        """5 slots of 250 us are 1,250 us, and of 1 s 5 s, which are told in ms below 10 s. No block is erased there ten times."""
        words = "report one_die.toml one_die.csv --slots 5 --endurance 100"
        for more, slots in ((" --slot-us 250", "5 (1.25 ms)"), (" --slot-us 1000000", "5 (5000 ms)")):
            status, out, _ = self.run_words(words + more)
            sentence = f" times in {slots} slots, and 10 at least make a rate: run more slots, or go on from a checkpoint\n"
            self.assertEqual((status, out.count(sentence.encode())), (0, 1), (words + more, out.decode()))

    def test_refused_rows_are_named_by_kind_and_by_place(self):
        (self.at / "rows.csv").write_text((self.at / "refused_rows.csv").read_text().replace("ops\n", "ops\n\n\n", 1))
        status, _, err = self.run_words("wear refused_rows.toml rows.csv --slots 4")
        self.assertEqual((status, err.splitlines()[0], err.splitlines()[-1]), (
            0, "refused 4 first line 3 with 8", "rows.csv, line 5 (record 3): one of its pages isn't below `logical`"))
        self.assertEqual([line.split(":")[0] for line in err.splitlines()[1:-1]],
                         ["1 with 8 BadPage", "1 with 9 ReleasePast", "1 with 10 BadDue", "1 with 13 CollectorBusy"])


class Recorded(Case):
    """Of flashrec."""

    def test_each_fault_of_a_script_is_reported_with_its_value_its_bounds_and_what_to_do(self):
        header = "at,die,task,kind,release,due,ops"
        for old, new, cause, sentence in [
            ("1,0,0,job", "20,0,0,job", "3 At", "line 3 (record 3): `at` is 20, and the run has 10 slots: raise --slots, or leave "
             "out what comes later"),
            ("\n1,0,0,job", "\n1,0,0,job,1,3,R3\n0,0,0,job", "4 At", "line 4 (record 4): `at` is 0, which is below that of the "
             "die's row before: sort the rows of a die by `at`"),
            ("1,0,0,job", "1,7,0,job", "3 Die", "line 3 (record 3): `die` is 7, and the plan has die 0 alone"),
            ("\n1,0,0,job", "\n\n1,0,0,jobs", "3 Kind", "line 4 (record 3): `kind` is \"jobs\", and has to be job or collect"),
            ("1,0,0,job", "1,0,x\u001b[2J,job", "3 Number", "line 3 (record 3): `task` is \"x\\u{1b}[2J\", and has to be a whole number "
             "from 0 to 4294967295"),
            ("1,3,R3", "1,3", "3 Fields", f"line 3 (record 3): it has 6 fields, and a row has 7: {header}"),
            ("1,3,R3", "1,3,R3 W3=11", "3 Ops", "line 3 (record 3): `ops` has \"W3=11\": operations are R7, T7, or W7= and 32 "
             "hexadecimal digits, with a space between two"),
            ("1,0,0,job,1,3,R3", "1", "3 Fields", f"line 3 (record 3): it has 1 field, and a row has 7: {header}"),
            (header, header.replace(",", ";"), "1 Header", f"line 1 (record 1): commas stand between fields, and it has others: {header}"),
            (header, "die," + header, "1 Header", f"line 1 (record 1): it has to be {header}"),
        ]:
            text = (DATA / "one_die.csv").read_text()
            self.assertIn(old, text)
            (self.at / "s.csv").write_text(text.replace(old, new, 1))
            self.refused("run one_die.toml s.csv --slots 10", f"error 19 ScriptRow {cause}", f"s.csv, {sentence}")

    def breaks_report(self, lines, at, old, new, sentence):
        """A report with this change of this record is refused so."""
        changed = list(lines)
        self.assertIn(old, changed[at - 1])
        changed[at - 1] = changed[at - 1].replace(old, new, -1 if old == "," else 1)
        (self.at / "r.csv").write_text("\n".join(changed) + "\n")
        self.refused("audit r.csv", f"error 20 ReportText {at}", f"r.csv, line {at} (record {at}): {sentence}")

    def test_each_fault_of_a_report_is_reported_with_its_value_and_what_would_be_right(self):
        header = "row,die,job,task,release,due,work,completion,lateness,given,items"
        lines = (DATA / "two_dies.report.csv").read_text().splitlines()
        jobs = "the rows of a die are numbered from 0, one after the other"
        worst = "a certificate is of its die's worst row"
        for at, old, new, sentence in [
            (1, "row", "raw", f"it has to be {header}"),
            (1, ",", ";", f"commas stand between fields, and it has others: {header}"),
            (2, ",,f", ",f", f"it has 10 fields, and a record has 11: {header}"),
            (2, lines[1], "job", f"it has 1 field, and a record has 11: {header}"),
            (2, "job", "jobs\u001b[2J", "`row` is \"jobs\\u{1b}[2J\", and has to be job, collect, waived or cert"),
            (2, "job,0", "job,9", "`die` is 9, and has to be a whole number from 0 to 7"),
            (2, "job,0,0,0", "job,0,0,x", "`task` is \"x\", and has to be a whole number from 0 to 15"),
            (2, "2,5,", "6,5,", "`due` is 5, and has to be above `release`, which is 6"),
            (2, "2,5,", "2,1048577,", "`due` is 1048577, and has to be a whole number from 1 to 1048576"),
            (2, "-1,", "-2,", "`lateness` is -2, and has to be -1: it is `completion` less `due`"),
            (2, "4,-1,", "1048577,1048572,", "`completion` is 1048577, and has to be a whole number from 0 to 1048576, or empty"),
            (2, "-1,", "-1,4", "`given` is 4, and has to be empty: the row is a job's"),
            (2, "4,-1,", ",-1,", "`lateness` is -1, and has to be empty: the row has no completion"),
            (2, "4,-1,", ",,7", "`given` is 7, and has to be empty: the row has no completion"),
            (2, "4,-1,,", ",,,", "`items` is \"ffffffffffffffffffffffffffffffff fffffff\".., and has to be empty: the row has no completion"),
            (2, " ff", " gf", "`items` is \"ffffffffffffffffffffffffffffffff gffffff\".., and has to be the 0 to 64 pages that its "
             "reads gave, of 32 hexadecimal digits each, with a space between two"),
            (3, "job,0,1", "job,0,3", f"`job` is 3, and has to be 1: {jobs}"),
            (3, "5,3,5,0,", "5,0,5,0,", "`work` is 0, and has to be a whole number from 1 to 4294967295"),
            (6, "job,1,2", "job,0,2", "`die` is 0, and has to be at least 1: the rows stand by die"),
            (5, "waived,1,1,0,1,4,0", "waived,1,1,0,1,4,1", "`work` is 1, and has to be 0: the collection was waived"),
            (5, "waived,1,1,0,1,4,0,,,1,", "waived,1,1,0,1,4,0,3,,1,", "`completion` is 3, and has to be empty: the collection was waived"),
            (7, "cert,0,1", "cert,0,0", f"`job` is 0, and has to be 1: {worst}"),
            (7, "cert,0", "cert,1", "`die` is 1, and has to be 0: that is the next die with a done row"),
            (7, "5,,5", "5,3,5", "`work` is 3, and has to be empty: the row is a certificate's"),
            (7, "0 1", "0 q", "`items` is \"0 q\", and has to be numbers of jobs, with a space between two"),
            (8, "cert,1", "job,1", "`row` is \"job\", and has to be cert: after the first of these no row may stand"),
        ]:
            self.breaks_report(lines, at, old, new, sentence)
        for changed, record, sentence in [
            (lines[:7], 8, "record 8: the report ends before it, and die 1 has a done row, so its certificate has to stand here"),
            (lines + lines[7:], 9, "line 9 (record 9): no record may stand here: each die with a done row has its certificate"),
            (lines + ["x"], 9, "line 9 (record 9): no record may stand here: each die with a done row has its certificate"),
            (lines[:1] + lines[6:], 2, "line 2 (record 2): no record may stand here: each die with a done row has its certificate"),
            ([], 1, f"record 1: the report has no record, and its first has to be {header}"),
            (["", ""] + lines[:2] + lines[:1], 3, "line 5 (record 3): `row` is \"row\", and has to be job, collect, waived or cert"),
        ]:
            (self.at / "r.csv").write_text("".join(line + "\n" for line in changed))
            self.refused("audit r.csv", f"error 20 ReportText {record}", f"r.csv, {sentence}")

    def test_each_fault_of_a_collection_or_a_certificate_is_reported_so_too(self):
        lines = (DATA / "collections.report.csv").read_text().splitlines()
        count = "has to be a whole number from 0 to 4294967295"
        waived, worst, cert = "the collection was waived", "a certificate is of its die's worst row", "the row is a certificate's"
        for at, old, new, sentence in [
            (3, ",,,2,", ",,0,2,", f"`lateness` is 0, and has to be empty: {waived}"),
            (3, ",,,2,", ",,,,", f"`given` is empty, and {count}"),
            (3, ",,,2,", ",,,2,6", f"`items` is 6, and has to be empty: {waived}"),
            (13, "-15,2,", "-15,,", f"`given` is empty, and {count}"),
            (13, "-15,2,", "-15,2,4", "`items` is 4, and has to be empty: a collection has no reads"),
            # Four rows are as late as job 2, which is the first of them that was done.
            (15, "cert,0,2", "cert,0,4", f"`job` is 4, and has to be 2: {worst}"),
            (15, "2,,5", "2,0,5", f"`task` is 0, and has to be empty: {cert}"),
            (15, "2,,5", "2,,x", f"`release` is \"x\", and {count}"),
            (15, "5,7,,", "5,8,,", f"`due` is 8, and has to be 7: {worst}"),
            (15, ",,7,0", ",,8,0", f"`completion` is 8, and has to be 7: {worst}"),
            (15, "7,0,,", "7,-0,,", f"`lateness` is \"-0\", and has to be 0: {worst}"),
            (15, "0,,2", "0,1,2", f"`given` is 1, and has to be empty: {cert}"),
        ]:
            self.breaks_report(lines, at, old, new, sentence)

    def test_a_report_that_is_not_read_again_has_its_form(self):
        done = subprocess.run([PROGRAM, "audit", "-"], cwd=self.at, capture_output=True, check=False,
                              input=(DATA / "two_dies.report.csv").read_bytes().replace(b"job,0", b"jobs,0", 1))
        self.assertEqual(done.stderr.decode().splitlines(), [
            "error 20 ReportText 2", "standard input, record 2: a record has 11 fields, row,die,job,task,release,due,work,completion,"
            "lateness,given,items; man maulgreen-texts has the form"])

    def test_a_script_that_is_not_read_again_has_its_bounds(self):
        done = subprocess.run([PROGRAM, *"run one_die.toml - --slots 0".split()], cwd=self.at, capture_output=True, check=False,
                              input=(DATA / "one_die.csv").read_bytes())
        self.assertEqual(done.stderr.decode().splitlines(), [
            "error 19 ScriptRow 3 At",
            "standard input, record 3: `at` has to be at most --slots, and not below that of the die's row before"])

    def test_a_file_that_is_not_read_is_named_with_the_cause(self):
        self.refused("run one_die.toml nope.csv --slots 1", "error 21 ReadFault",
                     "nope.csv: No such file or directory (os error 2)")
        (self.at / "folder").mkdir()
        self.refused("audit folder", "error 21 ReadFault", "folder: it is a directory; name a file")
        self.refused("audit /proc/self/mem", "error 21 ReadFault", "/proc/self/mem: Input/output error (os error 5)")
        self.refused("audit /dev/zero", "error 21 ReadFault",
                     "/dev/zero: it is no file; a read of it failed, or it has more than 67108864 bytes")

    def test_a_plan_is_reported_with_what_explains_it(self):
        (self.at / "a b.toml").write_text((DATA / "one_die.toml").read_text().replace("logical = 12", "logical = 19"))
        self.refused(["plan", "a b.toml"], "error 3 BadPlan",
                     "a b.toml: flashplan explain 'a b.toml' says what is wrong, and what would mend it")

    def test_a_full_disk_is_reported(self):
        with open("/dev/full", "wb") as full:
            self.refused("plan one_die.toml", "error 22 WriteFault", "standard output: No space left on device (os error 28)",
                         stdout=full)
        read, write = os.pipe()
        os.close(read)
        self.refused("plan one_die.toml", "error 22 WriteFault", stdout=write)
        os.close(write)

    def test_a_refused_row_is_named_by_its_place(self):
        status, _, err = self.run_words("run refused_rows.toml refused_rows.csv --slots 4")
        self.assertEqual((status, err.splitlines()), (0, [
            "refused 4 first line 3 with 8", "1 with 8 BadPage: one of its pages isn't below `logical`",
            "1 with 9 ReleasePast: its `release` is below its `at`",
            "1 with 10 BadDue: its `due` isn't above its `release`, or is above 1048576",
            "1 with 13 CollectorBusy: a collection of its task is neither done nor waived yet",
            "refused_rows.csv, line 3 (record 3): one of its pages isn't below `logical`"]))

    def test_a_number_out_of_its_range_is_reported_with_its_option(self):
        for words, line in [
            ("run p s --slots 5 --workers 17", "error: --workers is \"17\", and has to be a whole number from 1 to 16"),
            ("run p s --slots 5x", "error: --slots is \"5x\", and has to be a whole number from 0 to 1048576"),
        ]:
            status, _, err = self.run_words(words)
            self.assertEqual((status, err.splitlines()[0]), (2, line))


def main():
    global PROGRAM
    if len(sys.argv) < 2 or sys.argv[1].startswith("-"):
        sys.exit(__doc__)
    PROGRAM = str(Path(sys.argv[1]).resolve())
    version = subprocess.run([PROGRAM, "--version"], capture_output=True, check=True).stdout.decode()
    case = Planned if version.startswith("flashplan") else Recorded
    loader = unittest.defaultTestLoader
    tests = unittest.TestSuite(map(case, sys.argv[2:])) if sys.argv[2:] else loader.loadTestsFromTestCase(case)
    sys.exit(not unittest.TextTestRunner().run(tests).wasSuccessful())


if __name__ == "__main__":
    main()

#!/usr/bin/env -S python3 -B
"""Tests of the page that `flashplan design` writes: it is HTML that is XML, too, loads nothing and has no scripts; its plan is that
of `fit`, and its numbers are those of `explain`, `arrivals`, `report` and `draw` of that plan; its memory is that of a second
reading of the formulas, and what a mount and a day come to of one plan is that by hand.

    .ci/tests/design_page.py PROGRAM    flashplan, as `.ci/build/program` finds it; ends with 1 where one fails

It takes some seconds."""
import math
import re
import shlex
import subprocess
import sys
import tempfile
import tomllib
import unittest
import xml.etree.ElementTree as ElementTree
from html.parser import HTMLParser
from pathlib import Path

sys.path.insert(0, str(Path(__file__).resolve().parents[1]))
from second_reading import plain_terms

TOP = Path(__file__).resolve().parents[2]
SHEETS = TOP / "crates/flashplan_fit/datasheets"
PROGRAM = None


def local(name):
    return name.rsplit("}", 1)[-1]


def words_of(element):
    return "".join(element.itertext())


def count(text):
    return int(text.replace(",", ""))


def grown(room, wanted, first):
    """How many items a list has room for that had room for `room` and is to have `wanted`."""
    return room if wanted <= room else max(wanted, first, 2 * room)


def doubled(items, first):
    """How many items a list has room for that has grown one by one."""
    room = first if items else 0
    while room < items:
        room *= 2
    return room


def bytes_at_birth(die):
    """Of a die that is (blocks, pages, logical, tasks, whether its plan has times)."""
    blocks, pages, logical, tasks, has_times = die
    return (1136 + 20 * blocks * pages + 4 * logical + 60 * blocks + 8 * (pages + 1) + 8 * -(-blocks // 64) + 53 * tasks
            + (20 if has_times else 4) * doubled(tasks, 4))


def bytes_reserved(tasks, slots, jobs, operations):
    """Beside that: all reserved at once, jobs first. Where a list is moved the old one is there, too."""
    first, events = grown(0, jobs, 4), slots + jobs
    first_callers = grown(0, max(jobs, 64), 4) if jobs else 0
    entries, callers = first, first_callers
    if events > first:
        entries, callers = grown(first, events, 4), grown(first_callers, max(events, 64), 4)
    log = 16 * entries + 8 * callers
    moved = 16 * (entries + first) + 8 * first_callers if entries > first else 0
    moved = max(moved, log + 8 * first_callers if callers > first_callers else 0)
    waivers = 12 * grown(0, tasks + jobs, 4) if jobs else 0
    return max(log, moved) + waivers + 64 * grown(0, jobs, 4) + grown(0, operations, 8) + 36 * grown(0, operations, 4)


def bytes_grown(tasks, slots, jobs, operations):
    """Beside that of the birth, where nothing is reserved: a list is there twice while it is moved."""
    rows, slots = min(jobs + 1, 65_536), min(slots + 1, 1_048_576)
    entries, table, names = 16 * doubled(slots + rows, 4), 48 * doubled(rows, 4), 16 * (8 + 2 * operations)
    return (entries + 8 * doubled(slots + rows + 64, 64) + table + 16 * doubled(rows, 4) + 24 * (tasks + rows)
            + 8 + 2 * operations + 4 * (4 + 2 * operations) + names + max(entries, table, names) // 2)


def memory_of(die, work):
    """At its birth, with all of the work reserved, with nothing reserved, and until it is resumed."""
    blocks, _, logical, tasks, _ = die
    birth = bytes_at_birth(die)
    return (birth, birth + bytes_reserved(tasks, *work), birth + bytes_grown(tasks, *work),
            birth + 28 * doubled(logical, 4) + 8 * doubled(blocks, 4) + 4 * tasks)


def with_terms(plan):
    """A plan's one die, whose tasks have terms: those with times are due by the next ones."""
    return dict(plan, tasks=[{"deadline": task["period"], "collect_deadline": task["collect_period"], **task} for task in plan["task"]])


def life_of(die):
    """How many slots a life has, and what comes in it: jobs and collections, and operations."""
    few, many = 0, 1_048_577
    while many - few > 1:
        middle = (few + many) // 2
        few, many = (middle, many) if plain_terms.numbers_taken(die, middle) <= 65_536 else (few, middle)
    operations = sum(plain_terms.comings(task["period"], task["deadline"], few) * task["work"] for task in die["tasks"])
    return few, plain_terms.numbers_taken(die, few), operations


class Marks(HTMLParser):
    """The elements that are open, as a browser reads them, and all attributes."""

    def __init__(self):
        super().__init__()
        self.open, self.seen, self.wrong = [], [], []

    def handle_starttag(self, tag, attrs):
        self.seen.append((tag, dict(attrs)))
        self.open.append(tag)

    def handle_startendtag(self, tag, attrs):
        self.seen.append((tag, dict(attrs)))

    def handle_endtag(self, tag):
        if not self.open or self.open.pop() != tag:
            self.wrong.append(tag)


class Page(unittest.TestCase):
    SHEET = None

    def run_words(self, words, *, status=0):
        done = subprocess.run([PROGRAM, *words], cwd=self.at, capture_output=True, text=True, timeout=120)
        self.assertEqual(done.returncode, status, (words, done.stderr))
        return done

    @classmethod
    def setUpClass(cls):
        if cls.SHEET is None:
            raise unittest.SkipTest("of a datasheet each")
        cls.work = tempfile.TemporaryDirectory()
        cls.addClassCleanup(cls.work.cleanup)
        cls.at = Path(cls.work.name)
        (cls.at / "sheet.toml").write_text(cls.sheet_text())
        subprocess.run([PROGRAM, "design", "sheet.toml", "-o", "page.html"], cwd=cls.at, check=True, timeout=120)
        cls.text = (cls.at / "page.html").read_text()
        cls.tree = ElementTree.fromstring(cls.text)
        cls.blocks = [words_of(e) for e in cls.tree.iter() if local(e.tag) == "pre"]

    @classmethod
    def sheet_text(cls):
        return (SHEETS / cls.SHEET).read_text()

    def tables(self):
        for table in self.tree.iter():
            if local(table.tag) == "table":
                yield [[words_of(cell) for cell in row] for row in table.iter() if local(row.tag) == "tr"]

    def table_with(self, column):
        tables = [table for table in self.tables() if column in table[0]]
        self.assertEqual(len(tables), 1, column)
        return tables[0][1:]

    def figure(self, name):
        return next(e for e in self.tree.iter() if local(e.tag) == "figure" and e.get("id") == name)

    def plan(self):
        return tomllib.loads(self.blocks[0])

    def test_a_browser_reads_it_as_it_is_meant(self):
        marks = Marks()
        marks.feed(self.text)
        self.assertEqual((marks.open, marks.wrong), ([], []))

    def test_it_loads_nothing_and_has_no_scripts(self):
        marks = Marks()
        marks.feed(self.text)
        for tag, attrs in marks.seen:
            self.assertNotIn(tag, {"script", "link", "iframe", "img", "object", "embed", "base", "form", "image"})
            for name, value in attrs.items():
                self.assertFalse(name.startswith("on"), name)
                if name in {"href", "src", "xlink:href", "data"}:
                    self.assertTrue(value.startswith("#"), value)
        self.assertNotRegex(self.text, r"@import|url\(|javascript:")
        self.assertEqual(set(re.findall(r"https?://[^\"]*", self.text)), {"http://www.w3.org/1999/xhtml", "http://www.w3.org/2000/svg"})

    def test_no_name_stands_twice_and_each_mark_is_there(self):
        names = [e.get("id") for e in self.tree.iter() if e.get("id")]
        self.assertEqual(len(names), len(set(names)))
        for e in self.tree.iter():
            if local(e.tag) == "use":
                self.assertIn(e.get("href")[1:], names)

    def test_styles_of_a_picture_hold_of_it_alone(self):
        for figure in (e for e in self.tree.iter() if local(e.tag) == "figure"):
            style = next(words_of(e) for e in figure.iter() if local(e.tag) == "style")
            bare = re.sub(r"@media[^{]*\{", "", style)
            for selectors in re.findall(r"([^{}]+)\{", bare):
                for selector in selectors.split(","):
                    self.assertTrue(selector.strip().startswith(f"#{figure.get('id')} "), selector)

    def test_on_paper_a_cell_goes_on_in_a_next_line(self):
        """As on a screen it doesn't, where a table may be moved: paper would cut off a wide one at its edge."""
        screen, paper = self.text.split("@media print{")[0], self.text.split("@media print{")[1].split("</style>")[0]
        self.assertIn(".wide td{white-space:nowrap}", screen)
        self.assertIn(".wide td{white-space:normal}", paper)

    def test_the_plan_is_that_of_fit(self):
        self.assertEqual(self.blocks[0], self.run_words(["fit", "sheet.toml"]).stdout)

    def test_the_run_is_that_of_the_commands_on_the_page(self):
        (self.at / "plan.toml").write_text(self.blocks[0])
        commands = [shlex.split(line)[1:] for line in self.blocks[1].splitlines()]
        arrivals, report, draw = commands
        self.run_words(arrivals)
        endurance = tomllib.loads(self.sheet_text()).get("endurance")
        slot_us = re.match(r"# a slot is (\d+) us", self.blocks[0])[1]
        more = ["--endurance", str(endurance), "--slot-us", slot_us] if endurance else []
        records = self.run_words([*report, "--csv", *more]).stdout
        self.assertEqual(self.blocks[2], records)
        self.run_words(draw)
        own = re.sub(r"<style>.*?</style>", "", (self.at / draw[-1]).read_text(), flags=re.S).strip()
        page = re.sub(r"<style>.*?</style>", "", self.text, flags=re.S)
        self.assertTrue(own in page, "the picture of the run")
        self.check_figures(records, int(slot_us))

    def check_figures(self, records, slot_us):
        names, *rows = [line.split(",") for line in records.splitlines()]
        jobs, pages = self.table_with("lateness: worst"), self.table_with("write amplification")
        self.assertEqual([row[0] for row in jobs], ["all", *(f"task {n}" for n in range(len(rows) - 1))])
        for shown, had in [(jobs, ["done", "waiting", "refused", "late"]),
                           (pages, ["collected", "waived", "written", "copied", "amplification", "erases", "least_balance", "idle_slots"])]:
            for row, record in zip(shown, rows, strict=True):
                wanted = [record[names.index(name)] for name in had]
                self.assertEqual([cell.replace(",", "") for cell in row[1:len(had) + 1]], wanted)
        for row, record in zip(jobs, rows, strict=True):
            for cell, name in zip(row[5:], ["worst", "mean", "p99"], strict=True):
                slots, time, unit = re.fullmatch(r"(-?[\d.,]+) slots, (-?[\d.,]+) (ms|s)", cell).groups()
                wanted = float(record[names.index(name)])
                self.assertEqual(float(slots.replace(",", "")), wanted)
                self.assertAlmostEqual(float(time.replace(",", "")) * {"ms": 1, "s": 1000}[unit], wanted * slot_us / 1000, delta=1)
        self.assertEqual({record[names.index("late")] for record in rows}, {"0"})

    def test_explain_says_the_same(self):
        (self.at / "plan.toml").write_text(self.blocks[0])
        said = self.run_words(["explain", "plan.toml"]).stdout
        # The plan of `fit` says how long a slot is, so `explain` has times and shares in brackets behind numbers of slots.
        said = re.sub(r" \([0-9.]+ (?:us|ms|s|min|h|%)\)", "", said)
        plan, page = self.plan(), words_of(self.tree)
        copies = 2 * (plan["pages"] - plan["alpha"]) + plan["erase_slots"]
        self.assertIn(f"A collection takes at most {copies} slots", page)
        caps = self.table_with("it has to cover")
        for row, task in zip(caps, plan["task"], strict=True):
            held = task.get("held", task["period"])
            wants = math.ceil(task["writes"] * (task["period"] + held) / task["period"]) + 2 * plan["alpha"]
            self.assertEqual([count(n) for n in row[1:4]], [task["cap"], wants, task["cap"] - wants])
            gives, takes = plan["alpha"] * task["period"], task["writes"] * task["collect_period"]
            self.assertEqual([count(n) for n in row[6:9]], [gives, takes, gives - takes])
        if "terms" in plan:
            load, = re.findall(r"^die 0: in the long run (\d+) of", said, flags=re.M)
            tightest, asked, slack = re.findall(r"interval has (\d+) slots, of which (\d+) may be asked for: (\d+) to", said)[0]
            for line in said.splitlines():
                if "cap is" in line and "at least" in line:
                    self.assertIn(line.split("at least ")[1].split(":")[0], [row[2].replace(",", "") for row in caps])
            self.assertEqual(sum(count(row[3]) for row in self.table_with("collections")), int(load))
            self.assertRegex(page, rf"The tightest interval has {int(tightest):,} slots?, \S+ m?s, of which {asked} slots may be asked for: {slack} slots?,")
        else:
            common, taken, spare = re.findall(r"of each (\d+) slots all tasks take at most (\d+): (\d+) to spare", said)[0]
            self.assertEqual(sum(count(row[3]) for row in self.table_with("collections")), int(taken))
            self.assertRegex(page, rf"Of each {int(common):,} slots, \S+ m?s, all tasks take at most {int(taken):,}: {int(spare):,} to spare")

    def test_a_mount_takes_what_the_laws_say(self):
        plan, sheet = self.plan(), tomllib.loads(self.sheet_text())
        free = sum(task["cap"] for task in plan["task"]) + len(plan["task"]) * (plan["pages"] - plan["alpha"])
        rounds = math.ceil(free / plan["alpha"])
        transfer = sheet.get("transfer_us", 0)
        read, program = sheet["read_us"] + transfer, sheet["program_us"] + transfer
        wanted = {"labels that are read, one a cell": ((plan["blocks"] + 1) * plan["pages"], read),
                  "erases": (1 + rounds, sheet["erase_us"]),
                  "copies": (rounds * (plan["pages"] - plan["alpha"]), read + program)}
        table = {row[0]: row[1:] for row in self.table_with("by the datasheet")}
        for name, (number, each) in wanted.items():
            self.assertEqual(count(table[name][0]), number)
            time, unit = table[name][1].split()
            self.assertAlmostEqual(float(time.replace(",", "")) * {"ms": 1000, "s": 1e6}[unit], number * each, delta=1000)

    def test_its_memory_is_that_of_a_life(self):
        plan = self.plan()
        die = plan["blocks"], plan["pages"], plan["logical"], len(plan["task"]), "common" in plan
        rows = self.table_with("bytes")
        self.assertEqual([count(row[1]) for row in rows], list(memory_of(die, life_of(with_terms(plan)))))

    def test_years_come_of_the_endurance(self):
        sheet, plan = tomllib.loads(self.sheet_text()), self.plan()
        rows = self.table_with("erases a day")
        if "endurance" not in sheet:
            self.assertEqual({len(row) for row in rows}, {4})
            return
        for row in rows:
            erases = float(row[2].replace(",", ""))
            if erases:
                years = sheet["endurance"] * plan["blocks"] / erases / 365.25
                self.assertAlmostEqual(float(row[4].replace(",", "")), years, delta=0.02 + years / 500)


class Memory(unittest.TestCase):
    """The second reading of the formulas, by numbers that were measured, with a die's own 1,136 bytes as `bindings/c/memory.c`
    has them."""

    def test_a_die_takes_as_many_bytes_as_was_measured(self):
        small, large = (64, 32, 1_024, 1, False), (1_024, 64, 32_768, 1, False)
        for die, work, birth, reserved in [
            (small, (1_000, 100, 400), 50_373, 99_985),
            (small, (30_000, 2_000, 8_000), 50_373, 1_282_385),
            (small, (1_048_576, 65_536, 1_048_576), 50_373, 71_091_409),
            (large, (1_000, 100, 400), 1_505_085, 1_554_697),
            (large, (30_000, 2_000, 8_000), 1_505_085, 2_737_097),
            (large, (1_048_576, 65_536, 1_048_576), 1_505_085, 72_546_121),
        ]:
            self.assertEqual(memory_of(die, work)[:2], (birth, reserved))
        for die, life, resume in [(small, 116_966_837, 79_561), (large, 118_421_549, 2_430_785)]:
            self.assertEqual(memory_of(die, (1_048_576, 65_536, 1_048_576))[2:], (life, resume))

    def test_times_take_sixteen_bytes_a_task(self):
        # 1,136 + 20 * 128 + 4 * 24 + 60 * 16 + 8 * 9 + 8 + 53 * 3 + 4 * 4, and 16 * 4 more with times.
        self.assertEqual(bytes_at_birth((16, 8, 24, 3, False)), 5_007)
        self.assertEqual(bytes_at_birth((16, 8, 24, 3, True)), 5_071)


class Vehicle(Page):
    """With terms: 25 pages a second, read-out, and 1,024 pages once a minute."""
    SHEET = "vehicle.toml"

    def test_a_mount_empties_as_many_blocks_as_full_accounts_want(self):
        # Full accounts share out 12 + 10 + 1,052 + 3 * 59 = 1,251 pages, which are 251 times alpha, rounded up.
        table = {row[0]: row[1] for row in self.table_with("by the datasheet")}
        self.assertEqual((count(table["erases"]), count(table["copies"])), (252, 251 * 59))
        self.assertIn(f"Beside the labels these are {11 + 251 * (2 * 59 + 11):,} calls of the device", words_of(self.tree))

    def test_a_day_wears_as_much_as_it_has_writes_or_collections(self):
        # A day has 345,600,000 slots of 250 us: a write each 160 and 1,024 each 240,000, 64 pages a block; and collections each
        # 800, 1,171 and 1,048,576 slots, which are 432,000, 295,132.365 and 329.589.
        least, _, most = self.table_with("erases a day")
        self.assertEqual((least[1:3], most[1:3]), (["1", "56,790"], ["12.8", "727,461"]))

    def test_what_is_early_has_a_sign(self):
        worst, mean, _ = self.table_with("lateness: worst")[0][5:]
        self.assertEqual((worst, mean), ("-159 slots, -39.75 ms", "-242.54 slots, -60.635 ms"))


class Recorder(Page):
    """With times."""
    SHEET = "recorder.toml"


class Worn(Page):
    """With an endurance."""
    SHEET = "slc_bus.toml"

    @classmethod
    def sheet_text(cls):
        return "endurance = 100000\n" + super().sheet_text()


class Unfound(unittest.TestCase):
    def test_where_no_plan_is_found_there_is_no_page(self):
        with tempfile.TemporaryDirectory() as at:
            sheet = (SHEETS / "vehicle.toml").read_text().replace("logical = 60000", "logical = 63000")
            (Path(at) / "sheet.toml").write_text(sheet)
            done = subprocess.run([PROGRAM, "design", "sheet.toml", "-o", "page.html"], cwd=at, capture_output=True, text=True)
            fitted = subprocess.run([PROGRAM, "fit", "sheet.toml"], cwd=at, capture_output=True, text=True)
            self.assertEqual((done.returncode, done.stdout, done.stderr), (3, "", fitted.stderr))
            self.assertFalse((Path(at) / "page.html").exists())


def main():
    global PROGRAM
    if "--help" in sys.argv or len(sys.argv) != 2:
        print(__doc__)
        sys.exit(0 if "--help" in sys.argv else 2)
    PROGRAM = str(Path(sys.argv.pop()).resolve())
    unittest.main(argv=sys.argv)


main()

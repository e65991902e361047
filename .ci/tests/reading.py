#!/usr/bin/env -S python3 -B
"""Tests of what the scripts of .ci read by regular expressions, on small inputs whose answers are known.

    .ci/tests/reading.py    ends with 1 where one fails"""
import importlib.machinery
import importlib.util
import os
import sys
import tempfile
import unittest
from pathlib import Path

CI = Path(__file__).resolve().parents[1]
sys.path.insert(0, str(CI))
from common import repository
from pages import proof_maps
from second_reading import play_tables
from wrong_bodies import pages


def script(path):
    """A script without a suffix, as a module."""
    loader = importlib.machinery.SourceFileLoader(path.replace("/", "_").replace("-", "_"), str(CI / path))
    module = importlib.util.module_from_spec(importlib.util.spec_from_loader(loader.name, loader))
    loader.exec_module(module)
    return module


docs, version, manual, nightly = map(script, ("docs", "release/version", "release/manual", "nightly"))

SPEC = """-- What is small.
use Rattle.low.specs.Sizes.{IsSmall as IsLittle, size}
use Rattle.low.specs.Rows as Rows

-- Says so.
pub IsGood : Item -> Prop
IsGood item = IsLittle item & Rows.IsFull item.rows
    & other item

other : Item -> Prop
other size = size ≡ zero
"""
SOURCE = """pub use items::{Item};
pub mod calls;
"""
CALLS = """/// A call.
pub fn ask(item: &Item) -> Result<u32, Refusal>
    requires { IsGood item }
    ensures value { IfOk result (λ n. n ≡ size item) }
    ensures refusal { (result ≡ Err NoMemory) ↔ is_scarce item }
{
    body()
}

pub fn law(item: Item)
    ensures { IsGood item }
{}

fn hidden() -> u32
    ensures { result ≡ 1 }
{
    1
}
"""
PAGE = """# Wrong bodies

## answers_zero

fails: test_x first second

```
file: src/calls.rt
old: body()
new: Ok(0)
```

## answers_one

```
file: src/calls.rt
old: body()
new: Ok(1)
old: Ok(1)
new: Ok(2)
```
"""

# Proofs: a principle, a lemma by it, an induction over events, and what takes a list apart but carries none.
PRINCIPLE = """-- Logs, entry by entry.
use Rattle.std.proofs.Common.{List, []}

-- a property of logs
pub by_log : (start : Start) (Q : Log → Type 0) → Q [] → ((past : Log) → Q past → Q (next ∷ past)) → (log : Log) → Q log
by_log start Q none step [] = none
by_log start Q none step (e ∷ past) = step past (by_log start Q none step past)
"""
TOP = """-- What holds of each log:
-- and why.
use Rattle.low.proofs.Steps.{by_log as over, other}
use Rattle.high.proofs.Side as side
use Rattle.high.proofs.Small.{one}

pub good : (log : Log) → IsGood log
good = over Start IsGood one step
  where
    step : (past : Log) → IsGood past → IsGood (next ∷ past)
    step past h = side.more past h
"""
SIDE = """-- Events in turn.
use Rattle.low.proofs.Steps.{by_log}
use Rattle.high.proofs.Small.{one}

module _ {N : Type 0} (n : N) where
  -- by the events
  pub in_turn : {A : Type 0} (first second : List Event) (h : (n : ℕ) → n ≡ n) → IsTrue first
      → Fits second
  in_turn {A} first [] h yes = one
  in_turn first (e ∷ second) h yes = by_case e
    where
      by_case : (e : Event) → Fits (e ∷ second)
      by_case e = in_turn first second h yes -- in_turn again
  in_turn_not : (first : List Event) → Fits first
  in_turn_not [] = one
  in_turn_not (e ∷ first) = in_turn e first

  jobs : List Job → Fits n
  jobs [] = one
  jobs (j ∷ js) = jobs js
"""
MODULES = {("low", "Steps"): PRINCIPLE, ("high", "Top"): TOP, ("high", "Side"): SIDE, ("high", "Small"): "-- Small.\n\npub one : Unit\none = tt\n",
           ("high", "Long"): "-- Long, " + "and longer, " * 10 + "still.\n" + "\n" * 99,
           ("high", "laws/is_good/Answers"): "use Rattle.high.proofs.Top.{good}\nuse Rattle.high.proofs.Long.{x}\n"
                                             "use Rattle.high.proofs.laws.is_good.Goals as goal\n"}


class Proofs(unittest.TestCase):
    def setUp(self):
        self.modules = {key: proof_maps.Module(text) for key, text in MODULES.items()}
        self.layers = proof_maps.layers(self.modules, [("high", "laws/is_good/Answers")])

    def test_a_module_stands_below_all_that_import_it(self):
        self.assertEqual(self.layers, {("high", "laws/is_good/Answers"): 0, ("high", "Top"): 1, ("high", "Long"): 1, ("high", "Side"): 2,
                                       ("low", "Steps"): 3, ("high", "Small"): 3})

    def test_types_of_arguments(self):
        self.assertEqual(proof_maps.argument_types("{A : Type 0} (a b : List A) (f : (n : ℕ) → n ≡ n) → List Job → IsTrue a → C"),
                         ["List A", "List A", "(n : ℕ) → n ≡ n", "List Job", "IsTrue a"])

    def test_what_is_taken_apart_by_a_definition_that_calls_itself(self):
        found = {name: proof_maps.taken_apart(name, *rest) for name, *rest in proof_maps.definitions(SIDE)}
        self.assertEqual(found, {"in_turn": ["List Event"], "in_turn_not": [], "jobs": ["List Job"]})

    def test_inductions(self):
        found = {key[1]: proof_maps.inductions(self.modules, key) for key in self.modules}
        self.assertEqual(found, {"Steps": {"log": ["by_log"]}, "Top": {"log": ["good"]}, "Side": {"events": ["in_turn"]}, "Small": {},
                                 "Long": {}, "laws/is_good/Answers": {}})

    def test_small_modules_and_those_of_many_are_left_out(self):
        kept = proof_maps.shown(self.modules, self.layers, list(self.layers))
        self.assertEqual(set(kept), {("high", "Top"), ("high", "Long"), ("high", "Side"), ("low", "Steps")})
        for number in range(proof_maps.MANY_IMPORTS - 1):
            self.modules["high", f"More{number}"] = proof_maps.Module("use Rattle.high.proofs.Long.{x}\n")
        found = dict.fromkeys(self.modules, 0)
        self.assertNotIn(("high", "Long"), proof_maps.shown(self.modules, found, list(found)))

    def test_a_picture(self):
        kept = proof_maps.shown(self.modules, self.layers, list(self.layers))
        self.assertEqual(list(proof_maps.picture(self.modules, "high", self.layers, kept, 60)), [
            "  Long           100  Long, and longer, and longer ..",
            "● Top             11  What holds of each log: and why.",
            "                      [log: good]",
            "○   Side          20  Events in turn. [events: in_turn]",
            "●     low/Steps    7  Logs, entry by entry. [log: by_log]"])


class Reading(unittest.TestCase):
    def setUp(self):
        self.folder = tempfile.TemporaryDirectory()
        self.top = Path(self.folder.name).resolve()
        for path, text in (("crates/high/specs/Good.antt", SPEC), ("crates/high/src/lib.rt", SOURCE),
                           ("crates/high/src/calls.rt", CALLS), ("crates/high/must-fail/by_hand.md", PAGE),
                           ("crates/low/specs/Sizes.antt", "size : Item -> N\nsize item = item.size\n\nIsSmall : Item -> Prop\n"
                            "IsSmall item = size item < 8\n"),
                           ("crates/low/specs/Rows.antt", "IsFull : Rows -> Prop\nIsFull rows = rows ≡ all\n"),
                           ("crates.txt", "# A part\nlow:\nhigh may_wait=2: low std\n")):
            (self.top / path).parent.mkdir(parents=True, exist_ok=True)
            (self.top / path).write_text(text)
        for (crate, name), text in MODULES.items():
            path = self.top / "crates" / crate / "proofs" / f"{name}.antt"
            path.parent.mkdir(parents=True, exist_ok=True)
            path.write_text(text)
        docs.PROOFS.clear()
        self.before = docs.TOP, docs.CRATES
        docs.TOP, docs.CRATES = self.top, self.top / "crates"

    def tearDown(self):
        docs.TOP, docs.CRATES = self.before
        docs.PROOFS.clear()
        self.folder.cleanup()

    def test_lines_of_crates(self):
        lines = repository.crate_lines("# x\nlow:\nmid a=1: low kit\n\nhigh: mid\nother: low\n")
        self.assertEqual(lines[1], ("mid", ["low", "kit"], ["a=1"]))
        self.assertEqual(repository.at_or_below(lines, "high"), ["low", "mid", "high"])
        self.assertEqual(repository.at_or_below(lines, "none"), [])

    def test_a_definition_rests_on_what_it_names(self):
        specs = docs.read_specs()
        self.assertEqual(list(specs["high", "Good"].items), ["IsGood", "other"])
        seen, types = docs.rests_on(specs, "high/Good", "IsGood")
        self.assertEqual(set(seen), {("high", "Good", "IsGood"), ("high", "Good", "other"), ("low", "Sizes", "IsSmall"),
                                     ("low", "Sizes", "size"), ("low", "Rows", "IsFull")})
        self.assertEqual(types, set())

    def test_a_variable_hides_a_definition(self):
        specs = docs.read_specs()
        self.assertEqual(docs.cited(specs, specs["high", "Good"], "other"), set())

    def test_a_page_maps_each_module_once(self):
        page = self.top / "docs.md"
        page.write_text("<!-- docs: proofs high/laws is_good -->\n<!-- end -->\n<!-- docs: proofs high laws/is_good -->\n<!-- end -->\n")
        lines = docs.written({}, page).split("\n")
        self.assertEqual(lines[1], "*`is_good` rests on 6 proof modules with 145 lines:* `high` 5 with 138, `low` 1 with 7. Not shown: 2.")
        self.assertEqual(lines[9:12], ["<!-- end -->", "<!-- docs: proofs high laws/is_good -->", "*`is_good` rests on 6 proof modules with "
                                       "145 lines:* `high` 5 with 138, `low` 1 with 7. Beside those above: 0."])
        with self.assertRaises(SystemExit):
            docs.proofs({}, "high/laws", "is_bad")

    def test_clauses_of_a_function(self):
        head, clauses = docs.head_of("high/calls", "ask")
        self.assertEqual(head, ["pub fn ask(item: &Item) -> Result<u32, Refusal>"])
        self.assertEqual([label for label, _ in clauses], ["", "value", "refusal"])

    def test_contracts(self):
        self.assertEqual([(name, len(lines)) for _, name, _, lines in docs.contracts()], [("ask", 3), ("law", 1), ("hidden", 1)])

    def test_paths_that_are_not_there(self):
        page = self.top / "README.md"
        page.write_text("`.ci/nothing`, crates/high/src/lib.rt, (docs/NONE.md), [x](crates/low), [y](docs/Y.md#z) a.ci/b\n")
        self.assertEqual(docs.missing(page), [".ci/nothing", "docs/NONE.md", "docs/Y.md"])

    def test_modules_that_are_not_there(self):
        page, own = self.top / "README.md", self.top / "crates/low/README.md"
        page.write_text("`high/src/{lib, gone}.rt`, `src/lib.rt`, `must-fail/NAME.edit`, `a/src`\n```\n`src/none`\n```\n`specs/None`\n")
        self.assertEqual(docs.missing(page), ["high/src/gone.rt", "specs/None"])
        own.write_text("`src/calls.rt`, `src/lost.rt`\n")
        self.assertEqual(docs.missing(own), ["src/calls.rt", "src/lost.rt"])
        own.write_text("`src/calls.rt` of `high`\n")
        self.assertEqual(docs.missing(own), [])

    def test_edits_that_cannot_be_applied(self):
        page = self.top / "crates/high/must-fail/by_hand.md"
        page.write_text(PAGE.replace("old: Ok(1)\nnew: Ok(2)\n", ""))
        self.assertEqual(list(docs.stale_edits()), [])
        page.write_text("file: src/calls.rt\nold: Item\nold: nobody()\n")
        self.assertEqual([text.split(": ")[1] for text in docs.stale_edits()],
                         ["stands 2 times in its file", "stands 0 times in its file"])

    def test_names_of_wrong_bodies(self):
        (self.top / "crates/high/must-fail/gated.edit").write_text("file: src/calls.rt\nold: body()\nnew: Ok(3)\n")
        (self.top / "crates/high/must-fail/by_test.md").write_text("# Tests\n\n## answers_late\n\nIt answers late.\n\nfails: test_high late\n")
        before, docs.crates = docs.crates, lambda: [("high", [], [])]
        try:
            self.assertEqual(docs.wrong_bodies(), {"high": (["gated"], ["answers_zero", "answers_one"], ["answers_late"])})
        finally:
            docs.crates = before

    def test_wide_paragraphs_are_wrapped(self):
        self.assertEqual(docs.wrapped("- " + "word " * 30 + "end"), "- " + " ".join(["word"] * 23) + "\n  "
                         + " ".join(["word"] * 7) + " end")
        self.assertEqual(docs.wrapped("| " + "cell " * 40), "| " + "cell " * 40)


class WrongBodies(unittest.TestCase):
    def test_sections_of_a_page(self):
        with tempfile.TemporaryDirectory() as folder:
            page = Path(folder, "by_test.md")
            page.write_text(PAGE)
            found = list(pages.sections(page))
        self.assertEqual([(name, fails) for name, fails, _ in found], [("answers_zero", ["test_x", "first", "second"]), ("answers_one", [])])
        self.assertEqual(found[0][2], ["file: src/calls.rt", "old: body()", "new: Ok(0)"])

    def test_an_edit_goes_on_from_the_one_before(self):
        with tempfile.TemporaryDirectory() as folder:
            source = Path(folder, "src/calls.rt")
            source.parent.mkdir()
            source.write_text("a body() b")
            pages.apply(Path(folder), ["file: src/calls.rt", "old: body()", "new: Ok(1)", "old: Ok(1)", "new: Ok(2)"])
            self.assertEqual(source.read_text(), "a Ok(2) b")
            source.write_text("body() body()")
            with self.assertRaises(SystemExit):
                pages.apply(Path(folder), ["file: src/calls.rt", "old: body()", "new: x"])

    def test_verdicts(self):
        def verdict(*said):
            with open(os.devnull, "w") as nowhere:
                before, sys.stdout = sys.stdout, nowhere
                try:
                    return pages.tell([f"must-fail {number}.edit: {words}\n" for number, words in enumerate(said)])
                finally:
                    sys.stdout = before
        self.assertTrue(verdict("refused, by a goal", "refused, but only by a limit"))
        self.assertFalse(verdict("refused, by a goal", "NOT REFUSED"))
        self.assertFalse(verdict("refused, but only because a proof file names it"))
        self.assertFalse(verdict())


class Plays(unittest.TestCase):
    def test_a_table(self):
        with tempfile.TemporaryDirectory() as folder:
            data = Path(folder)
            (data / "a.toml").write_text("k = 1\n")
            table = "# x\n> flashrec plan a.toml\n0|so~|\n@ a.toml\n1||bad~|k = 1|k = 2\n1||bad~||end^\n0..1|2|x|y\n"
            found = list(play_tables.plays_of(table, data))
        self.assertEqual([play[0] for play in found], [3, 5, 6, 7, 7])
        self.assertEqual(found[0][1:], ("flashrec plan a.toml", 0, "so~", "", None, None))
        self.assertEqual([play[6] for play in found[1:]], [b"k = 2\n", b"k = 1\nend\r", b"", b"k"])

    def test_changes(self):
        self.assertEqual(play_tables.changed(b"abab", ["b", "c", "c", "3*x~"]), b"ax\nx\nx\nax\nx\nx\n")
        self.assertEqual(play_tables.changed(b"ab", ["=", "z"]), b"z")

    def test_what_is_wanted(self):
        self.assertTrue(play_tables.is_answered("fro~*", b"fro\nnt", None))
        self.assertFalse(play_tables.is_answered("fro~", b"fro\nnt", None))


class Helps(unittest.TestCase):
    def test_each_script_shows_its_help_and_does_nothing_else(self):
        ways = "common/help.sh", "help_if_asked", "ArgumentParser"
        scripts = [path for path in CI.rglob("*") if path.is_file() and os.access(path, os.X_OK) and path.parent.name != "tests"]
        self.assertEqual([str(path) for path in scripts if not any(way in path.read_text() for way in ways)], [])
        self.assertIn(CI / "bindings", scripts)


class Releases(unittest.TestCase):
    def test_versions(self):
        forms = dict(version.PLACES)
        self.assertEqual(version.stated("# Log\n\n## 1.3.0-dev, soon\n\n## 1.2.0\n", forms["CHANGELOG.md"]), ["1.3.0-dev"])
        self.assertEqual(version.stated('[package]\nname = "x"\nversion = "1.2.3"\n[d]\nversion = "9.9.9"\n',
                                        forms["bindings/rust/Cargo.toml"]), ["1.2.3"])
        self.assertEqual(version.stated("0|flashrec 1.2.0~|\n0|flashplan 1.2.1~|\n", forms["crates/test_plays/data/commands.txt"]),
                         ["1.2.0", "1.2.1"])
        self.assertEqual(version.stated("INTERFACE = 1.2\nVERSION = 1.2.3\n", forms["bindings/c/Makefile"]), ["1.2.3"])

    def test_the_number_of_the_interface_for_c(self):
        texts = ["#define MG_VERSION_MAJOR 1u\n#define MG_VERSION_MINOR 2u\n", '"1.2"; "of a library', 'return "1.2, not proved";',
                 "VERSION = 1.2.3\nINTERFACE = 1.2\n", "find_package(Maulgreen 1.2 REQUIRED CONFIG)\n", "const VERSION: u32 = 1 << 16 | 2;\n",
                 "if _lib.mg_version() >> 16 != 1 or _lib.mg_version() & 0xFFFF < 2:\n"]
        for (path, form), text in zip(version.INTERFACE, texts, strict=True):
            self.assertEqual(version.stated(text, form), [("1", "2")], path)
        self.assertEqual(list(version.otherwise_for_c()), [])

    def test_a_place_with_another_number_or_none_is_named(self):
        with tempfile.TemporaryDirectory() as folder:
            for name, text in ("header", "1.2"), ("same", "1.2"), ("other", "1.3"), ("none", ""):
                (Path(folder) / name).write_text(text)
            before = version.TOP, version.INTERFACE
            version.TOP, version.INTERFACE = Path(folder), [(name, r"(\d)\.(\d)") for name in ("header", "same", "other", "none")]
            try:
                self.assertEqual(list(version.otherwise_for_c()), ["other states 1.3, and the header of the interface for C 1.2",
                                                                   "none states no number of the interface for C"])
            finally:
                version.TOP, version.INTERFACE = before

    def test_a_page_as_a_manual_page(self):
        page = "# Rules\n\n## Of *lives*\n\n- A **wholly\n  free** block; w * q <= a * p, `**kept**`, *said*:\n  1. one\n  2. two\n\n```\n**as it is**\n```\n"
        self.assertEqual(manual.page_text(page, "rules", "what it does"),
                         "'\\\" t\n.TH RULES 7\n.SH NAME\nrules \\- what it does\n.SH OF \\fILIVES\\fR\n.P\n.IP \\(bu 2\nA \\fBwholly\n"
                         "free\\fR block; w * q <= a * p, **kept**, \\fIsaid\\fR:\n.IP 1. 5\none\n.IP 2. 5\ntwo\n.P\n.P\n.nf\n"
                         "**as it is**\n.fi\n")

    def test_a_table_of_a_manual_page(self):
        page = "# Rules\n\nWhat a die does.\n\n| word | it is |\n|---|---|\n| slot, `now` | a time |\n| job | |\n\nThe end.\n"
        self.assertEqual(manual.page_text(page, "rules", "what it does"),
                         "'\\\" t\n.TH RULES 7\n.SH NAME\nrules \\- what it does\n.SH DESCRIPTION\nWhat a die does.\n.P\n.P\n.na\n.TS\n"
                         "lb lxb\nl lx.\nword\tit is\nslot, now\tT{\na time\nT}\njob\tT{\n\\&\nT}\n.TE\n.ad\n.P\nThe end.\n")

    def test_crates_that_changed(self):
        before, nightly.crates = nightly.crates, lambda: [("low", [], []), ("mid", [], []), ("high", [], [])]
        try:
            self.assertEqual(nightly.changed(["crates/high/src/a.rt", "crates/low/must-fail/by_hand.md", "crates/mid/proofs/A.antt",
                                              "docs/crates/mid/src/x", ""]), ["low", "high"])
        finally:
            nightly.crates = before


if __name__ == "__main__":
    repository.help_if_asked(__doc__)
    unittest.main()

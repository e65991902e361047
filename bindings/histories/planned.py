#!/usr/bin/env -S python3 -B
"""Random asks and slots on dies that keep their plans, played through libmaulgreen and by the second reading of the rules
(.ci/second_reading), which reads nothing of the library: every answer has to be the same. The same for the same seed.

    bindings/histories/planned.py COUNT SEED    plays them, names the first that differs, and ends with 1 where one did

The library is that of MAULGREEN_LIB. Lives are short, so that most histories go over several; tasks ask for too much, too soon,
for pages and tasks that aren't there, within slots, and near the end of a life; in some the device fails. Dies are written down at
any moment, and go on from there, with other terms and lengths of lives, too; and the power goes, between slots and within them, in
the middle of a program and of an erase. After a mount every page has to be there, and the die plays on from what the mount left."""
import random
import sys
from pathlib import Path

HERE = Path(__file__).resolve().parent
sys.path[:0] = [str(HERE.parents[1] / ".ci"), str(HERE.parent / "python")]
import maulgreen
from common.repository import help_if_asked
from second_reading import plain_kept
from second_reading.plain_die import WAIVED, Die, Plan, Refused, Stood

TOP = "terms = 1\ndies = 1\nblocks = {blocks}\npages = 4\nerase_slots = 2\nlogical = 20\nalpha = 2\n"


# The rules

def die_plan(plan):
    return Plan([plan[word] for word in ("blocks", "pages", "erase_slots", "logical", "alpha")], [task["cap"] for task in plan["tasks"]])


class Ongoing:
    """A die that keeps its plan and goes on by itself."""

    def __init__(self, plan, life):
        self.plan, self.life, self.tasks = plan, life, plan["tasks"]
        self.die = Die(die_plan(plan), 10**9)
        self.first, self.asked, self.waiting = 0, [[] for _ in self.tasks], [None] * len(self.tasks)
        self.serial = 1

    def written(self):
        """What stands where a checkpoint is taken; else the name of why none is, and its number."""
        why = self.die.not_quiet()
        if why:
            word, _, number = why.partition(" ")
            return {"stopped": "DieStopped", "waits": "NotQuiet"}[word], int(number or 0)
        waits = [task for task, ops in enumerate(self.waiting) if ops is not None]
        return ("AskWaits", waits[0]) if waits else self.die.stood()

    def resumed(self, plan, life, stood):
        """It goes on from a checkpoint: with an empty log, and what each task lacks beyond alpha pages asked for in slot 0."""
        self.plan, self.life, self.tasks = plan, life, plan["tasks"]
        assert self.die.resume(die_plan(plan), stood) == "ok"
        self.first, self.waiting = 0, [None] * len(self.tasks)
        lacks = [max(task["cap"] - balance - plan["alpha"], 0) for task, balance in zip(self.tasks, stood.balances)]
        self.asked = [[(0, lack, lack)] if lack else [] for lack in lacks]

    @classmethod
    def mounted(cls, plan, life, stood, names, serial):
        """It begins on a device as a mount left it."""
        self = cls(plan, life)
        flash, accounts = self.die.flash, self.die.accounts
        for (used, erases), block in zip(stood.blocks, flash.blocks):
            block.cells = [0] * used + [None] * (plan["pages"] - used)
            block.erases = erases
        for page, at in enumerate(stood.places):
            if at:
                flash.blocks[at[0]].cells[at[1]] = page
        flash.at, flash.bytes = list(stood.places), [name.hex() if at else flash.bytes[0] for at, name in zip(stood.places, names)]
        accounts.spare, accounts.balance, self.serial = stood.spare, list(stood.balances), serial
        return self

    def go_on(self):
        """Begins the next life, where one has ended, with what waited."""
        if self.die.stopped:
            return "DieStopped"
        if self.die.now == self.life:
            assert not self.die.pending, "a life ends with work that waits"
            self.first += self.life
            self.die.start()
            for task, ops in enumerate(self.waiting):
                self.waiting[task] = None
                if ops is not None:
                    assert self.why_not(True, task, ops) is None, "what waited is refused"
                    self.enter(task, ops)
        return None

    def why_not(self, burst, number, ops):
        """Why the task's own part of the plan refuses an ask: a name, and its numbers."""
        if number >= len(self.tasks):
            return "UnknownTask", 0, 0
        task = self.tasks[number]
        if not ops:
            return "EmptyJob", 0, 0
        most = task["work"] if burst else min(64, task["work"])
        if len(ops) > most:
            return "TooManyOps", most, 0
        beyond = [op[1] for op in ops if op[1] >= self.plan["logical"]]
        if beyond:
            return "BadPage", beyond[0], 0
        writes = sum(op[0] == "W" for op in ops)
        if writes > task["writes"]:
            return "TooManyWrites", task["writes"], 0
        clock = slot = self.first + self.die.now
        while not plain_kept.has_room(self.asked[number], task, slot, len(ops), writes):
            slot += 1
        if slot > clock:
            return "TooSoon", 0, slot - self.first
        return ("LifeEnd", 0, 0) if self.die.now + task["deadline"] > self.life else None

    def enter(self, number, ops):
        """Enters the jobs of an ask. The number of the first one, and how many they are."""
        now, due = self.die.now, self.die.now + self.tasks[number]["deadline"]
        jobs = [ops[at:at + 64] for at in range(0, len(ops), 64)]
        for job in jobs:
            self.asked[number].append((self.first + now, len(job), sum(op[0] == "W" for op in job)))
        numbers = [self.die.submit(number, now, due, job) for job in jobs]
        return numbers[0], len(jobs)

    def ask(self, burst, number, ops):
        ended = self.go_on()
        if ended:
            return ended, 0, 0
        why = self.why_not(burst, number, ops)
        if why and why[0] == "LifeEnd":
            if self.waiting[number] is not None:
                return "WaitsAlready", 0, 0
            self.waiting[number] = ops
            release = self.first + self.life
            return release, release + self.tasks[number]["deadline"], None, 0
        if why:
            return why
        release = self.first + self.die.now
        return (release, release + self.tasks[number]["deadline"], *self.enter(number, ops))

    def begin(self):
        """Begins a slot: its collections come."""
        ended = self.go_on()
        if ended:
            return ended
        for number, task in enumerate(self.tasks):
            if self.die.now % task["collect_period"] == 0:
                self.die.collect(number, self.die.now, self.die.now + task["collect_deadline"])
        return None

    def end(self, fails):
        """Ends it: the call of the device, and what the slot did. A call that fails stops the die, and so does a trim."""
        head = self.next_trim() if fails else None
        self.die.flash.last_call, self.die.flash.calls = None, 0 if fails else 10**9
        if head:
            self.die.stopped = True
            return "DeviceFault"
        try:
            said = self.die.slot()
        except Refused as refusal:
            return str(refusal)
        self.serial += (self.die.flash.last_call or "").startswith("program")
        return said

    def next_trim(self):
        """Whether the slot would trim a page, once what it waives was waived."""
        spare = self.die.accounts.spare
        waiting = sorted((item for item in self.die.pending if item.release <= self.die.now), key=lambda item: item.key)
        for item in waiting:
            if item.collects() and item.victim is None and spare >= self.plan["alpha"]:
                spare -= min(self.plan["alpha"], self.tasks[item.task]["cap"] - self.die.accounts.balance[item.task] - self.die.accounts.hold[item.task])
                continue
            return not item.collects() and item.ops[item.done][0] == "T"
        return False


# Plans

def text_by(dice):
    text = TOP.format(blocks=dice.choice((48, 64)))
    for _ in range(dice.randint(1, 3)):
        period, work = dice.choice((37, 50, 90)), dice.choice((1, 2, 5, 12, 70))
        writes = dice.randint(0, min(work, 2))
        deadline = dice.randint(min(work + 14, period), period)
        collect = 2 * period // writes if writes else 120
        text += (f"[[task]]\ndie = 0\ncap = {4 * writes + 8}\nperiod = {period}\ndeadline = {deadline}\nheld = {deadline + dice.choice((0, 3))}\n"
                 f"work = {work}\nwrites = {writes}\ncollect_period = {collect}\ncollect_deadline = {dice.randint(collect // 2, collect)}\n")
    return text


def plan_by(dice):
    """A plan that passes its tests."""
    while True:
        try:
            return plain_kept.terms_in(text_by(dice).encode())[0]
        except Exception as fault:
            if type(fault).__name__ not in ("Refused", "Fault"):
                raise


def life_within(plan, longest):
    """The longest life of at most `longest` slots."""
    return next((slots for slots in range(longest, 0, -1)
                 if plain_kept.arrivals_in(plan, slots) <= plain_kept.MOST_ARRIVALS and plain_kept.all_due(plan, slots)), None)


def resume_refusal(plan, longest, balances):
    """Why a die doesn't go on that has these balances, its checkpoint being fit: a name, and its numbers."""
    life = life_within(plan, longest)
    if life is None:
        return "NoLife", 0, 0, 0
    for number, (task, have) in enumerate(zip(plan["tasks"], balances)):
        need = max(task["cap"] - (plan["alpha"] + task["writes"]), 0)
        if have < need:
            return "NotStocked", number, have, need
    late = [at for at, task in enumerate(plan["tasks"]) if task["deadline"] > life]
    return ("ShortLife", late[0], 0, 0) if late else None


FAULTS = {"other shape": "OtherShape", "overfull": "Overfull", "second open": "SecondOpen", "unprogrammed": "Unprogrammed",
          "above cap": "AboveCap", "accounts": "OtherSum", "shared": "SharedCell"}


def fault_of(plan, stood):
    """What is wrong with a checkpoint first, if anything: a name, and its numbers."""
    why = stood.fault(die_plan(plan))
    if why is None:
        return None
    word = next(word for word in FAULTS if why.startswith(word))
    numbers = [int(number) for number in why[len(word):].replace("free", "").split()] + [0, 0]
    return FAULTS[word], numbers[0], numbers[1], 0


# The part

class Part:
    """What the cells of a part show: the name, and the label with the logical page, the serial and the erases of the block; or nothing
    where a cell is torn."""

    def __init__(self, dice):
        self.dice, self.cells, self.erasing = dice, {}, set()
        self.block_of = []  # the die's blocks on the part

    def begins(self, die, blocks):
        self.block_of = [die.part_block(block) for block in range(blocks)]

    def read(self, at):
        return (self.cells.get(at) or (maulgreen.BLANK,))[0]

    def program(self, at, name, page, serial, erases):
        assert at not in self.cells, f"cell {at} is programmed twice"
        self.cells[at] = name, page, serial, erases

    def erase_slot(self, block, last):
        self.erasing.add(block)
        if last:
            self.erasing.discard(block)
            for cell in [cell for cell in self.cells if cell[0] == block]:
                del self.cells[cell]

    def cut(self, at=None, name=None, page=None, serial=None, erases=None):
        """The power goes, perhaps in a program, of which the whole is there, or a torn cell, or nothing. Whether the whole is."""
        there = at is not None and self.dice.randrange(3)
        if there:
            self.program(at, name, page, serial, erases)
            if there == 1:
                self.cells[at] = None
        for cell in self.cells:
            if cell[0] in self.erasing and self.dice.randrange(2):
                self.cells[cell] = None
        self.erasing = set()
        return there == 2

    def labels(self, block, pages):
        shown = [self.cells.get((block, page)) for page in range(pages)]
        return [label[1:] if label else None for label in shown]

    def erases_told(self, blocks):
        """By block the greatest count of its labels; of one without a label one more than that of any other."""
        told = {}
        for at, label in self.cells.items():
            if label:
                told[at[0]] = max(told.get(at[0], 0), label[3])
        more = max(told.values()) + 1 if told else 0
        return [told.get(block, more) for block in range(blocks)]


# Asks, and what a driver does

def ops_by(dice, task, logical):
    count = dice.choice((1, 1, task["work"], task["work"] + 1)) if dice.randrange(9) else dice.choice((0, 65, task["work"] // 2))
    page = logical + 3 if dice.randrange(12) == 0 else logical
    return [(dice.choice("RRRTW" if dice.randrange(3) else "RT"), dice.randrange(page), "%032x" % dice.randrange(2**128)) for _ in range(count)]


def in_c(op):
    kind, page, content = op
    return {"R": (maulgreen.READ, page), "T": (maulgreen.TRIM, page)}.get(kind) or (maulgreen.WRITE, page, bytes.fromhex(content))


def asked(die, burst, number, ops):
    """What the library answers an ask."""
    try:
        return tuple((die.ask_all if burst else die.ask)(number, map(in_c, ops), caller=7))
    except maulgreen.Refusal as refusal:
        return refusal.name, refusal.first, refusal.next


def said(act):
    """An act of the second reading, as the library numbers it: its kind, and its page or block."""
    kinds = {"R": 1, "W": 2, "T": 3, "copy-out": 4, "copy-in": 5, "erase": 6}
    if act is None:
        return 0, 0
    word = act.partition("=")[0]
    kind = next(kind for kind in sorted(kinds, key=len, reverse=True) if word.startswith(kind))
    return kinds[kind], int(word[len(kind):])


def call_of(last_call, act):
    """The call that a slot made: its kind, its block and its cell."""
    if last_call is None:
        return (maulgreen.NOTE_TRIM if act and act[0] == "T" else maulgreen.NOTHING, 0, 0)
    words = last_call.partition("=")[0].split()
    kind = {"read": maulgreen.READ_CELL, "program": maulgreen.PROGRAM_CELL, "erase": maulgreen.ERASE_SLOT}[words[0]]
    return kind, int(words[2] if words[1] == "block" else words[1]), int(words[4]) if len(words) > 4 else 0


class History:
    def __init__(self, dice):
        self.dice, self.counts = dice, {}
        self.plan = plan_by(dice)
        self.longest = dice.choice((20, 130, 300, 800))
        self.life = life_within(self.plan, self.longest)
        self.part, self.ever = Part(dice), [set() for _ in range(self.plan["logical"])]

    def note(self, word):
        self.counts[word] = self.counts.get(word, 0) + 1

    def same(self, what, made, wanted):
        assert made == wanted, f"{what}: {made}, and by the rules {wanted}"

    def given(self, plan):
        """A plan, its tasks and their terms, as the library takes them."""
        words = ("period", "deadline", "held", "work", "writes", "collect_period", "collect_deadline")
        return (maulgreen.Plan(*(plan[word] for word in ("blocks", "pages", "erase_slots", "logical", "alpha"))),
                [maulgreen.Task(task["cap"]) for task in plan["tasks"]],
                [maulgreen.Terms(*(task[word] for word in words)) for task in plan["tasks"]])

    def made(self):
        plan, tasks, terms = self.given(self.plan)
        late = [at for at, task in enumerate(self.plan["tasks"]) if self.life is not None and task["deadline"] > self.life]
        try:
            die = maulgreen.Planned(plan, tasks, terms, self.longest)
        except maulgreen.Refusal as refusal:
            self.same("a plan", (refusal.name, refusal.first), ("NoLife", 0) if self.life is None else ("ShortLife", late[0]))
            self.note(refusal.name)
            return None
        self.same("a plan", (None, self.life is not None), (next(iter(late), None), True))
        return die

    def asks(self, die, rules):
        number = self.dice.randrange(len(self.plan["tasks"]) + (self.dice.randrange(8) == 0))
        task = self.plan["tasks"][min(number, len(self.plan["tasks"]) - 1)]
        burst, ops = self.dice.random() < 0.5, ops_by(self.dice, task, self.plan["logical"])
        wanted = rules.ask(burst, number, ops)
        self.same("an ask", asked(die, burst, number, ops), wanted)
        self.note(wanted[0] if isinstance(wanted[0], str) else "Waits" if wanted[2] is None else "Enters")

    def changed(self, caps=False):
        """The plan, perhaps with terms by which fewer writes are asked for, and perhaps with larger caps; and a longest life, perhaps
        another one."""
        plan = dict(self.plan, tasks=[dict(task) for task in self.plan["tasks"]])
        if self.dice.randrange(2):
            for task in plan["tasks"]:
                task["writes"] = self.dice.randint(0, task["writes"])
        if caps and self.dice.randrange(3) == 0:
            more = dict(plan, tasks=[dict(task, cap=task["cap"] + self.dice.randrange(7)) for task in plan["tasks"]])
            plan = plan if die_plan(more).refusal() else more
        return plan, self.dice.choice((self.longest, self.longest, 1, 25, 60, 200))

    def writes_down(self, die, rules):
        """A checkpoint, or why none is taken. What was written down, or nothing."""
        wanted = rules.written()
        try:
            taken = die.checkpoint()
        except maulgreen.Refusal as refusal:
            self.same("a checkpoint", (refusal.name, refusal.first), wanted)
            self.note(refusal.name)
            return None
        assert isinstance(wanted, Stood), f"a checkpoint was taken, and by the rules {wanted}"
        names = [bytes.fromhex(name) for name in rules.die.flash.bytes]
        self.same("a checkpoint", tuple(taken)[:5], (wanted.places, names, wanted.blocks, wanted.balances, wanted.spare))
        self.same("the next serial", taken.part.serial, rules.serial)
        self.note("checkpoints")
        return taken

    def breaks(self, taken):
        """A checkpoint with another number somewhere."""
        places, names, blocks, balances, spare, known = (list(part) if isinstance(part, list) else part for part in taken)
        kind = self.dice.randrange(6)
        if kind == 0:
            spare += self.dice.choice((1, -1)) if spare else 1
        elif kind == 1:
            balances[self.dice.randrange(len(balances))] += self.dice.choice((1, 50))
        elif kind == 2:
            places[self.dice.randrange(len(places))] = self.dice.choice((places[0], (len(blocks), 0), (0, 4)))
        elif kind == 3:
            used, erases = blocks[at := self.dice.randrange(len(blocks))]
            blocks[at] = maulgreen.Block(used + self.dice.choice((1, 5)), erases)
        elif kind == 4:
            self.dice.choice((places, names, blocks, balances)).pop()
        return maulgreen.Checkpoint(places, names, blocks, balances, spare, known)

    def shuts_down(self, die, rules):
        """The die is shut down, if it may be, and goes on from its checkpoint, or why it doesn't. The die of then."""
        taken = self.writes_down(die, rules)
        if taken is None or self.dice.randrange(3) == 0:
            return die
        if self.dice.randrange(2):
            broken = self.breaks(taken)
            wanted = fault_of(self.plan, Stood(broken.places, broken.blocks, broken.spare, broken.balances))
            if wanted:
                self.unresumed(self.plan, self.longest, broken, wanted)
        plan, longest = self.changed(caps=True)
        wanted = resume_refusal(plan, longest, taken.balances)
        if wanted:
            self.unresumed(plan, longest, taken, wanted)
            return die
        die.close()
        die = maulgreen.Planned(*self.given(plan), longest, taken)
        self.same("its blocks on the part", [die.part_block(block) for block in range(plan["blocks"])], self.part.block_of)
        if self.dice.randrange(2):
            try:
                die.begin(9)
            except maulgreen.Refusal as refusal:
                self.same("a slot while the checkpoint stands", refusal.name, "CheckpointStands")
            else:
                raise AssertionError("a slot begins while the checkpoint stands")
        die.checkpoint_void()
        self.plan, self.longest, self.life = plan, longest, life_within(plan, longest)
        rules.resumed(plan, self.life, Stood(taken.places, taken.blocks, taken.spare, taken.balances))
        self.note("resumed")
        return die

    def unresumed(self, plan, longest, taken, wanted):
        try:
            maulgreen.Planned(*self.given(plan), longest, taken).close()
        except maulgreen.Refusal as refusal:
            self.same("a die that goes on", (refusal.name, refusal.first, refusal.second, refusal.third), wanted)
            self.note(refusal.name)
            return
        raise AssertionError(f"a die goes on, and by the rules {wanted}")

    def mounts(self, rules, may):
        """A mount of what the cells show, and the die and the rules from there on; `may` has what pages may hold."""
        part, blocks = self.part, self.plan["blocks"]
        erases = part.erases_told(blocks + 1)
        plan, tasks, terms = self.given(self.plan)
        with maulgreen.Mount(plan, tasks) as mount:
            while (step := mount.step()).kind != maulgreen.NEEDS_NOTHING:
                if self.dice.randrange(30) == 0:
                    self.unmounted(mount, terms, self.longest, ("WrongStep", 0, 0, 0))
                if step.kind == maulgreen.TELL_BLOCK:
                    mount.tell(part.labels(step.block, 4))
                    continue
                if step.kind == maulgreen.READ_PAGE:
                    read = part.read((step.block, step.page))
                elif step.kind == maulgreen.PROGRAM_PAGE:
                    self.same("the erases of a label", step.erases, erases[step.block])
                    part.program((step.block, step.page), read, step.logical, step.serial, step.erases)
                else:
                    part.erase_slot(step.block, step.last)
                    erases[step.block] += step.last
                mount.done()
                if self.dice.randrange(300) == 0:
                    part.cut()
                    self.note("cuts of mounts")
                    return self.mounts(rules, may)
            newest = {}
            for label in part.cells.values():
                if label and label[2] > newest.get(label[1], (-1,))[0]:
                    newest[label[1]] = label[2], label[0]
            names = [newest.get(page, (0, maulgreen.BLANK))[1] for page in range(self.plan["logical"])]
            changed, longest = self.changed()
            wanted = resume_refusal(changed, longest, [task.cap for task in tasks])
            if wanted:
                self.unmounted(mount, self.given(changed)[2], longest, wanted)
                changed, longest = self.plan, self.longest
            self.unmounted(mount, terms + terms[:1], longest, ("BadTerms", 0, 0, 0))
            die = mount.end_planned(self.given(changed)[2], longest, names)
        self.plan, self.longest, self.life = changed, longest, life_within(changed, longest)
        part.begins(die, blocks)
        taken = die.checkpoint()
        for page, (at, name) in enumerate(zip(taken.places, taken.names)):
            assert name in may[page], f"page {page} has {name.hex()} after a mount"
            if at:
                self.same("a page of a mounted die", part.read((part.block_of[at[0]], at[1])), name)
        self.same("erases", [block.erases for block in taken.blocks], [erases[block] for block in part.block_of])
        self.same("full accounts", taken.balances, [task.cap for task in tasks])
        serial = die.serial()
        assert all(label is None or label[2] < serial for label in part.cells.values()), "a serial comes again"
        self.note("mounts")
        return die, Ongoing.mounted(self.plan, self.life, Stood(taken.places, taken.blocks, taken.spare, taken.balances), taken.names, serial)

    def unmounted(self, mount, terms, longest, wanted):
        try:
            mount.end_planned(terms, longest, []).close()
        except maulgreen.Refusal as refusal:
            self.same("a mounted die", (refusal.name, refusal.first, refusal.second, refusal.third), wanted)
            self.note("mount " + refusal.name)
            return
        raise AssertionError(f"a mounted die begins, and by the rules {wanted}")

    def loses_power(self, die, rules, call=None):
        """The power goes, between two slots or in one; and a mount. The die and the rules of then."""
        held = [bytes.fromhex(name) for name in rules.die.flash.bytes]
        # a page that was trimmed may come back
        may = [{name} if at else {name} | self.ever[page] for page, (at, name) in enumerate(zip(rules.die.flash.at, held))]
        if call and call.kind == maulgreen.PROGRAM_CELL:
            if self.part.cut((self.part.block_of[call.block], call.page), call.name, call.logical, die.serial(), call.erases):
                self.ever[call.logical].add(call.name)
                may[call.logical].add(call.name)
        else:
            if call and call.kind == maulgreen.ERASE_SLOT:
                self.part.erasing.add(self.part.block_of[call.block])
            self.part.cut()
        self.note("cuts in a slot" if call else "cuts")
        die.close()
        return self.mounts(rules, may)

    def slot(self, die, rules):
        ended = rules.begin()
        try:
            call = die.begin(9)
        except maulgreen.Refusal as refusal:
            self.same("a slot", refusal.name, ended)
            return die, rules
        assert ended is None, f"a slot began, and by the rules {ended}"
        if self.dice.randrange(self.cutting) == 0:
            return self.loses_power(die, rules, call)
        if self.dice.randrange(9) == 0:
            try:
                die.checkpoint()
            except maulgreen.Refusal as refusal:
                self.same("a checkpoint within a slot", (refusal.name, refusal.first), ("Begun", 0))
            else:
                raise AssertionError("a checkpoint within a slot")
        if self.dice.randrange(4) == 0:
            self.same("an ask within a slot", asked(die, False, 0, [("R", 0, "")]), ("Begun", 0, 0))
            self.same("the clock", die.clock(), rules.first + rules.die.now)
        fails = self.dice.randrange(self.failing) == 0
        at = self.part.block_of[call.block], call.page
        gave = self.part.read(at) if call.kind == maulgreen.READ_CELL else maulgreen.BLANK
        if not fails and call.kind == maulgreen.PROGRAM_CELL:
            self.part.program(at, call.name, call.logical, die.serial(), call.erases)
            self.same("the erases of a label", call.erases, rules.die.flash.blocks[call.block].erases)
            self.ever[call.logical].add(call.name)
        if not fails and call.kind == maulgreen.ERASE_SLOT:
            self.part.erase_slot(at[0], call.last)
        wanted = rules.end(fails)
        try:
            reply = die.end(not fails, gave)
        except maulgreen.Refusal as refusal:
            self.same("an end", refusal.name, wanted)
            self.note(refusal.name)
            return die, rules
        slot, waived, head, act, last = wanted
        self.same("a reply", (reply.slot, [tuple(w) for w in reply.waived], reply.job, (reply.act, reply.page), reply.finished, reply.caller),
                  (slot, waived, head or 0, said(act), last, 9))
        self.same("a call", (call.kind, call.block, call.page), call_of(rules.die.flash.last_call, act))
        self.same("a serial", die.serial(), rules.serial)
        self.note("slots")
        return die, rules

    def outcomes(self, die, rules):
        life = die.life()
        self.same("a life", tuple(life), (rules.first, rules.life, rules.die.now))
        self.same("the clock", die.clock(), rules.first + rules.die.now)
        self.same("what waits", [die.waiting(at) for at in range(len(rules.tasks) + 1)], [len(ops or ()) for ops in rules.waiting] + [0])
        for item in self.dice.sample(rules.die.items, min(3, len(rules.die.items))):
            made, done = die.outcome(item.number), item.end is not None
            if item.end is WAIVED:
                wanted = (maulgreen.WAIVED, 0, 0, item.given, [])
            elif done:
                wanted = (maulgreen.DONE, item.end, item.lateness(), item.given if item.collects() else 0, [bytes.fromhex(read) for read in item.reads])
                assert item.lateness() <= 0, "something is late"
            else:
                wanted = (maulgreen.WAITING, 0, 0, 0, [])
            self.same(f"outcome {item.number}", tuple(made), wanted)
            head = die.job(item.number)
            self.same("a job", tuple(head), (item.collects(), item.task, item.release, item.due))
        page = self.dice.randrange(self.plan["logical"])
        self.same("a place", die.place(page), rules.die.flash.at[page])

    def play(self):
        die = self.made()
        if die is None:
            return
        rules = Ongoing(self.plan, self.life)
        self.part.begins(die, self.plan["blocks"])
        self.failing = self.dice.choice((10**9, 10**9, 200))
        self.cutting, shuts = self.dice.choice((10**9, 10**9, 150)), self.dice.choice((10**9, 10**9, 40))
        for _ in range(self.dice.choice((100, 400, 1000))):
            for _ in range(self.dice.choice((0, 0, 0, 1, 2))):
                self.asks(die, rules)
            die, rules = self.slot(die, rules)
            if self.dice.randrange(20) == 0:
                self.outcomes(die, rules)
            if shuts < 10**9 and (rules.die.now == rules.life or self.dice.randrange(shuts) == 0):
                die = self.shuts_down(die, rules)
            if self.cutting < 10**9 and (rules.die.stopped or self.dice.randrange(self.cutting) == 0):
                die, rules = self.loses_power(die, rules)
        self.note("lives" if rules.first else "one life")
        die.close()


def main():
    count, seed = int(sys.argv[1]), sys.argv[2]
    counts = {}
    for at in range(count):
        history = History(random.Random(f"{seed} {at}"))
        try:
            history.play()
        except AssertionError as wrong:
            print(f"wrong: history {at} of seed {seed}: {wrong}")
            return 1
        for word, times in history.counts.items():
            counts[word] = counts.get(word, 0) + times
    print(f"right: {count} histories,", ", ".join(f"{word} {counts[word]}" for word in sorted(counts)))
    return 0


help_if_asked(__doc__, 2)
sys.exit(main())

#!/usr/bin/env -S python3 -B
"""The rules of one die (docs/RULES.md), read a second time: plays the histories of crates/test_die_plays/data by them, and
writes those that are made by seeds. It reads nothing of the program, and is in no hurry: what can be counted is counted
anew.

    .ci/second_reading/plain_die.py check [FILE..]    plays these files, or all; names each line that the rules answer otherwise
    .ci/second_reading/plain_die.py write             writes the files that are made
    .ci/second_reading/plain_die.py written           names each of them that isn't what it would write

Ends with 1 where it names one. crates/test_die_plays/README.md has the words of a text."""
import copy
import sys
from pathlib import Path

sys.path.insert(0, str(Path(__file__).resolve().parents[1]))
from common.repository import CRATES, help_if_asked

DATA = CRATES / "test_die_plays/data"
LAST_SLOT = 1_048_576
MOST_JOBS = 65_536
MOST_OPS = 64
MOST_ERASES = 4_293_918_718
BLANK = "ff" * 16


class Refused(Exception):
    """A refusal, as it prints itself."""


class Fault(Exception):
    """The device fails."""


# The flash

class Block:
    def __init__(self, pages):
        self.cells, self.erases, self.begun = [None] * pages, 0, 0

    def used(self):
        return sum(cell is not None for cell in self.cells)

    def is_full(self):
        return self.used() == len(self.cells)

    def is_open(self):
        return self.used() > 0 and not self.is_full()

    def is_closed(self):
        return self.is_full() and self.begun == 0


class Flash:
    """Blocks and pages on a device that fails after a number of calls."""

    def __init__(self, blocks, pages, erase_slots, logical, calls):
        self.erase_slots, self.calls = erase_slots, calls
        self.blocks = [Block(pages) for _ in range(blocks)]
        self.at = [None] * logical
        self.bytes = [BLANK] * logical
        self.last_call = None

    def call(self, words):
        if self.calls == 0:
            raise Fault
        self.calls -= 1
        self.last_call = words

    def read(self, page):
        if self.at[page] is not None:
            self.call("read block %d page %d" % self.at[page])
        return self.bytes[page]

    def first_valid(self, block):
        for cell, page in enumerate(self.blocks[block].cells):
            if page is not None and self.at[page] == (block, cell):
                return page
        return None

    def valid(self, block):
        return sum(at is not None and at[0] == block for at in self.at)

    def victim(self, taken):
        keys = [(self.valid(number), block.erases, number) for number, block in enumerate(self.blocks)
                if block.is_closed() and number not in taken]
        return min(keys)[2]

    def program(self, page, content):
        blocks = list(enumerate(self.blocks))
        opened = [number for number, block in blocks if block.is_open()]
        free = [number for number, block in blocks if block.used() == 0]
        number = (opened or free)[0]
        cell = self.blocks[number].used()
        self.call(f"program block {number} page {cell}={short(content)}")
        self.blocks[number].cells[cell] = page
        self.at[page], self.bytes[page] = (number, cell), content

    def trim(self, page):
        self.at[page], self.bytes[page] = None, BLANK

    def erase(self, number):
        """Does one slot of an erase. Whether it was the last one."""
        self.call(f"erase block {number}")
        block = self.blocks[number]
        block.begun += 1
        if block.begun < self.erase_slots:
            return False
        block.cells = [None] * len(block.cells)
        block.begun, block.erases = 0, block.erases + 1
        return True

    def free(self):
        return sum(len(block.cells) - block.used() for block in self.blocks)


# The accounts

class Accounts:
    def __init__(self, plan):
        reserve = plan.pages - plan.alpha
        self.plan = plan
        self.spare = plan.blocks * plan.pages - sum(cap + reserve for cap in plan.caps)
        self.balance = list(plan.caps)
        self.hold = [0 for _ in plan.caps]
        self.reserve = [reserve for _ in plan.caps]

    def give(self, task):
        given = min(self.plan.alpha, self.plan.caps[task] - self.balance[task] - self.hold[task])
        self.balance[task] += given
        return given

    def waive(self, task):
        given = self.give(task)
        self.spare -= given
        return given

    def settle(self, task, copied):
        given = self.give(task)
        self.reserve[task] += copied
        self.spare += self.plan.pages - copied - given
        return given

    def owned(self):
        return self.spare + sum(self.balance) + sum(self.hold) + sum(self.reserve)


# Plans

class Plan:
    def __init__(self, numbers, caps, common=None, tasks=None):
        self.blocks, self.pages, self.erase_slots, self.logical, self.alpha = numbers
        self.caps, self.common, self.tasks = caps, common, tasks

    def line(self, word="die"):
        numbers = (self.blocks, self.pages, self.erase_slots, self.logical, self.alpha)
        return f"{word},{','.join(map(str, numbers))},{' '.join(map(str, self.caps))}"

    def timed_line(self):
        tasks = " ".join(str(number) for task in self.tasks for number in task)
        return self.line(f"timed,{self.common},{tasks}")

    def refusal(self):
        if not (2 <= self.blocks <= 1024 and 2 <= self.pages <= 256 and 1 <= self.erase_slots <= 64):
            return "BadShape"
        within = (1 <= len(self.caps) <= 16 and self.logical >= 1 and 1 <= self.alpha <= self.pages
                  and all(cap >= 1 for cap in self.caps))
        return None if within and self.meets_bound() else "BadPlan"

    def meets_bound(self):
        tasks = len(self.caps)
        fmax = self.alpha - 1 + tasks * (self.pages - self.alpha) + sum(self.caps)
        closed = self.blocks - fmax // self.pages - tasks
        return closed > 0 and closed * (self.pages - self.alpha + 1) > self.logical

    def collection(self):
        """The most slots that a collection takes."""
        return 2 * (self.pages - self.alpha) + self.erase_slots

    def has_times(self):
        """Whether each task has its times."""
        return self.tasks is not None and len(self.tasks) == len(self.caps)

    def load(self):
        if not self.has_times():
            raise Refused("BadPlan")
        demand = 0
        for cap, (period, collects, work, writes) in zip(self.caps, self.tasks):
            if (self.common % period or self.common % collects or writes * collects > self.alpha * period
                    or cap < 2 * writes + 2 * self.alpha):
                raise Refused("BadPlan")
            demand += work * (self.common // period) + self.collection() * (self.common // collects)
        if demand > self.common:
            raise Refused("BadPlan")
        return f"demand {demand} common {self.common}"

    def is_kept(self, events):
        """Whether events keep the plan's times."""
        slots = events.count(("slot",))
        if not self.has_times() or slots > LAST_SLOT or len(events) - slots > MOST_JOBS:
            return False
        now, last, asked = 0, {}, []
        for event in events:
            if event[0] == "slot":
                for task, (_, collects, _, _) in enumerate(self.tasks):
                    if now % collects == 0 and now <= LAST_SLOT - collects and (task, now) not in asked:
                        return False
                now, asked = now + 1, []
                continue
            kind, task, release, due = event[:4]
            if task >= len(self.tasks) or release != now or due > LAST_SLOT:
                return False
            period, collects, work, writes = self.tasks[task]
            if kind == "collect":
                if now % collects or now >= slots or due != release + collects or (task, now) in asked:
                    return False
                asked.append((task, now))
                continue
            ops = event[4]
            if due != release + period or not 1 <= len(ops) <= work or any(op[1] >= self.logical for op in ops):
                return False
            if sum(op[0] == "W" for op in ops) > writes or release < last.get(task, -period) + period:
                return False
            last[task] = release
        return True


# Jobs and collections

class Item:
    def __init__(self, number, task, release, due, ops):
        self.number, self.task, self.release, self.due, self.ops = number, task, release, due, ops
        self.key = (due, number)
        self.done, self.reads, self.end = 0, [], None
        self.victim, self.buffer, self.copied, self.given = None, None, 0, 0

    def collects(self):
        return self.ops is None

    def lateness(self):
        return self.end - self.due


WAIVED = "waived"


def told_certificate(job, start, completion, numbers):
    return f"job {job.number} start {start} due {job.due} completion {completion} of {' '.join(map(str, numbers))}"


# Checkpoints

class Stood:
    def __init__(self, places, blocks, spare, balances):
        self.places, self.blocks, self.spare, self.balances = places, blocks, spare, balances

    def told(self):
        places = " ".join("-" if at is None else f"{at[0]}/{at[1]}" for at in self.places)
        blocks = " ".join(f"{used}/{erases}" for used, erases in self.blocks)
        return f"pages {places} blocks {blocks} spare {self.spare} balances {' '.join(map(str, self.balances))}"

    def fault(self, plan):
        """The first cause for which it doesn't fit a plan, if there is one."""
        sizes = (len(self.blocks), len(self.places), len(self.balances))
        if sizes != (plan.blocks, plan.logical, len(plan.caps)):
            return "other shape"
        if plan.refusal():
            return "bad plan"
        used = [block[0] for block in self.blocks]
        opened = [number for number, pages in enumerate(used) if 0 < pages < plan.pages]
        accounts = self.spare + sum(self.balances) + len(plan.caps) * (plan.pages - plan.alpha)
        free = sum(plan.pages - pages for pages in used)
        causes = (
            ("overfull", [number for number, pages in enumerate(used) if pages > plan.pages]),
            ("second open", opened[1:]),
            ("worn", [number for number, block in enumerate(self.blocks) if block[1] > MOST_ERASES]),
            ("unprogrammed", [page for page, at in enumerate(self.places)
                              if at and not (at[0] < plan.blocks and at[1] < used[at[0]])]),
            ("above cap", [task for task, cap in enumerate(plan.caps) if self.balances[task] > cap]),
            ("accounts", [f"{accounts} free {free}"] if accounts != free else []),
            ("shared", [page for page, at in enumerate(self.places) if at and at in self.places[:page]]),
        )
        return next((f"{name} {where[0]}" for name, where in causes if where), None)


class Die:
    def __init__(self, plan, calls):
        self.plan = plan
        self.flash = Flash(plan.blocks, plan.pages, plan.erase_slots, plan.logical, calls)
        self.accounts = Accounts(plan)
        self.lasting, self.stopped = 0, False
        self.start()

    def start(self):
        """A life begins."""
        self.now, self.items, self.pending, self.finished = 0, [], [], []
        self.reserved = self.lasting
        self.carried, self.entries, self.records, self.last = [], 0, 0, None

    def refuse_times(self, task, release, due):
        if release < self.now:
            raise Refused(f"ReleasePast {self.now}")
        if not release < due <= LAST_SLOT:
            raise Refused("BadDue")

    def take(self, task, release, due, ops):
        item = Item(len(self.items), task, release, due, ops)
        self.items.append(item)
        self.pending.append(item)
        self.entries, self.records, self.last = self.entries + 1, self.records + 1, None
        return item.number

    def submit(self, task, release, due, ops):
        if self.stopped:
            raise Refused("DieStopped")
        if task >= len(self.plan.caps):
            raise Refused("UnknownTask")
        if not ops:
            raise Refused("EmptyJob")
        if len(ops) > MOST_OPS:
            raise Refused("TooManyOps")
        for op in ops:
            if op[1] >= self.plan.logical:
                raise Refused(f"BadPage {op[1]}")
        self.refuse_times(task, release, due)
        if len(self.items) == MOST_JOBS:
            raise Refused("JobsFull")
        have, need = self.accounts.balance[task], sum(op[0] == "W" for op in ops)
        if have < need:
            raise Refused(f"NoTokens {have} {need}")
        self.accounts.balance[task] -= need
        self.accounts.hold[task] += need
        return self.take(task, release, due, ops)

    def collect(self, task, release, due):
        if self.stopped:
            raise Refused("DieStopped")
        if task >= len(self.plan.caps):
            raise Refused("UnknownTask")
        self.refuse_times(task, release, due)
        if any(item.collects() and item.task == task for item in self.pending):
            raise Refused("CollectorBusy")
        if len(self.items) == MOST_JOBS:
            raise Refused("JobsFull")
        return self.take(task, release, due, None)

    def head(self):
        return min((item for item in self.pending if item.release <= self.now), key=lambda item: item.key, default=None)

    def slot(self):
        """Carries out a slot: its number, what is waived before it, who has it, the act, and whether that is done."""
        if self.stopped:
            raise Refused("DieStopped")
        if self.now == LAST_SLOT:
            raise Refused("ClockEnd")
        before = copy.deepcopy(self.__dict__) if self.flash.calls < 1000 else None
        try:
            return self.carry_out()
        except Fault:
            self.__dict__.update(before)
            self.stopped = True
            raise Refused("DeviceFault")

    def carry_out(self):
        waived, head = [], self.head()
        while head and head.collects() and head.victim is None and self.accounts.spare >= self.plan.alpha:
            head.end, head.given = WAIVED, self.accounts.waive(head.task)
            self.pending.remove(head)
            waived.append((head.number, head.given))
            head = self.head()
        act, last = self.act(head) if head else (None, False)
        slot, self.now = self.now, self.now + 1
        if last:
            self.finish(head)
        self.note(waived, head, act, last)
        return slot, waived, head and head.number, act, last

    def act(self, head):
        return self.collection_act(head) if head.collects() else self.job_act(head)

    def job_act(self, job):
        kind, page, content = job.ops[job.done]
        if kind == "R":
            content = self.flash.read(page)
            job.reads.append(content)
            act = f"R{page}={short(content)}"
        elif kind == "W":
            self.flash.program(page, content)
            self.accounts.hold[job.task] -= 1
            act = f"W{page}={short(content)}"
        else:
            self.flash.trim(page)
            act = f"T{page}"
        job.done += 1
        return act, job.done == len(job.ops)

    def collection_act(self, item):
        flash = self.flash
        if item.victim is None:
            item.victim = flash.victim({other.victim for other in self.pending if other.collects()})
        if item.buffer is not None:
            page, at, content = item.buffer
            item.buffer = None
            if flash.at[page] == at:
                flash.program(page, content)
                self.accounts.reserve[item.task] -= 1
                item.copied += 1
                return f"copy-in{page}", False
        page = flash.first_valid(item.victim)
        if page is not None:
            item.buffer = (page, flash.at[page], flash.read(page))
            return f"copy-out{page}", False
        return f"erase{item.victim}", flash.erase(item.victim)

    def finish(self, item):
        item.end = self.now
        if item.collects():
            item.given = self.accounts.settle(item.task, item.copied)
        self.pending.remove(item)
        self.finished.append(item)

    def note(self, waived, head, act, last):
        """A slot is in the log. Idle slots side by side are one record, and so are slots of one erase; but a slot that
        waives or ends something is a record of its own."""
        alike = None
        if not waived and not last and (act is None or act.startswith("erase")):
            alike = ("idle",) if act is None else ("erase", head.number)
        self.entries += 1
        self.records += alike is None or alike != self.last
        self.last = alike
        self.carried.append(head)
        self.reserved = max(self.reserved - 1, 0)

    def overdue(self):
        """Of what waits, is released and due by the present slot, the one with the least key; of a stopped die none."""
        if self.stopped:
            return None
        waiting = [item for item in self.pending if item.release <= self.now and item.due <= self.now]
        return min(waiting, key=lambda item: item.key, default=None)

    def worst(self):
        """Of the greatest lateness the one that was done first."""
        return max(self.finished, key=lambda item: item.lateness(), default=None)

    def certificate(self, job, carried, completion):
        start = completion
        while start and carried[start - 1] is not None and carried[start - 1].key <= job.key:
            start -= 1
        stretch = carried[start:completion]
        # What a certificate is for: no slot idle, nothing released before it or due after the job.
        assert all(item.release >= start and item.due <= job.due for item in stretch)
        return told_certificate(job, start, completion, sorted({item.number for item in stretch}))

    def built(self, number, carried):
        """The certificate of a job where the slots carried these numbers, which may be others than they did. There is none
        where it isn't done within these slots, or where what it lists doesn't fill its slots. A number without a row ends
        it."""
        rows = {item.number: item for item in self.items if item.end is not WAIVED}
        job = rows.get(number)
        if job is None or job.end is None or job.end > len(carried):
            return "none"
        start = job.end
        while start and carried[start - 1] in rows and rows[carried[start - 1]].key <= job.key:
            start -= 1
        numbers = sorted(set(carried[start:job.end]))
        listed = [rows[number] for number in numbers]
        work = sum(other in listed for other in self.carried)
        if not listed or work != job.end - start or any(item.end is None or item.release < start for item in listed):
            return "none"
        return told_certificate(job, start, job.end, numbers)

    def outcome(self, number):
        if number >= len(self.items):
            raise Refused("UnknownJob")
        item = self.items[number]
        if item.end is None:
            return "waiting"
        if item.end == WAIVED:
            return f"waived given {item.given}"
        return " ".join([f"done {item.end} late {item.lateness()} given {item.given}", *map(short, item.reads)])

    def rows(self):
        rows = []
        for item in self.items:
            if item.end is WAIVED:
                continue
            work = sum(other is item for other in self.carried)
            end = "-" if item.end is None else item.end
            rows.append(f"row {item.number} {item.release} {item.due} {work} {end}")
        return " ".join(rows)

    def not_quiet(self):
        """Why no life ends here, if none does."""
        if self.stopped:
            return "stopped"
        head = self.head()
        if head is None:
            head = min(self.pending, key=lambda item: (item.release, item.key), default=None)
        if head is not None:
            return f"waits {head.number}"
        for number, block in enumerate(self.flash.blocks):
            if block.erases > MOST_ERASES:
                return f"worn {number}"
        return None

    def renew(self):
        why = self.not_quiet()
        if why is None:
            self.start()
        return why or "ok"

    def stood(self):
        """What stands where a life ends: places, by block its programmed pages and erases, the spare pages, the balances."""
        accounts = self.accounts
        assert not any(accounts.hold) and all(own == self.plan.pages - self.plan.alpha for own in accounts.reserve)
        return Stood(list(self.flash.at), [(block.used(), block.erases) for block in self.flash.blocks], accounts.spare,
                     list(accounts.balance))

    def checkpoint(self):
        return self.not_quiet() or self.stood().told()

    def resume(self, plan, stood):
        """Another die goes on with the device, by this plan. Why it doesn't, if it doesn't."""
        why = stood.fault(plan)
        if (plan.blocks, plan.pages, plan.erase_slots) != (self.plan.blocks, self.plan.pages, self.plan.erase_slots):
            why = "other device"
        if why is None:
            self.plan, self.accounts = plan, Accounts(plan)
            self.accounts.spare, self.accounts.balance = stood.spare, list(stood.balances)
            self.flash.at = list(stood.places)
            self.flash.bytes = [BLANK if at is None else content for at, content in zip(stood.places, self.flash.bytes)]
        self.lasting = 0
        self.start()
        return why or "ok"

    def settle(self):
        """Carries out slots until all is done or was waived. How many these were."""
        first = self.now
        while self.pending and self.now < LAST_SLOT:
            self.slot()
        return self.now - first

    def checkpoint_records(self):
        """What stands at a quiet moment, as the records of a checkpoint's text without the one that ends a die."""
        assert not self.pending
        records = []
        for at, content in zip(self.flash.at, self.flash.bytes):
            records.append(f"page,{at[0]},{at[1]},{content}" if at else "page,,,")
        records += [f"block,{block.used()},{block.erases}" for block in self.flash.blocks]
        return records + [f"task,{balance}" for balance in self.accounts.balance]

    def next(self):
        """What the next slot will do, and by which call of the device."""
        other = copy.deepcopy(self)
        other.flash.last_call = None
        _, _, number, act, _ = other.slot()
        if act is None:
            return "idle"
        told = f"{number} {act.split('=')[0]}"
        return told if other.flash.last_call is None else f"{told} by {other.flash.last_call}"

    def is_balanced(self):
        return self.flash.free() == self.accounts.owned()


# Texts

def short(content):
    """Of sixteen equal bytes the digits of one."""
    return content[:2] if content == content[:2] * 16 else content


def ops_in(field):
    ops = []
    for words in field.split(" ") if field else []:
        word, _, times = words.partition("*")
        page, _, content = word[1:].partition("=")
        op = (word[0], int(page), content * 16 if len(content) == 2 else content)
        ops += [op] * int(times or 1)
    return ops


def numbers_in(field):
    return [int(word) for word in field.split(" ")] if field else []


def pairs_in(field):
    return [None if word == "-" else tuple(map(int, word.split("/"))) for word in field.split(" ")]


def stood_in(fields):
    return Stood(pairs_in(fields[0]), pairs_in(fields[1]), int(fields[2]), numbers_in(fields[3]))


def plan_in(fields, common=None, tasks=None):
    return Plan([int(field) for field in fields[:5]], numbers_in(fields[5]), common, tasks)


def event_in(fields):
    if fields[0] == "slot":
        return ("slot",)
    numbers = tuple(map(int, fields[1:4]))
    return (fields[0], *numbers) if fields[0] == "collect" else ("job", *numbers, ops_in(fields[4]))


def events_in(fields):
    if fields[0] in ("job", "collect", "slot"):
        return [event_in(fields)]
    if fields[0] in ("slots", "pass"):
        return [("slot",)] * int(fields[1])
    return []


def reported_slot(reply):
    slot, waived, number, act, last = reply
    words = [f"{slot}:"] + [f"waived {number} given {given}" for number, given in waived]
    words.append("idle" if act is None else f"{number} {act}")
    return " ".join(words + [f"done {number}"] * last)


class Player:
    """Answers the lines of a text by the rules."""

    def __init__(self):
        self.die, self.asked, self.put = None, [], []

    def answer(self, line):
        fields = line.split(",")
        try:
            return str(self.carry(fields[0], fields))
        except Refused as refusal:
            return str(refusal)

    def begin(self, name, fields):
        calls, common, tasks, first = 10 ** 9, None, None, 1
        if name == "fused":
            calls, first = int(fields[1]), 2
        if name == "timed":
            numbers, common, first = numbers_in(fields[2]), int(fields[1]), 3
            tasks = [tuple(numbers[place:place + 4]) for place in range(0, len(numbers), 4)]
        plan = plan_in(fields[first:], common, tasks)
        if plan.refusal():
            raise Refused(plan.refusal())
        self.die, self.asked, self.put = Die(plan, calls), [], []
        return "ok"

    def carry(self, name, fields):
        if name in ("die", "fused", "timed"):
            return self.begin(name, fields)
        if name == "put":
            self.put += events_in(fields[1:])
            self.asked += events_in(fields[1:])
            return "ok"
        if name == "run":
            events, self.put = self.put, []
            return " ".join(self.reply(event) for event in events)
        self.asked += events_in(fields)
        return self.ask(name, fields)

    def reply(self, event):
        try:
            if event[0] == "slot":
                return reported_slot(self.slot())
            take = self.die.submit if event[0] == "job" else self.die.collect
            return f"taken {take(*event[1:])}"
        except Refused as refusal:
            return str(refusal)

    def slot(self):
        reply = self.die.slot()
        assert self.die.is_balanced(), "the parts of the accounts don't sum to the free pages"
        return reply

    def resume(self, name, fields):
        die, own = self.die, self.die.stood()
        if name == "resume-from":
            given = stood_in(fields)
            return die.resume(die.plan, given) if given.fault(die.plan) else "fits"
        return die.resume(plan_in(fields) if name == "resume-as" else die.plan, own)

    def ask(self, name, fields):
        die = self.die
        if name == "job":
            return die.submit(*event_in(fields)[1:])
        if name == "jobs":
            event = event_in(["job", *fields[1:5]])[1:]
            return [die.submit(*event) for _ in range(int(fields[5]))][-1]
        if name == "collect":
            return die.collect(*event_in(fields)[1:])
        if name in ("slot", "at-once"):
            return reported_slot(self.slot())
        if name in ("slots", "pass"):
            replies = [self.slot() for _ in range(int(fields[1]))]
            numbers = ["-" if act is None else str(number) for _, _, number, act, _ in replies]
            return " ".join(numbers) if name == "slots" else "ok"
        if name == "reserve":
            die.reserved, die.lasting = (max(had, int(fields[1])) for had in (die.reserved, die.lasting))
            return "ok"
        if name == "outcome":
            return die.outcome(int(fields[1]))
        if name == "built":
            return die.built(int(fields[1]), numbers_in(fields[2]))
        if name == "overdue":
            item = die.overdue()
            return f"job {item.number} due {item.due} late {die.now + 1 - item.due}" if item else "none"
        worst = die.worst()
        if name == "worst":
            return f"job {worst.number} late {worst.lateness()}" if worst else "none"
        if name == "certificate":
            return die.certificate(worst, die.carried, worst.end) if worst else "none"
        if name == "verdict":
            return "holds" if worst and die.certificate(worst, die.carried, worst.end) else "none"
        if name == "load":
            return die.plan.load()
        if name == "keeps":
            return "yes" if die.plan.is_kept(self.asked) else "no"
        if name in ("resume", "resume-as", "resume-from"):
            return die.not_quiet() or self.resume(name, fields[1:])
        if name in ("rows", "renew", "next", "checkpoint"):
            return getattr(die, name)()
        return getattr(die, name)


def paragraphs(text):
    """The paragraphs of a text, each with its name, if it has one, and its lines with their numbers."""
    name, lines = None, []
    for number, line in enumerate(text.split("\n"), 1):
        if not line and lines:
            yield name, lines
            name, lines = None, []
        elif line.startswith("named,"):
            name = line.partition(",")[2]
        elif line and not line.startswith("#"):
            lines.append((number, line))
    if lines:
        yield name, lines


def differences(text):
    """The lines that the rules answer otherwise, each with that answer."""
    player, named = Player(), {}
    for name, lines in paragraphs(text):
        if lines[0][1].startswith("after,"):
            lines = named[lines[0][1].partition(",")[2]] + lines[1:]
        if name:
            named[name] = lines
        for number, line in lines:
            asked, _, wanted = line.rpartition(",")
            got = player.answer(asked)
            if got != wanted:
                yield number, line, got


class Writer:
    """Writes histories: each line with its answer."""

    def __init__(self, *comment):
        self.text = [f"# {line}" for line in comment]
        self.player = Player()

    def paragraph(self, *comment):
        self.text += [""] + [f"# {line}" for line in comment]
        self.player = Player()

    def ask(self, line):
        answer = self.player.answer(line)
        self.text.append(f"{line},{answer}")
        return answer

    def whole(self):
        return "\n".join(self.text) + "\n"


MADE = "Written by .ci/second_reading/plain_die.py, by the rules alone."

TIGHT = Plan((4, 4, 3, 5, 2), [4])

FILLS = """job,0,0,100,W0=00 W1=01 W4=04*2
slots,4
collect,0,4,5
slot
job,0,5,7,W2=02 W4=04
slots,2
collect,0,7,8
slot
job,0,8,10,W4=04*2
slots,2
collect,0,10,11
slot
job,0,11,13,W3=03 W4=04
slots,2
collect,0,13,14
slot
job,0,14,16,W4=04*2
slots,2
collect,0,16,17
slot
job,0,17,19,W4=04*2
slots,2
collect,0,19,40""".split("\n") + ["slot"] * 5 + ["job,0,24,25,W4=04*5"]


def faults():
    """A history that calls the device nineteen times, which fails at each of them in turn."""
    out = Writer(
        MADE,
        "A history makes nineteen calls of the device. At whichever it fails, one slot tells the fault, and all later",
        "calls find the die stopped; up to there each is answered as without a fault, and the log keeps just those.")
    for calls in range(20):
        out.paragraph(f"The device passes {calls} calls." if calls < 19 else "The device passes all nineteen calls.")
        out.ask(TIGHT.line(f"fused,{calls}"))
        for line in FILLS:
            if line.startswith("slots"):
                for _ in range(int(line.split(",")[1])):
                    out.ask("slot")
            else:
                out.ask(line)
        die = out.player.die
        assert die.stopped == (calls < 19)
        for line in (f"job,0,{die.now},{die.now + 9},R0", f"collect,0,{die.now},{die.now + 9}", "slot"):
            if die.stopped:
                assert out.ask(line) == "DieStopped"
        for line in ("renew", "worst", "certificate", "verdict", "entries", "now"):
            if die.stopped or line != "renew":
                out.ask(line)
    return out.whole()


def op_words(ops):
    """Operations as they are written, equal ones side by side as one word."""
    words = []
    for kind, page, content in ops:
        word = f"{kind}{page}={short(content)}" if kind == "W" else f"{kind}{page}"
        if words and words[-1][0] == word:
            words[-1][1] += 1
        else:
            words.append([word, 1])
    return " ".join(word if times == 1 else f"{word}*{times}" for word, times in words)


def planned_events(plan, slots, ops_of):
    """Slot by slot, the lines of what each task asks for in it: its collection, and then its job."""
    for now in range(slots):
        lines = []
        for task, (period, collects, work, writes) in enumerate(plan.tasks):
            if now % collects == 0:
                lines.append(f"collect,{task},{now},{now + collects}")
            if now % period == 0:
                lines.append(f"job,{task},{now},{now + period},{op_words(ops_of(plan.tasks[task], now))}")
        yield lines


def play_planned(out, plan, slots, ops_of):
    """Plays the events of a plan, and tells in runs of slots who had them."""
    waiting = 0
    for lines in planned_events(plan, slots, ops_of):
        if lines and waiting:
            out.ask(f"slots,{waiting}")
            waiting = 0
        for line in lines:
            assert out.ask(line).isdigit()
        waiting += 1
    out.ask(f"slots,{waiting}")


def recorder_ops(plan):
    """Each write in turn of all pages but the last, and else of the last one; then reads."""
    def ops_of(task, now):
        period, _, work, writes = task
        first = now // period % (plan.logical - 1)
        written = [first] + [plan.logical - 1] * (writes - 1)
        return [("W", page, "11" * 16) for page in written] + [("R", 0, None)] * (work - writes)
    return ops_of


def planned():
    one_task = Plan((8, 4, 3, 14, 2), [8], 20, [(20, 20, 13, 2)])
    two_tasks = Plan((14, 4, 4, 3, 4), [16, 16], 60, [(20, 20, 13, 4), (60, 60, 5, 4)])
    out = Writer(MADE, "Dies whose events keep to a plan with times: none is refused, and nothing is late.")
    recorders = (
        (one_task, 600, "job 25 late 0",
         "One task, whose jobs take 13 of 20 slots, and a collection that copies two pages the other 7."),
        (two_tasks, 1200, "job 23 late 0", "Two tasks, whose collections copy nothing, take each slot of 60."))
    for plan, slots, worst, comment in recorders:
        out.paragraph(comment)
        out.ask(plan.timed_line())
        assert out.ask("load") == f"demand {plan.common} common {plan.common}"
        play_planned(out, plan, slots, recorder_ops(plan))
        assert out.ask("keeps") == "yes"
        assert out.ask("worst") == worst
        out.ask("verdict")
    out.paragraph("A job of a read and a write each 10 slots, a collection each 20: in runs of 20 slots.")
    plan = Plan((4, 4, 3, 2, 2), [6], 20, [(10, 20, 2, 1)])
    out.ask(plan.timed_line())
    assert out.ask("load") == "demand 11 common 20"
    for now, lines in enumerate(planned_events(plan, 400, lambda task, now: [("R", 0, None), ("W", 1, "11" * 16)])):
        for line in lines:
            out.ask(f"put,{line}")
        out.ask("put,slot")
        if now % 20 == 19:
            answer = out.ask("run")
            assert answer.count("taken") == 3 and answer.count(":") == 20
    assert out.ask("keeps") == "yes"
    assert " late -" in out.ask("worst")
    out.ask("verdict")
    out.paragraph("The same 60 events and 400 slots, given to one run.")
    out.ask(plan.timed_line())
    for lines in planned_events(plan, 400, lambda task, now: [("R", 0, None), ("W", 1, "11" * 16)]):
        for line in lines:
            out.ask(f"put,{line}")
        out.ask("put,slot")
    answer = out.ask("run")
    assert answer.count("taken") == 60 and answer.count(":") == 400
    assert out.ask("keeps") == "yes"
    assert " late -" in out.ask("worst")
    out.ask("verdict")
    return out.whole()


class Dice:
    """Numbers in a fixed order that looks random."""

    def __init__(self, seed):
        self.state = seed

    def next(self):
        self.state = (self.state * 1664525 + 1013904223) % 2 ** 32
        return self.state

    def roll(self, sides):
        return self.next() // 65536 % sides


CONTENTS = [byte * 16 for byte in ("11", "22", "33", "44")]


def counted(text):
    """How often each act stands in the slots of a history."""
    acts = {"trims": 0, "writes": 0, "copies": 0, "erases": 0, "waivers": 0, "refusals": 0}
    for line in text:
        asked, _, answer = line.rpartition(",")
        if asked == "slot":
            words = answer.split()
            acts["waivers"] += words[1] == "waived"
            for name, first in (("trims", "T"), ("writes", "W"), ("copies", "copy-in"), ("erases", "erase")):
                acts[name] += any(word.startswith(first) for word in words)
        elif asked.startswith(("job", "collect")):
            acts["refusals"] += not answer.isdigit()
    return acts


def ask_outcomes(out):
    for number in range(len(out.player.die.items)):
        out.ask(f"outcome,{number}")


def end_of_history(out, first, least):
    """What stands at the end, and how much of what a history is to show it has."""
    for line in ("worst", "certificate", "verdict", "entries"):
        out.ask(line)
    acts = counted(out.text[first:])
    for name, count in least.items():
        assert acts[name] > count, (name, acts)
    told = ", ".join(f"{count} {name}" for name, count in acts.items() if count)
    out.text.insert(first, f"# {told}")


def dense_arrival(dice, now):
    page, content = dice // 65536 % 17, CONTENTS[dice // 2097152 % 4]
    side = dice // 16777216 % 8
    if side <= 3:
        return f"job,0,{now},{now + 12},W{page}={content[:2]}"
    if side == 4:
        return f"job,0,{now},{now + 8},R{page}"
    if side == 5 and dice // 8388608 % 2 == 0:
        return f"job,0,{now},{now + 8},T{page}"
    return f"collect,0,{now},{now + 16}"


def dense():
    """An arrival in each slot, on as many logical pages as the plan's bound allows."""
    plan = Plan((8, 4, 3, 17, 2), [4])
    out = Writer(MADE, "An arrival in each slot, on as many logical pages as 8 blocks may keep: collections copy.")
    for seed in (7, 1974, 1973, 20040801):
        out.paragraph(f"Seed {seed}.")
        first, dice = len(out.text), Dice(seed)
        out.ask(plan.line())
        for now in range(3000):
            out.ask(dense_arrival(dice.next(), now))
            out.ask("slot")
        erases = sum(" erase" in line for line in out.text[first:])
        end_of_history(out, first, {"writes": 300, "trims": 100, "erases": 300, "copies": erases // 3 // 2})
    return out.whole()


def some_ops(dice, logical):
    ops = []
    for _ in range(dice.roll(3) + 1):
        page, side = dice.roll(logical), dice.roll(8)
        if side <= 5:
            ops.append(("W", page, CONTENTS[dice.roll(4)]))
        else:
            ops.append(("R" if side == 6 else "T", page, None))
    return op_words(ops)


def arrival(dice, plan, now):
    task = dice.roll(len(plan.caps))
    release = now + dice.roll(6) if dice.roll(4) == 0 else now
    due = release + dice.roll(24) + 1
    if dice.roll(3) == 0:
        return f"collect,{task},{release},{due}"
    return f"job,{task},{release},{due},{some_ops(dice, plan.logical)}"


def faulty(dice, plan, now):
    """A job with one fault or two."""
    release = (now - dice.roll(2)) % 2 ** 32
    task = dice.roll(len(plan.caps) + 1)
    due = (release + dice.roll(2)) % 2 ** 32
    return f"job,{task},{release},{due},{some_ops(dice, plan.logical + 2)}"


def arrivals(dice, plan, now):
    side = dice.roll(12)
    if side <= 7:
        return [arrival(dice, plan, now)]
    return [faulty(dice, plan, now)] if side == 8 else []


def ask_balances(out, plan, now, told):
    """A job of more writes than a task may have tokens: its refusal tells the balance. It comes where the balance has
    changed, and in each eighth slot."""
    for task, cap in enumerate(plan.caps):
        balance = out.player.die.accounts.balance[task]
        if now % 8 == 0 or told.get(task) != balance:
            out.ask(f"job,{task},{now},{now + 1},W0=ff*{cap + 1}")
            told[task] = balance


def by_chance(plan, copies, comment):
    """Arrivals in two of three slots, seldom a faulty one, on a plan at its bound."""
    more = Plan((plan.blocks, plan.pages, plan.erase_slots, plan.logical + 1, plan.alpha), plan.caps)
    fewer = Plan((plan.blocks - 1, plan.pages, plan.erase_slots, plan.logical, plan.alpha), plan.caps)
    assert plan.meets_bound() and not more.meets_bound() and not fewer.meets_bound()
    out = Writer(MADE, comment, "One page more, or one block less, and the plan would not meet its bound.")
    for seed in (7, 1974, 20040801):
        out.paragraph(f"Seed {seed}.")
        first, dice, told = len(out.text), Dice(seed), {}
        out.ask(plan.line())
        for now in range(2000):
            for line in arrivals(dice, plan, now):
                out.ask(line)
            ask_balances(out, plan, now, told)
            out.ask("slot")
        ask_outcomes(out)
        end_of_history(out, first, {"trims": 50, "copies": copies - 1, "erases": 50, "waivers": 5, "refusals": 300})
    out.paragraph("Seed 11, in runs of twenty slots.")
    dice = Dice(11)
    out.ask(plan.line())
    for now in range(200):
        for line in arrivals(dice, plan, now):
            out.ask(f"put,{line}")
        out.ask("put,slot")
        if now % 20 == 19:
            out.ask("run")
    out.ask("entries")
    return out.whole()


def lives():
    """Arrivals in two of three slots, and then none until all is done: a life ends, and what stands is told."""
    out = Writer(MADE, "Lives by chance, on plans at their bound. When one ends the die is renewed, or given up and resumed.")
    for seed, plan in ((7, Plan((3, 4, 3, 3, 1), [2])), (1974, Plan((8, 4, 3, 17, 2), [4])), (11, Plan((8, 4, 2, 15, 1), [2, 2]))):
        out.paragraph(f"Seed {seed}.")
        first, dice = len(out.text), Dice(seed)
        out.ask(plan.line())
        for _ in range(20):
            for now in range(40 + dice.roll(40)):
                for line in arrivals(dice, plan, now):
                    out.ask(line)
                out.ask("slot")
            while out.player.die.pending:
                assert out.ask("checkpoint").startswith("waits")
                out.ask("slot")
            for line in ("verdict", "checkpoint"):
                out.ask(line)
            assert out.ask("renew" if dice.roll(3) == 0 else "resume") == "ok"
        out.ask("checkpoint")
        resumed = sum(line == "resume,ok" for line in out.text[first:])
        assert 8 <= resumed <= 18, resumed
        end_of_history(out, first, {"writes": 100, "trims": 20, "erases": 50, "copies": 5})
    return out.whole()


def many_blocks():
    """Collections on 64 blocks, mostly with several closed ones of the fewest valid pages."""
    plan = Plan((64, 8, 3, 300, 4), [8])
    out = Writer(MADE, "Collections on 64 blocks of 8 pages: of many closed ones the victim has the fewest valid pages, of",
                 "equal ones the fewest erases, and of these the smallest number.")
    out.paragraph("Seed 1974.")
    first, dice = len(out.text), Dice(1974)
    out.ask(plan.line())
    die = out.player.die
    for round_ in range(900):
        ops = []
        for _ in range(4):
            page, side = dice.roll(plan.logical), dice.roll(8)
            # At first all pages are written in order, and half of what is written later is one of forty pages.
            page = (4 * round_ + len(ops)) % 300 if round_ < 75 else page % 40 if side < 4 else page
            ops.append(("T", page, None) if round_ >= 75 and side == 7 else ("W", page, CONTENTS[dice.roll(4)]))
        out.ask(f"job,0,{die.now},{die.now + 60},{op_words(ops)}")
        out.ask(f"collect,0,{die.now},{die.now + 30}")
        for _ in range(6 if round_ < 75 else 10):
            out.ask("slot")
    end_of_history(out, first, {"writes": 2000, "trims": 200, "erases": 1000, "copies": 300})
    return out.whole()


def many_jobs():
    """A thousand jobs wait for their releases, and then for those that are due sooner; many are due at once."""
    out = Writer(MADE, "A thousand jobs of a read each: deadlines repeat every fifty jobs, and so do releases every seventy.")
    out.paragraph("Each is accepted in slot 0, and released in one of the first seventy slots.")
    out.ask(Plan((8, 4, 3, 12, 2), [4]).line())
    for number in range(1000):
        out.ask(f"job,0,{number * 11 % 70},{1000 + number * 7 % 50},R0")
    for _ in range(1001):
        out.ask("slot")
    out.ask("worst")
    out.ask("certificate")
    out.ask("verdict")
    return out.whole()


def carried_by_chance(dice, carried):
    """What slots carried, with some slots exchanged, some given to another job or to a number that has no row, and some of
    the last left out."""
    carried = list(carried)
    for _ in range(dice.roll(4)):
        one, other = dice.roll(len(carried)), dice.roll(len(carried))
        carried[one], carried[other] = carried[other], carried[one]
    for _ in range(dice.roll(2)):
        carried[dice.roll(len(carried))] = dice.roll(9)
    return carried[:len(carried) - dice.roll(3)]


def built_by_chance():
    """Certificates of slots that no run had, over rows of runs."""
    out = Writer(MADE, "Certificates built of what the slots carried, and of slots that no run had: number 0 is waived and has no",
                 "row, 8 is no number of the die, and an idle slot is written as 99.")
    dice, built = Dice(1974), 0
    for _ in range(40):
        out.paragraph("Six jobs after a collection that is waived.")
        out.ask(Plan((8, 4, 3, 12, 2), [4]).line())
        out.ask("collect,0,0,1")
        die = out.player.die
        for _ in range(6):
            release = dice.roll(12)
            out.ask(f"job,0,{release},{release + 1 + dice.roll(20)},R0*{dice.roll(5) + 1}")
        while die.pending:
            die.slot()
        slots = die.now
        carried = [99 if item is None else item.number for item in die.carried]
        # The die is played again by the lines that stand.
        out.text.append(f"pass,{slots},ok")
        out.ask("rows")
        for turn in range(4):
            numbers = carried_by_chance(dice, carried) if turn else carried
            for job in range(8):
                answer = out.ask(f"built,{job},{' '.join(map(str, numbers))}")
                built += turn > 0 and answer != "none"
    assert built > 100, built
    return out.whole()


def made():
    """The files that are made, by their names."""
    return {
        "faults.txt": faults,
        "recorders.txt": planned,
        "dense.txt": dense,
        "lives.txt": lives,
        "fewest_blocks.txt": lambda: by_chance(
            Plan((3, 4, 3, 3, 1), [2]), 5, "Three blocks: with two there would be none to collect."),
        "eight_blocks.txt": lambda: by_chance(Plan((8, 4, 3, 17, 2), [4]), 50, "Eight blocks."),
        "two_tasks.txt": lambda: by_chance(
            Plan((8, 4, 2, 15, 1), [2, 2]), 5, "Two collectors run at once, each with a victim of its own."),
        "many_blocks.txt": many_blocks,
        "many_jobs.txt": many_jobs,
        "built_by_chance.txt": built_by_chance,
        "small_gifts.txt": lambda: by_chance(
            Plan((7, 5, 1, 24, 1), [3]), 50, "A collection gives one page, and copies up to four."),
    }


def check(files):
    wrong = 0
    for file in files:
        for number, line, got in differences(file.read_text()):
            print(f"{file.name}:{number}: {line} is answered {got}")
            wrong += 1
    return wrong


def written():
    wrong = 0
    for name, make in made().items():
        if not (DATA / name).exists() or (DATA / name).read_text() != make():
            print(f"{name} isn't what is written")
            wrong += 1
    return wrong


def write():
    for name, make in made().items():
        (DATA / name).write_text(make())
    return 0


def main(words):
    if words[:1] == ["check"]:
        files = [Path(word) for word in words[1:]] or sorted(DATA.glob("*.txt"))
        return check([file for file in files if file.name != "otherwise.txt"])
    if words in (["write"], ["written"]):
        return write() if words == ["write"] else written()
    sys.exit(__doc__)


if __name__ == "__main__":
    help_if_asked(__doc__)
    sys.exit(main(sys.argv[1:]) > 0)

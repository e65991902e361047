"""A second reading of docs/RULES.md and crates/flashplan/README.md: of a plan with times the script of what its tasks ask for,
and whether a script keeps it, in plain Python. It reads nothing of the program. `.ci/second_reading/plays` and
`.ci/second_reading/used-times` use it."""
import re

from second_reading.plain_terms import time_text
from second_reading.plain_texts import LAST_SLOT, Refused, read_plan, read_script
from second_reading.plain_uses import HEADER, KEPT, Draws

MOST_ARRIVALS = 65_536
SLOT_LINE = re.compile(rb"# a slot is ([1-9][0-9]*) us; ")
WANTED = "{} wants a plan that is accepted, with times (version 2) or terms: flashplan explain says more\n"


class TooMany(Exception):
    """A die whose numbers last for fewer slots, and for how many."""


def dies_of(text):
    """The dies of a plan with times that is accepted."""
    dies = read_plan(text)
    if any(die["version"] != 2 for die in dies):
        raise Refused("BadPlan")
    return dies


# Arrivals

def comes(period, slots):
    """How often what comes at each multiple of its period, and is due by the last slot, comes in a number of slots."""
    return min(-(-slots // period), LAST_SLOT // period)


def life_of(die):
    """For how many slots the numbers of a die last."""
    def taken(slots):
        return sum(comes(task["period"], slots) + comes(task["collect_period"], slots) for task in die["tasks"])

    least, most = 0, LAST_SLOT
    while least < most:
        half = (least + most + 1) // 2
        least, most = (half, most) if taken(half) <= MOST_ARRIVALS else (least, half - 1)
    return least


class Asker:
    """A task that asks: its pages, those that it still fills, in order, and the slot of its next job."""

    def __init__(self, at, number, die, task, fills, held):
        self.at, self.number, self.task, self.next = at, number, task, 0
        tasks, logical = die["tasks"], die["logical"]
        first, step = number, len(tasks)
        if fills:
            writers = [place for place, other in enumerate(tasks) if other["writes"]]
            first, step = (writers.index(number), len(writers)) if task["writes"] else (0, 1)
        self.pages = list(range(first, logical, step)) or [first % logical]
        self.to_fill = [page for page in self.pages if page not in held] if fills and task["writes"] else []
        self.full_from = -(-len(self.to_fill) // task["writes"]) * task["period"] if task["writes"] else None
        self.trims = bool(task["writes"]) and not fills

    def ops(self, draws, slot):
        """For each operation a page is drawn, and then whether it is one of the writes that are left; pages that are still to
        be filled are written in order."""
        words, writes = [], self.task["writes"]
        for place in range(self.task["work"]):
            page = self.pages[draws.below(len(self.pages))]
            if draws.below(self.task["work"] - place) < writes:
                writes -= 1
                page = self.to_fill.pop(0) if self.to_fill else page
                words.append(f"W{page}={slot:08x}{self.number:08x}{page:08x}{place:08x}")
            else:
                words.append(f"{'T' if self.trims and draws.below(8) == 0 else 'R'}{page}")
        return " ".join(words)


def askers_of(dies, fills, held):
    return [Asker(at, number, die, task, fills, held[at] if at < len(held) else set())
            for at, die in enumerate(dies) for number, task in enumerate(die["tasks"])]


def arrivals(dies, slots, seed=0, fills=False, phases=False, jitter=0, load=100, held=()):
    """The script of what all tasks ask for in a number of slots. While a task fills its pages all its jobs come, and none late. By die
    the pages that lie in cells already."""
    shortest = min(range(len(dies)), key=lambda at: life_of(dies[at]))
    if life_of(dies[shortest]) < slots:
        raise TooMany(shortest, life_of(dies[shortest]))
    askers, draws, rows = askers_of(dies, fills, held), Draws(seed), [HEADER]
    for asker in askers if phases else []:
        if not asker.to_fill:
            asker.next = draws.below(asker.task["period"])
    for slot in range(slots):
        for asker in askers:
            front, period, collect = f"{slot},{asker.at},{asker.number}", asker.task["period"], asker.task["collect_period"]
            if slot % collect == 0 and slot + collect <= LAST_SLOT:
                rows.append(f"{front},collect,{slot},{slot + collect},\n")
            if slot != asker.next or slot + period > LAST_SLOT:
                continue
            is_regular = bool(asker.to_fill)
            if is_regular or load >= 100 or draws.below(100) < load:
                rows.append(f"{front},job,{slot},{slot + period},{asker.ops(draws, slot)}\n")
            asker.next = slot + period + (0 if is_regular or jitter == 0 else draws.below(jitter + 1))
    return "".join(rows)


def filling(dies, slots, held=(), slot_us=None):
    """What is told of when each die is full, with times where it is known how long a slot is."""
    def timed(count):
        return f"{count} ({time_text(count * slot_us)})" if slot_us else count

    lines = []
    for at, die in enumerate(dies):
        by = [asker.full_from for asker in askers_of(dies, True, held) if asker.at == at and asker.full_from is not None]
        life, full = life_of(die), max(by, default=None)
        if full is None:
            lines.append(f"die {at} is never full: none of its tasks writes, and one has to\n")
        elif full <= slots:
            lines.append(f"die {at} is full from slot {timed(full)} on\n")
        elif full <= life:
            lines.append(f"die {at} isn't full in {timed(slots)} slots: it would be from slot {timed(full)} on, so --slots has to be "
                         f"{full} at least\n")
        else:
            lines.append(f"die {at} isn't full in its life of {timed(life)} slots: that would take {timed(full)}, so it has to have "
                         "fewer logical pages, or its tasks to write more\n")
    return "".join(lines)


# Keeping

def first_that_fails(rules):
    return next((said for is_so, said in rules if not is_so), None)


def job_fault(die, task, at, release, due, ops):
    """What is wrong with a job alone."""
    asked, writes = max((page for _, page, _ in ops), default=0), sum(letter == b"W" for letter, _, _ in ops)
    return first_that_fails((
        (release == at, f"release is {release}, and has to be {at}, the slot before which it comes"),
        (due == release + task["period"], f"due is {due}, and has to be {release + task['period']}, a period after its release"),
        (due <= LAST_SLOT, f"due is {due}, and may be at most {LAST_SLOT}"),
        (1 <= len(ops) <= task["work"], f"it has {len(ops)} operations, and may have 1 to {task['work']}"),
        (asked < die["logical"], f"it asks for page {asked}, and pages go from 0 to {die['logical'] - 1}"),
        (writes <= task["writes"], f"it has {writes} writes, and may have 0 to {task['writes']}")))


def collection_fault(task, at, release, due, slots):
    """What is wrong with a collection alone."""
    period, wanted = task["collect_period"], release + task["collect_period"]
    return first_that_fails((
        (release == at, f"release is {release}, and has to be {at}, the slot before which it comes"),
        (release % period == 0, f"release is {release}, and has to be a multiple of {period}, the collect period"),
        (release < slots, f"release is {release}, and has to be below {slots}, the number of slots"),
        (due == wanted, f"due is {due}, and has to be {wanted}, a collect period after its release"),
        (wanted <= LAST_SLOT, f"due is {wanted}, and may be at most {LAST_SLOT}")))


def die_fault(at, die, rows, slots):
    """What breaks the plan of a die first, or nothing: its rows, and the slots in which a collection is missing, in their order."""
    due_next, last = [0] * len(die["tasks"]), {}

    def missing(before):
        found = [(slot, number) for number, slot in enumerate(due_next)
                 if slot < min(before, slots) and slot + die["tasks"][number]["collect_period"] <= LAST_SLOT]
        if not found:
            return None
        slot, number = min(found)
        return (f"die {at} slot {slot} task {number} breaks its plan: no collection comes, and one has to at each multiple of "
                f"{die['tasks'][number]['collect_period']}\n")

    for row in rows:
        record, came, _, number, release, due, ops = row
        if said := missing(came):
            return said
        front = f"die {at} record {record} slot {came} task {number} breaks its plan: "
        if number >= len(die["tasks"]):
            return f"{front}its tasks are numbered from 0 to {len(die['tasks']) - 1}\n"
        task = die["tasks"][number]
        said = collection_fault(task, came, release, due, slots) if ops is None else job_fault(die, task, came, release, due, ops)
        if said:
            return f"{front}{said}\n"
        if ops is None:
            if due_next[number] != came:
                count = sum(other[3] == number and other[6] is None and other[1] == came for other in rows)
                return f"{front}{count} collections come in this slot, and 1 may\n"
            due_next[number] += task["collect_period"]
            continue
        if number in last and release < last[number][1] + task["period"]:
            before, released = last[number]
            return (f"{front}release is {release}, and has to be at least {released + task['period']}, a period after that of record "
                    f"{before}\n")
        last[number] = record, release
    return missing(slots)


def keeps(dies, script, slots):
    """The status and the text of `keeps`. A script that can't be read raises Refused."""
    rows = read_script(script, len(dies), slots)
    for at, die in enumerate(dies):
        if said := die_fault(at, die, [row for row in rows if row[2] == at], slots):
            return 3, said
    return 0, KEPT


# The command line

def number_of(words, option, default):
    return int(words[words.index(option) + 1]) if option in words else default


def flashplan(words, read_file):
    """The status, standard output and standard error of `keeps` or `arrivals` of a plan without terms."""
    slots, fills = number_of(words, "--slots", 0), "--fill" in words
    try:
        plan = read_file(words[1])
        dies, told = dies_of(plan), SLOT_LINE.match(plan)
        if words[0] == "keeps":
            return *keeps(dies, read_file(words[2]), slots), ""
        script = arrivals(dies, slots, number_of(words, "--seed", 0), fills, "--phases" in words, number_of(words, "--jitter", 0),
                          number_of(words, "--load", 100))
        return 0, script, filling(dies, slots, slot_us=int(told[1]) if told else None) if fills else ""
    except TooMany as fault:
        die, most = fault.args
        return 1, "", f"error: die {die} would get more than 65536 jobs and collections: the most slots that serve are {most}\n"
    except Refused as fault:
        is_plan = fault.args[0] == "BadPlan"
        return 1, "", fault.told() + (WANTED.format(words[0]) if is_plan else "")

"""A second reading of docs/RULES.md and crates/flashplan/README.md: of a plan with terms the heaviest use that it allows,
whether a script keeps it, and the curve of what may be asked, in plain Python. It reads nothing of the program.
`.ci/second_reading/plays` and `.ci/second_reading/used-terms` use it."""
import re

from second_reading import plain_texts
from second_reading.plain_terms import Fault, demand_of, fault_of, read_dies
from second_reading.plain_texts import LAST_SLOT, NUMBERS, Refused, read_script, read_toml

HEADER = "at,die,task,kind,release,due,ops\n"
KEPT = "the script keeps the plan of each die\n"


def dies_of(text):
    """The dies of a plan with terms that is accepted."""
    dies = read_dies(read_toml(text))
    for at, die in enumerate(dies):
        if said := fault_of(at, die):
            raise Fault("BadPlan", said)
    return dies


def refused(fault):
    """The line of a plan's refusal, and that of the place of its fault, if it has one."""
    name, said = fault.args
    lines = f"error {NUMBERS[name.split()[0]]} {name}\n"
    if place := re.match(r"die ([0-9]+)", said):
        return lines + f"the fault lies in die {place[1]}\n"
    place = re.match(r"(?:plan|(\[\[task\]\] [0-9]+)): (a key|it|\w+)", said)
    table = f"in {place[1]}" if place[1] else "on top"
    key = {"a key": "", "it": "at die ", "dies": None}.get(place[2], f"at {place[2]} ")
    return lines if key is None else lines + f"the fault lies {key}{table}\n"


# The heaviest use

class Draws:
    """PCG-XSH-RR 64/32 (O'Neill), the stream 1 of a seed."""

    def __init__(self, seed):
        self.state = (seed + 3) % 2**64
        self.step()

    def step(self):
        self.state = (self.state * 6364136223846793005 + 3) % 2**64

    def below(self, bound):
        state, turn = self.state, self.state >> 59
        self.step()
        word = ((state >> 18 ^ state) >> 27) % 2**32
        return ((word >> turn | word << 32 - turn) % 2**32) % bound


def burst(draws, task, number, pages, slot):
    """The operations of a burst: for each a page is drawn, and then whether it is one of the writes that are left."""
    ops, writes = [], task["writes"]
    for place in range(task["work"]):
        page = pages[draws.below(len(pages))]
        if draws.below(task["work"] - place) < writes:
            writes -= 1
            ops.append(f"W{page}={slot:08x}{number:08x}{page:08x}{place:08x}")
        else:
            ops.append(f"{'T' if task['writes'] and draws.below(8) == 0 else 'R'}{page}")
    return ops


def arrivals(dies, slots, seed):
    """The script of the heaviest use in a number of slots."""
    draws, rows = Draws(seed), [HEADER]
    for slot in range(slots):
        for at, die in enumerate(dies):
            for number, task in enumerate(die["tasks"]):
                front, collected, due = f"{slot},{at},{number}", slot + task["collect_deadline"], slot + task["deadline"]
                if slot % task["collect_period"] == 0 and collected <= LAST_SLOT:
                    rows.append(f"{front},collect,{slot},{collected},\n")
                if slot % task["period"] == 0 and due <= LAST_SLOT:
                    pages = range(number, die["logical"], len(die["tasks"])) or [number % die["logical"]]
                    ops = burst(draws, task, number, pages, slot)
                    rows += [f"{front},job,{slot},{due},{' '.join(ops[n:n + 64])}\n" for n in range(0, len(ops), 64)]
    return "".join(rows)


# Keeping

def job_fault(die, task, at, release, due, ops):
    """What is wrong with a job alone."""
    asked = max((page for _, page, _ in ops), default=0)
    least, most = release + task["deadline"], at + task["held"]
    for is_so, said in (
        (release >= at, f"release is {release}, and has to be at least {at}, the slot before which it comes"),
        (due >= least, f"due is {due}, and has to be at least {least}, a deadline after its release"),
        (due <= most, f"due is {due}, and has to be at most {most}, as long after it comes as it may be held"),
        (due <= LAST_SLOT, f"due is {due}, and may be at most {LAST_SLOT}"),
        (1 <= len(ops) <= 64, f"it has {len(ops)} operations, and may have 1 to 64"),
        (asked < die["logical"], f"it asks for page {asked}, and pages go from 0 to {die['logical'] - 1}"),
    ):
        if not is_so:
            return said
    return None


def collection_fault(task, at, release, due, slots):
    """What is wrong with a collection alone."""
    period, wanted = task["collect_period"], release + task["collect_deadline"]
    for is_so, said in (
        (release == at, f"release is {release}, and has to be {at}, the slot before which it comes"),
        (release % period == 0, f"release is {release}, and has to be a multiple of {period}, the collect period"),
        (release < slots, f"release is {release}, and has to be below {slots}, the number of slots"),
        (due == wanted, f"due is {due}, and has to be {wanted}, a collect_deadline after its release"),
        (wanted <= LAST_SLOT, f"due is {wanted}, and may be at most {LAST_SLOT}"),
    ):
        if not is_so:
            return said
    return None


def excess(rows, number, period, most, count):
    """The first row with which more is counted in a period than may be, where the period begins that begins first of those, and
    what is counted then. A row that counts has its slot and its amount."""
    seen = []
    for row in rows:
        if row[3] != number or row[6] is None:
            continue
        slot, amount = count(row)
        seen.append((slot, amount))
        near = [(other, some) for other, some in seen if abs(other - slot) < period]  # what may be in a period with it
        if sum(some for _, some in near) <= most:
            continue
        for begin in range(max(0, slot - period + 1), slot + 1):
            total = sum(some for other, some in near if begin <= other < begin + period)
            if total > most:
                return row, begin, total
    return None


def writes_in(row):
    return sum(letter == b"W" for letter, _, _ in row[6])


def die_fault(at, die, rows, slots):
    """What breaks the plan of a die, or nothing."""
    def named(row, said):
        return f"die {at} record {row[0]} slot {row[1]} task {row[3]} breaks its plan: {said}\n"

    for row in rows:
        _, came, _, number, release, due, ops = row
        if number >= len(die["tasks"]):
            return named(row, f"its tasks are numbered from 0 to {len(die['tasks']) - 1}")
        task = die["tasks"][number]
        said = collection_fault(task, came, release, due, slots) if ops is None else job_fault(die, task, came, release, due, ops)
        if said:
            return named(row, said)
    for number, task in enumerate(die["tasks"]):
        for key, what, count in (("work", "operations are released in slots {} to {}, and at most {} may be", lambda row: (row[4], len(row[6]))),
                                 ("writes", "writes come in slots {} to {}, and at most {} may", lambda row: (row[1], writes_in(row)))):
            if found := excess(rows, number, task["period"], task[key], count):
                row, begin, total = found
                return named(row, f"with it {total} " + what.format(begin, begin + task["period"] - 1, task[key]))
        for slot in range(0, slots, task["collect_period"]):
            came = [row for row in rows if row[3] == number and row[6] is None and row[1] == slot]
            if slot + task["collect_deadline"] > LAST_SLOT or len(came) == 1:
                continue
            if came:
                return named(came[1], f"{len(came)} collections come in this slot, and 1 may")
            return (f"die {at} slot {slot} task {number} breaks its plan: no collection comes, and one has to at each multiple of "
                    f"{task['collect_period']}\n")
    return None


def keeps(dies, script, slots):
    """The status and the text of `keeps`. A script that can't be read raises Refused."""
    rows = read_script(script, len(dies), slots)
    for at, die in enumerate(dies):
        if said := die_fault(at, die, [row for row in rows if row[2] == at], slots):
            return 3, said
    return 0, KEPT


# What may be asked for

def curve(die, marked):
    """The curve of a picture whose marked interval has `marked` slots, as its path has it: both axes go up to half as many slots
    again, 10 at least, on 700 by 320 pixels; what is cut off is below a tenth of one."""
    end = min(max(marked + marked // 2, 10), LAST_SLOT)
    step = -(-end // 700)

    def tenths(slots, whole):
        return min(slots, end) * whole * 10 // end

    def shown(number):
        return str(number // 10) + (f".{number % 10}" if number % 10 else "")

    path, last = "M84 400", 0
    for slots in range(0, min(end // step + 1, LAST_SLOT // step) * step, step):
        if (demand := demand_of(die, slots)) != last:
            path += f"H{shown(840 + tenths(slots, 700))}V{shown(4000 - tenths(demand, 320))}"
            last = demand
    return path + f"H{shown(840 + tenths(end, 700))}V400"


def plain_text_of(text):
    """The plan without its terms: what a run of its dies needs."""
    top = read_toml(text)
    lines = ["version = 1"] + [f"{key} = {top[key]}" for key in ("dies", "blocks", "pages", "erase_slots", "logical", "alpha")]
    for task in top["task"]:
        lines += ["[[task]]", f"die = {task['die']}", f"cap = {task['cap']}"]
    return "\n".join(lines).encode()


def flashplan(words, read_file):
    """The status, standard output and standard error of `keeps`, `arrivals` or `run` of a plan with terms."""
    plan = read_file(words[1])
    slots = int(words[words.index("--slots") + 1])
    try:
        dies = dies_of(plan)
        if words[0] == "arrivals":
            return 0, arrivals(dies, slots, 0), ""
        if words[0] == "keeps":
            return *keeps(dies, read_file(words[2]), slots), ""
        report, told, _ = plain_texts.run(plain_text_of(plan), read_file(words[2]), slots)
        return 0, report, told
    except Fault as fault:
        return 1, "", refused(fault)
    except Refused as fault:
        return 1, "", fault.told()

"""A second reading of docs/RULES.md and crates/flashplan/README.md: what `flashplan run --keep` prints and tells, in plain
Python. It reads nothing of the program, and looks at each slot of a life. `.ci/second_reading/plays` and
`.ci/second_reading/kept-runs` use it."""

import re
from bisect import bisect_right
from functools import lru_cache

from second_reading import plain_texts
from second_reading.plain_terms import Fault, is_terms_text, time_text
from second_reading.plain_texts import LAST_SLOT, Die, Refused, read_plan, read_script
from second_reading.plain_uses import dies_of, refused as refused_plan

MOST_ARRIVALS = 65_536
SLOT_LINE = re.compile(rb"# a slot is ([1-9][0-9]*) us; ")
WANTED = "--keep wants a plan that is accepted, with times (version 2) or terms: flashplan explain says more\n"
OTHER = "its release isn't its slot, or its deadline isn't as many slots later as the plan gives its task"
ORDER = ["OtherTimes", "DieStopped", "UnknownTask", "EmptyJob", "TooManyOps", "BadPage", "TooManyWrites", "TooSoon", "LifeEnd"]


@lru_cache(maxsize=16)
def terms_in(text):
    """The dies of a plan, each task with its terms: a task with times has its periods for its deadlines."""
    if is_terms_text(text):
        return dies_of(text)
    dies = read_plan(text)
    for die in dies:
        for task in die["tasks"]:
            if "period" not in task:
                raise Refused("BadPlan")
            task.update(deadline=task["period"], held=task["period"], collect_deadline=task["collect_period"])
    return dies


def come(period, deadline, slots):
    """How often what comes each period may come in a number of slots and be due by their end."""
    return (slots - deadline) // period + 1 if deadline <= slots else 0


def all_due(die, slots):
    """Whether each collection that comes in a number of slots is due by their end."""
    return all((slots - 1) // task["collect_period"] * task["collect_period"] + task["collect_deadline"] <= slots
               for task in die["tasks"])


def arrivals_in(die, slots):
    return sum(task["work"] * come(task["period"], task["deadline"], slots)
               + come(task["collect_period"], task["collect_deadline"], slots) for task in die["tasks"])


def life_of(die):
    """The longest life; None where there is none. The more slots, the more arrivals."""
    most = bisect_right(range(LAST_SLOT + 1), MOST_ARRIVALS, key=lambda slots: arrivals_in(die, slots)) - 1
    return next((slots for slots in range(most, 0, -1) if all_due(die, slots)), None)


def writes_in(ops):
    return sum(op[0] == b"W" for op in ops)


def counting(asked, period, slot):
    return [ask for ask in asked if slot < ask[0] + period]


def has_room(asked, task, slot, ops, writes):
    counted = counting(asked, task["period"], slot)
    return (sum(ask[1] for ask in counted) + ops <= task["work"]
            and sum(ask[2] for ask in counted) + writes <= task["writes"])


def timed(count, slot_us):
    """A number of slots, and its time where it is known how long one is."""
    return f"{count} ({time_text(count * slot_us)})" if slot_us else f"{count}"


def refusal_of(die, life, asked, now, row, slot_us):
    """Why a job's row is refused in slot `now`: its name and what is told of it; None where it is taken."""
    _, _, _, number, release, due, ops = row
    if number >= len(die["tasks"]):
        return "UnknownTask", "its task isn't on its die"
    task = die["tasks"][number]
    if (release, due) != (now, now + task["deadline"]):
        return "OtherTimes", OTHER
    if not ops:
        return "EmptyJob", "it has no operation"
    most = min(64, task["work"])
    if len(ops) > most:
        return "TooManyOps", f"it has more operations than its task may ask for at once, which is {most}"
    beyond = [op[1] for op in ops if op[1] >= die["logical"]]
    if beyond:
        return "BadPage", f"page {beyond[0]} isn't below `logical`"
    if writes_in(ops) > task["writes"]:
        return "TooManyWrites", f"it has more writes than its task may ask for at once, which is {task['writes']}"
    own = asked[number]
    if not has_room(own, task, now, len(ops), writes_in(ops)):
        slot = now
        while not has_room(own, task, slot, len(ops), writes_in(ops)):
            slot += 1
        return "TooSoon", ("with what its task asked for in the last period it is too much; "
                           f"it would be taken in slot {timed(slot, slot_us)}")
    if now + task["deadline"] > life:
        return "LifeEnd", "it would be due after the last slot of its die's life"
    return None


def run_die(plan, life, rows, slots, slot_us=None):
    """A die after a run; its refused rows, as (line, name, told); and how many rows of collections it passed over."""
    die, refused, passed, feed = Die(plan), [], 0, list(rows)
    asked = [[] for _ in plan["tasks"]]
    for clock in range(slots + 1):
        while feed and feed[0][1] <= clock:
            row = feed.pop(0)
            line, _, _, number, _, _, ops = row
            if ops is None:
                passed += 1
                continue
            why = refusal_of(plan, life, asked, clock, row, slot_us)
            if why is not None:
                refused.append((line, *why))
                continue
            asked[number].append((clock, len(ops), writes_in(ops)))
            task = plan["tasks"][number]
            assert die.accept(number, clock, clock + task["deadline"], ops) is None, "the log refuses an ask"
        if clock < slots:
            for number, task in enumerate(plan["tasks"]):
                if clock % task["collect_period"] == 0:
                    taken = die.accept(number, clock, clock + task["collect_deadline"], None)
                    assert taken is None, "the log refuses a collection"
            die.slot()
    for job in die.jobs:
        late = slots + 1 if job.completion is None else job.completion
        assert job.ops is None or job.due > slots or late <= job.due, "a job is late"
    return die, refused, passed


def told_of(refused, passed):
    lines = []
    if refused:
        line, name, _ = min(refused)
        lines.append(f"refused {len(refused)} first line {line} with {name}\n")
        for kind in ORDER:
            of_kind = sorted(row for row in refused if row[1] == kind)
            if of_kind:
                lines.append(f"{len(of_kind)} with {kind}, first line {of_kind[0][0]}: {of_kind[0][2]}\n")
    if passed:
        rows = "row" if passed == 1 else "rows"
        lines.append(f"passed over {passed} {rows} of collections: a die that keeps its plan enters its own\n")
    return "".join(lines)


def report_of(dies):
    report = [plain_texts.REPORT_HEADER.decode() + "\n"]
    for at, die in enumerate(dies):
        report += [plain_texts.job_line(at, job) for job in die.jobs]
    for at, die in enumerate(dies):
        worst = die.worst()
        if worst is not None:
            start, listed = die.certificate(worst)
            report.append(f"cert,{at},{worst.number},,{start},{worst.due},,{worst.completion},"
                          f"{worst.completion - worst.due},,{plain_texts.joined(map(str, listed))}\n")
    return "".join(report)


def run(plan_text, script_text, slots):
    """The status of `flashplan run --keep`, its report, and what it tells."""
    plans = terms_in(plan_text)
    said = SLOT_LINE.match(plan_text)
    slot_us = int(said[1]) if said else None
    lives = [life_of(plan) for plan in plans]
    for at, life in enumerate(lives):
        if life is None:
            return 1, "", f"error: the plan of die {at} has no life: no number of slots is one\n"
    for at, life in enumerate(lives):
        if life < slots:
            return 1, "", f"error: a life of die {at} has {timed(life, slot_us)} slots: --slots may be that at most\n"
    try:
        rows = read_script(script_text, len(plans), slots)
    except Refused as fault:
        return 1, "", fault.told()
    dies, refused, passed = [], [], 0
    for at, (plan, life) in enumerate(zip(plans, lives)):
        die, lines, skipped = run_die(plan, life, [row for row in rows if row[2] == at], slots, slot_us)
        dies.append(die)
        refused += lines
        passed += skipped
    return 0, report_of(dies), told_of(refused, passed)


def flashplan(words, read_file):
    """The status, the report and what is told of `run PLAN SCRIPT --slots N --keep`."""
    _, plan, script, _, slots, _ = words
    try:
        return run(read_file(plan), read_file(script), int(slots))
    except Fault as fault:
        return 1, "", refused_plan(fault)
    except Refused as fault:
        return 1, "", fault.told() + (WANTED if fault.told() == "error 3 BadPlan\n" else "")

"""A second reading of docs/FORMATS.md and docs/RULES.md: what `flashplan explain` prints of a plan with terms, in plain Python.
It reads nothing of the program, and looks at each interval of a life. `.ci/second_reading/plays` uses it."""

import re

from second_reading.plain_texts import LAST_SLOT, Refused, is_number, live_of, meets_bound, read_toml

TOP = ["terms", "dies", "blocks", "pages", "erase_slots", "logical", "alpha"]
NUMBERS = ["die", "cap", "period", "deadline", "held", "work", "writes", "collect_period", "collect_deadline"]
WRONG = {
    "ExtraKey": "is none that a plan with terms has there: its keys are terms, dies, blocks, pages, erase_slots, logical, alpha and task; "
                "in each [[task]] die, cap, period, deadline, held, work, writes, collect_period and collect_deadline",
    "MissingKey": "is missing",
    "WrongKind": "has a value of another kind: task is an array of tables, the others are whole numbers from 0 to 4294967295",
    "BadVersion": "has to be 1",
}
SHAPE = "plan: dies has to be from 1 to 8, blocks from 2 to 1024, pages from 2 to 256, erase_slots from 1 to 64."
BOUND = "it has to have 1 to 16 tasks, an alpha of 1 to pages, caps and logical of at least 1, and to meet its bound; "


class Fault(Exception):
    """Why a plan is refused: its refusal, and what is said of that."""


def fault(cause, place):
    raise Fault(f"PlanText {cause}", f"{place} {WRONG[cause]}.\n")


def check_table(table, table_name, keys, numbers):
    """The first fault of a table: a key too many, a key too few, and then a value of another kind."""
    if any(key not in keys for key in table):
        fault("ExtraKey", f"{table_name}: a key")
    for key in keys:
        if key not in table:
            fault("MissingKey", f"{table_name}: {key}")
    for key in numbers:
        if not is_number(table[key]):
            fault("WrongKind", f"{table_name}: {key}")


def read_dies(top):
    """The dies of a plan whose text has no fault, each with its tasks."""
    if "version" in top:
        fault("ExtraKey", "plan: version")
    check_table(top, "plan", TOP + ["task"], TOP)
    tasks = top["task"]
    if type(tasks) is not list or not all(isinstance(task, dict) for task in tasks):
        fault("WrongKind", "plan: task")
    if top["terms"] != 1:
        fault("BadVersion", "plan: terms")
    for nth, task in enumerate(tasks, 1):
        check_table(task, f"[[task]] {nth}", NUMBERS, NUMBERS)
    if not (1 <= top["dies"] <= 8 and 2 <= top["blocks"] <= 1_024 and 2 <= top["pages"] <= 256 and 1 <= top["erase_slots"] <= 64):
        raise Fault("BadShape", SHAPE + "\n")
    for nth, task in enumerate(tasks, 1):
        if task["die"] >= top["dies"]:
            raise Fault("BadPlan", f"[[task]] {nth}: it names a die that isn't there.\n")
    return [dict(top, tasks=[task for task in tasks if task["die"] == die]) for die in range(top["dies"])]


def numbers_text(at, die):
    lines = [f"die {at}: " + ", ".join(f"{key} {die[key]}" for key in ("blocks", "pages", "erase_slots", "logical", "alpha"))]
    for i, task in enumerate(die["tasks"]):
        lines.append(f"die {at} task {i}: " + ", ".join(f"{key} {task[key]}" for key in NUMBERS[1:]))
    return "".join(line + ".\n" for line in lines)


def out_of_limits(task):
    """What has to be of a task's first number that is out of its limits, or nothing."""
    held, period = task["held"], task["collect_period"]
    for is_within, said in (
        (1 <= task["period"], "period has to be from 1 to 4294967295"),
        (1 <= task["deadline"], "deadline has to be at least 1"),
        (task["deadline"] <= held <= LAST_SLOT, "held has to be from deadline to 1048576"),
        (1 <= task["work"] <= LAST_SLOT, "work has to be from 1 to 1048576"),
        (task["writes"] <= task["work"], "writes has to be at most work"),
        (1 <= period <= LAST_SLOT, "collect_period has to be from 1 to 1048576"),
        (1 <= task["collect_deadline"] <= period, "collect_deadline has to be from 1 to collect_period"),
    ):
        if not is_within:
            return said
    return None


def collection_of(die):
    return 2 * (die["pages"] - die["alpha"]) + die["erase_slots"]


def load_of(die):
    return sum(task["work"] * 10**6 // task["period"] + collection_of(die) * 10**6 // task["collect_period"]
               for task in die["tasks"])


def demands_of(die):
    """What may be asked of each number of slots up to a life's."""
    due = {}
    for task in die["tasks"]:
        for amount, period, deadline in ((task["work"], task["period"], task["deadline"]),
                                         (collection_of(die), task["collect_period"], task["collect_deadline"])):
            for slots in range(deadline, LAST_SLOT + 1, period):
                due[slots] = due.get(slots, 0) + amount
    total, demands = 0, []
    for slots in sorted(due):
        total += due[slots]
        demands.append((slots, total))
    return demands


def least_cap(die, task):
    """The least cap that covers what a task writes in a period and while a job is held, and two collections."""
    wanted = task["writes"] * (task["period"] + task["held"]) + 2 * die["alpha"] * task["period"]
    return -(-wanted // task["period"])


def lack_of(die, task):
    writes, gained = task["writes"], die["alpha"] * task["period"]
    if writes * task["collect_period"] > gained:
        most = gained // writes
        return f"its collections give it less than its jobs write; the greatest collect_period that would do is {most}"
    if task["cap"] < least_cap(die, task):
        return f"its cap is too small; the least that would do is {least_cap(die, task)}"
    return None


def bound_text(die):
    """Which other number of logical pages or of blocks would do."""
    some = dict(die, logical=1)
    said = [f"with other logical it would, the greatest being {live_of(some) - 1}" if meets_bound(some)
            else "with no other logical it would"]
    would = [blocks for blocks in range(2, 1_025) if meets_bound(dict(die, blocks=blocks))]
    said.append(f"with other blocks it would, the least being {would[0]}" if would else "with no other blocks it would")
    return BOUND + "; ".join(said)


def last_deadline(die, below):
    """The greatest deadline below a number of slots, of what comes back to back from slot 0 on; 0 where there is none."""
    last = 0
    for task in die["tasks"]:
        for period, deadline in ((task["period"], task["deadline"]), (task["collect_period"], task["collect_deadline"])):
            if deadline < below:
                last = max(last, below - 1 - (below - 1 - deadline) % period)
    return last


def demand_of(die, slots):
    return sum(amount * ((slots - deadline) // period + 1)
               for task in die["tasks"]
               for amount, period, deadline in ((task["work"], task["period"], task["deadline"]),
                                                (collection_of(die), task["collect_period"], task["collect_deadline"]))
               if deadline <= slots)


def does(die):
    """Whether a die meets its bound and passes its tests. Intervals are looked at from above, at deadlines alone: where less is
    asked of one than it has, each shorter one down to that has room."""
    if not meets_bound(die) or any(out_of_limits(task) for task in die["tasks"]) or load_of(die) > 10**6:
        return False
    below = LAST_SLOT + 1
    while below > 0 and (demand := demand_of(die, slots := last_deadline(die, below))) > 0:
        if demand > slots:
            return False
        below = demand
    return not any(lack_of(die, task) for task in die["tasks"])


def furthest(die, task, key, loosest, tightest):
    """The number nearest to the tightest with which the die does, all else being as it is, from the loosest on."""
    def does_with(n):
        return does(dict(die, tasks=[dict(own, **{key: n}) if own is task else own for own in die["tasks"]]))

    step = 1 if loosest <= tightest else -1
    if not does_with(loosest):
        return None
    near, far = 0, abs(tightest - loosest) + 1
    while far - near > 1:
        half = (near + far) // 2
        near, far = (half, far) if does_with(loosest + step * half) else (near, half)
    return loosest + step * near


def room_text(at, die):
    """The greatest number of logical pages, the least of blocks, and the greatest cap of each task that the bound leaves."""
    logical = live_of(dict(die, logical=1)) - 1
    blocks = next(blocks for blocks in range(2, 1_025) if meets_bound(dict(die, blocks=blocks)))
    text = f"die {at}: by its bound alone, one at a time: greatest logical {logical}, least blocks {blocks}.\n"
    for i, task in enumerate(die["tasks"]):
        cap = task["cap"]
        while meets_bound(dict(die, tasks=[dict(own, cap=cap + 1) if own is task else own for own in die["tasks"]])):
            cap += 1
        text += f"die {at} task {i}: by the bound alone, the greatest cap is {cap}.\n"
    return text


def margins_text(at, die):
    """How far each number of a die's tasks may change, one at a time."""
    text = ""
    for i, task in enumerate(die["tasks"]):
        most_writes = min(task["work"], LAST_SLOT)
        sought = [
            ("greatest work", max(task["writes"], 1), LAST_SLOT, max(task["writes"], 1) <= LAST_SLOT),
            ("greatest writes", 0, most_writes, True),
            ("least period", 2**32 - 1, 1, True),
            ("least deadline", task["held"], 1, task["held"] >= 1),
            ("least collect_deadline", task["collect_period"], 1, task["collect_period"] >= 1),
        ]
        said = []
        for what, loosest, tightest, is_any in sought:
            key = what.split()[1]
            found = furthest(die, task, key, loosest, tightest) if is_any else None
            said.append(f"no {key}" if found is None else f"{what} {found}")
        text += f"die {at} task {i}: one at a time, with these its die would do: {', '.join(said)}.\n"
    return text


def longest_period(alpha, task):
    """The longest collect period with which collections give back what jobs write; 0 where there is none."""
    return min(alpha * task["period"] // task["writes"], LAST_SLOT) if task["writes"] else LAST_SLOT


def cap_with(die, task):
    """The least cap that would do, if a plan may have it; a task without a period does with none."""
    return min(least_cap(die, task), 2**32 - 1) if task["period"] else 0


def with_alpha(die, alpha):
    """A die with another alpha, and the least caps, the longest collect periods and the longest collect deadlines."""
    other = dict(die, alpha=alpha)
    return dict(other, tasks=[dict(task, cap=cap_with(other, task), collect_period=longest_period(alpha, task),
                                   collect_deadline=longest_period(alpha, task)) for task in die["tasks"]])


def alphas_text(dies):
    """What each alpha comes to, by die, where the die does with some number of logical pages."""
    text = ""
    for alpha in range(1, dies[0]["pages"] + 1):
        for at, die in enumerate(dies):
            other = with_alpha(die, alpha)
            if not does(dict(other, logical=1)):
                continue
            logical = live_of(dict(other, logical=1)) - 1
            caps, periods = ("".join(f" {task[key]}" for task in other["tasks"]) for key in ("cap", "collect_period"))
            room = ": it would do" if die["logical"] <= logical else ", which is less than it has"
            text += (f"die {at}: with alpha {alpha}, caps{caps} and collect_periods and collect_deadlines{periods}, in the long run "
                     f"{load_of(other)} of each 1000000 slots are asked for, and the greatest logical is {logical}{room}.\n")
    return text


OF_ALL = ["logical", "blocks"]
OF_TASKS = ["cap", "collect_period", "collect_deadline", "period", "deadline", "held", "work", "writes"]
CHOSEN = ["cap", "collect_period", "collect_deadline"]
BESIDE = {"alpha": ", with the caps, collect_periods and collect_deadlines that go with it",
          "collect_period": ", with a collect_deadline of at most that"}


def loosest(die, task, key):
    """The number that asks for least."""
    return {"cap": cap_with(die, task), "collect_period": longest_period(die["alpha"], task), "collect_deadline": task["collect_period"],
            "period": 2**32 - 1, "deadline": task["held"], "held": task["deadline"], "work": max(task["writes"], 1), "writes": 0}[key]


def with_own(task, key, n):
    """A task with another number. Its collections are due by the next ones."""
    return dict(task, **{key: n}, **({"collect_deadline": min(task["collect_deadline"], n)} if key == "collect_period" else {}))


def nearest(would, own, loosest):
    """The number nearest to its own with which a plan would do, by halves; none where it does as it is, or not with the loosest."""
    if would(own) or not would(loosest):
        return None
    step = 1 if own < loosest else -1
    fails, fits = 0, abs(loosest - own)
    while fits - fails > 1:
        half = (fails + fits) // 2
        fails, fits = (fails, half) if would(own + step * half) else (half, fits)
    return own + step * fits


def changes_of(tasks, dies):
    """Each change of one number with which all dies would do: whose, its key, and from what to what."""
    own = dies[0]["alpha"]
    alphas = [alpha for alpha in range(1, dies[0]["pages"] + 1) if all(does(with_alpha(die, alpha)) for die in dies)]
    if alphas:
        yield "plan", "alpha", own, min(alphas, key=lambda alpha: abs(alpha - own))
    for key, best in zip(OF_ALL, (1, 1_024)):
        found = nearest(lambda n: all(does(dict(die, **{key: n})) for die in dies), dies[0][key], best)
        if found is not None:
            yield "plan", key, dies[0][key], found
    bad = [at for at, die in enumerate(dies) if not does(die)]
    for nth, task in enumerate(tasks, 1):
        at = task["die"]
        if bad != [at]:
            continue
        die, i = dies[at], sum(other["die"] == at for other in tasks[:nth - 1])
        for key in OF_TASKS:
            def would(n):
                return does(dict(die, tasks=[with_own(own, key, n) if j == i else own for j, own in enumerate(die["tasks"])]))

            found = nearest(would, task[key], loosest(die, task, key))
            if found is not None:
                yield f"[[task]] {nth} (die {at} task {i})", key, task[key], found


def changes_text(tasks, dies):
    """The ten cheapest changes: first those of one number of collections, then that of the alpha with all that goes with it, and
    then those of the part and of what tasks need; in each kind by how many millionths of itself the number changes."""
    def price(change):
        _, key, own, found = change
        return 0 if key in CHOSEN else 1 if key == "alpha" else 2, abs(found - own) * 10**6 // max(own, 1)

    return "".join(f"change: {whose}: {key} from {own} to {found}{BESIDE.get(key, '')}.\n"
                   for whose, key, own, found in sorted(changes_of(tasks, dies), key=price)[:10])


def fault_of(at, die):
    """Why a die may not be used, or nothing."""
    if not meets_bound(die):
        return f"die {at}: {bound_text(die)}.\n"
    for i, task in enumerate(die["tasks"]):
        if said := out_of_limits(task):
            return f"die {at} task {i}: {said}.\n"
    if (load := load_of(die)) > 10**6:
        return f"die {at}: in the long run {load} of each 1000000 slots are asked for: {load - 10**6} missing.\n"
    for slots, demand in demands_of(die):
        if demand > slots:
            return (f"die {at}: an interval of {slots} slots may be asked for {demand}: {demand - slots} missing; "
                    "no shorter one is overfull.\n")
    for i, task in enumerate(die["tasks"]):
        if said := lack_of(die, task):
            return f"die {at} task {i}: {said}.\n"
    return None


def passing_text(at, die):
    demands = demands_of(die)
    slack = min(slots - demand for slots, demand in demands)
    tight = [(slots, demand) for slots, demand in demands if slots - demand == slack]
    if len(tight) > 1:
        raise ValueError(f"die {at}: several intervals are the tightest, and any of them may be named: {tight}")
    slots, demand = tight[0]
    lines = [
        f"die {at}: a collection takes at most {collection_of(die)} slots.",
        f"die {at}: in the long run {load_of(die)} of each 1000000 slots are asked for.",
        f"die {at}: the tightest interval has {slots} slots, of which {demand} may be asked for: {slack} to spare.",
    ]
    for i, task in enumerate(die["tasks"]):
        gained, written = die["alpha"] * task["period"], task["writes"] * task["collect_period"]
        least = least_cap(die, task)
        lines.append(f"die {at} task {i}: alpha * period is {gained}, and writes * collect_period is {written}: "
                     f"{gained - written} to spare.")
        lines.append(f"die {at} task {i}: cap is {task['cap']}, and has to be at least {least}: {task['cap'] - least} to spare.")
    return numbers_text(at, die) + "".join(line + "\n" for line in lines)


def comings(period, due, slots):
    """How many multiples of a period lie below a number of slots, where what comes there is due by the last slot of all."""
    return len(range(0, min(slots, LAST_SLOT - due + 1), period))


def numbers_taken(die, slots):
    """How many jobs and collections come in a number of slots, where tasks ask for all that they may, in as few jobs as may be."""
    return sum(comings(task["period"], task["deadline"], slots) * -(-task["work"] // 64)
               + comings(task["collect_period"], task["collect_deadline"], slots) for task in die["tasks"])


def life_text(at, die):
    few, many = 0, LAST_SLOT + 1
    while many - few > 1:
        middle = (few + many) // 2
        few, many = (middle, many) if numbers_taken(die, middle) <= 65_536 else (few, middle)
    return f"die {at}: where jobs are as few as may be, its life has {few} slots; `renew` begins the next one.\n"


def is_terms_text(text):
    try:
        return "terms" in read_toml(text)
    except Refused:
        return False


def explained(text):
    """The status of `flashplan explain`, and what it prints, of a plan with terms."""
    try:
        top = read_toml(text)
        dies = read_dies(top)
        for at, die in enumerate(dies):
            if said := fault_of(at, die):
                margins = margins_text(at, die) if meets_bound(die) else ""
                raise Fault("BadPlan", numbers_text(at, die) + said + margins + alphas_text(dies) + changes_text(top["task"], dies))
    except Fault as refused:
        refusal, said = refused.args
        return 1, f"The plan is refused: {refusal}.\n{said}"
    said = [passing_text(at, die) for at, die in enumerate(dies)]
    said += [room_text(at, die) + margins_text(at, die) for at, die in enumerate(dies)]
    lives = "".join(life_text(at, die) for at, die in enumerate(dies))
    return 0, "The plan is accepted.\n" + "".join(said) + alphas_text(dies) + lives


def time_text(us):
    """A number of us, in the unit that crates/flashplan_slot_times/README.md says, rounded down to its thousandth."""
    for below, unit, name in ((10**3, 1, "us"), (10**7, 10**3, "ms"), (6 * 10**8, 10**6, "s"), (36 * 10**9, 6 * 10**7, "min"), (None, 36 * 10**8, "h")):
        if below is None or us < below:
            whole, rest = us // unit, us % unit * 1000 // unit
            return f"{whole}.{rest:03}".rstrip("0").rstrip(".") + f" {name}" if rest else f"{whole} {name}"
    return None


TIMED = [
    re.compile(r"(?<=, )(?:period|deadline|held|collect_period|collect_deadline) (\d+)"),
    re.compile(r"(?<=: a collection takes at most )(\d+)|(?<=: the tightest interval has )(\d+)|(?<= slots, of which )(\d+)(?= may)"
               r"|(?<= may be asked for: )(\d+)(?= to spare)|(?<=: an interval of )(\d+)|(?<= slots may be asked for )(\d+)(?=: )"
               r"|(?<=: )(\d+)(?= missing; no shorter)|(?<=the greatest collect_period that would do is )(\d+)"
               r"|(?<=least period )(\d+)|(?<=least deadline )(\d+)|(?<=least collect_deadline )(\d+)|(?<= its life has )(\d+)"),
]
OF_ALPHAS = re.compile(r"(die \d+: with alpha .* and collect_periods and collect_deadlines)((?: \d+)+)(, in the long run .*\n)")
OF_CHANGES = re.compile(r"(change: .*: (?:period|deadline|held|collect_period|collect_deadline) from )(\d+)( to )(\d+)(.*\n)")


def with_times(said, slot_us):
    """What `explain` says of a plan with terms, where a slot's length is known: periods, deadlines and held jobs, a collection, a life, and
    the tightest interval or an overfull one are followed by their times, and so are the periods and deadlines that would do, that go
    with an alpha, or are changed."""
    def timed(number):
        return f"{number} ({time_text(int(number) * slot_us)})"

    lines = []
    for line in said.splitlines(keepends=True):
        if met := OF_ALPHAS.fullmatch(line):
            lines.append(met[1] + "".join(f" {timed(number)}" for number in met[2].split()) + met[3])
        elif met := OF_CHANGES.fullmatch(line):
            lines.append(met[1] + timed(met[2]) + met[3] + timed(met[4]) + met[5])
        else:
            form = TIMED[0] if re.match(r"die \d+ task \d+: cap \d+, period ", line) else TIMED[1]
            lines.append(form.sub(lambda met: f"{met[0]} ({time_text(int(next(n for n in met.groups() if n)) * slot_us)})", line))
    return "".join(lines)

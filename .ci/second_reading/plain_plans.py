"""A second reading of the bound on plans and of the plan test (docs/RULES.md, "Collection" and "Plans with times"), and
with which numbers a plan would pass, by trying all of them. It takes nothing of the programs.

A plan is a dictionary: its keys on top, `common` only where it has times, and `task`, a list of dictionaries."""
import copy
import math

LAST = 1_048_576
ON_TOP = ("blocks", "logical", "alpha", "common")


def meets_bound(plan, tasks):
    """Whether a die with these tasks meets the bound."""
    blocks, pages, alpha = plan["blocks"], plan["pages"], plan["alpha"]
    if not (2 <= blocks <= 1024 and 2 <= pages <= 256 and 1 <= plan["erase_slots"] <= 64):
        return False
    if not (1 <= len(tasks) <= 16 and plan["logical"] >= 1 and 1 <= alpha <= pages and all(t["cap"] >= 1 for t in tasks)):
        return False
    fmax = alpha - 1 + len(tasks) * (pages - alpha) + sum(t["cap"] for t in tasks)
    closed = blocks - fmax // pages - len(tasks)
    return closed > 0 and closed * (pages - alpha + 1) > plan["logical"]


def demand(plan, tasks):
    common = plan["common"]
    collection = 2 * (plan["pages"] - plan["alpha"]) + plan["erase_slots"]
    return sum(t["work"] * (common // t["period"]) + collection * (common // t["collect_period"]) for t in tasks)


def passes_times(plan, tasks):
    """Whether a die with these tasks passes the plan test."""
    common, alpha = plan["common"], plan["alpha"]
    if not 1 <= common <= LAST:
        return False
    for t in tasks:
        if not (1 <= t["period"] <= LAST and 1 <= t["collect_period"] <= LAST):
            return False
        if not t["writes"] <= t["work"] or not 1 <= t["work"] <= 64:
            return False
        if common % t["period"] or common % t["collect_period"]:
            return False
        if t["writes"] * t["collect_period"] > alpha * t["period"] or t["cap"] < 2 * t["writes"] + 2 * alpha:
            return False
    return demand(plan, tasks) <= common


def die_does(plan, die):
    tasks = [t for t in plan["task"] if t["die"] == die]
    return meets_bound(plan, tasks) and ("common" not in plan or passes_times(plan, tasks))


def does(plan):
    """Whether each die of a plan passes."""
    return all(t["die"] < plan["dies"] for t in plan["task"]) and all(die_does(plan, die) for die in range(plan["dies"]))


def changed(plan, key, task, number):
    """The plan with another number at a key, on top or of a task by its place."""
    plan = copy.deepcopy(plan)
    (plan if task is None else plan["task"][task])[key] = number
    return plan


def numbers(plan, key):
    """The numbers that a key may have: those beyond are none with which any plan passes. Of slots it is enough to look at
    what divides, or is a multiple of, something of the plan."""
    pages, common = plan["pages"], plan.get("common", 1)
    if key in ("period", "collect_period"):
        return [n for n in range(1, common + 1) if common % n == 0]
    if key == "common":
        least = math.lcm(*[t[k] for t in plan["task"] for k in ("period", "collect_period")])
        return range(least, min(LAST, 50 * least) + 1, least)
    return {"blocks": range(2, 1025), "logical": range(1, plan["blocks"] * pages + 1), "alpha": range(1, pages + 1),
            "cap": range(1, 700), "work": range(1, 65), "writes": range(0, 65)}[key]


def doing(plan, key, task=None):
    """The numbers at a key with which each die passes, all else as it is."""
    plan = copy.deepcopy(plan)
    place = plan if task is None else plan["task"][task]
    own = None if task is None else place["die"]
    if own is not None and not all(die_does(plan, die) for die in range(plan["dies"]) if die != own):
        return []
    found = []
    for number in numbers(plan, key):
        place[key] = number
        if does(plan) if own is None else die_does(plan, own):
            found.append(number)
    return found


def found_lines(plan, slot_us=None):
    """With which numbers `explain` says that a plan would do whose numbers are within their limits."""
    lines = []
    for key, extreme, pick in (("blocks", "least", min), ("logical", "greatest", max), ("common", "least", min)):
        if key in plan:
            found = doing(plan, key)
            unit = slot_us if key == "common" else None
            end = f"the {extreme} {key} that would do is {timed(pick(found), unit)}." if found else f"no {key} would do."
            lines.append("plan: with its other numbers as they are, " + end)
    if "common" not in plan:
        return lines
    for die in range(plan["dies"]):
        if not all(die_does(plan, other) for other in range(plan["dies"]) if other != die):
            continue
        own = [place for place, t in enumerate(plan["task"]) if t["die"] == die]
        for number, place in enumerate(own):
            parts = []
            for key, extreme, pick in (("period", "least", min), ("collect_period", "greatest", max),
                                       ("cap", "least", min), ("work", "greatest", max), ("writes", "greatest", max)):
                found = doing(plan, key, place)
                unit = slot_us if "period" in key else None
                parts.append(f"{extreme} {key} {timed(pick(found), unit)}" if found else f"no {key}")
            name = f"[[task]] {place + 1} (die {die} task {number})"
            lines.append(f"{name}: one at a time, these would do: {', '.join(parts)}.")
    for alpha in doing(plan, "alpha"):
        for die in range(plan["dies"]):
            taken = demand(changed(plan, "alpha", None, alpha), [t for t in plan["task"] if t["die"] == die])
            lines.append(f"die {die}: with its other numbers as they are, alpha {alpha} would do: of each "
                         f"{timed(plan['common'], slot_us)} slots {timed(taken, slot_us)} are taken.")
    return lines


def timed(slots, slot_us):
    """A number of slots, and behind it in brackets how long they take, where it is known how many us one takes."""
    return str(slots) if slot_us is None else f"{slots} ({time_of(slots * slot_us)})"


def time_of(us):
    """A number of us: in us below 1 ms, in ms below 10 s, in s below 10 min, in min below 10 h, and else in h."""
    for below, unit, name in ((1_000, 1, "us"), (10 ** 7, 10 ** 3, "ms"), (600 * 10 ** 6, 10 ** 6, "s"),
                              (36_000 * 10 ** 6, 60 * 10 ** 6, "min"), (math.inf, 3_600 * 10 ** 6, "h")):
        if us < below:
            return f"{decimals(us, unit)} {name}"


def decimals(parts, unit):
    """A number of parts in units, rounded down to the thousandth, without zeros at the end."""
    thousandths = parts * 1000 // unit
    return f"{thousandths // 1000}.{thousandths % 1000:03}".rstrip("0").rstrip(".")


def alpha_lines(plan, slot_us=None):
    """What `explain` says of each alpha with the least caps and the longest collect periods that go with it."""
    if "common" not in plan:
        return []
    lines, common = [], plan["common"]
    for alpha in range(1, plan["pages"] + 1):
        for die in range(plan["dies"]):
            made = plan | {"alpha": alpha, "task": []}
            for t in (t for t in plan["task"] if t["die"] == die):
                longest = [n for n in range(1, common + 1) if common % n == 0 and t["writes"] * n <= alpha * t["period"]]
                if longest:
                    made["task"].append(t | {"cap": 2 * t["writes"] + 2 * alpha, "collect_period": longest[-1]})
            tasks = made["task"]
            most = greatest_logical(made, tasks)
            if len(tasks) < sum(t["die"] == die for t in plan["task"]) or most is None or not passes_times(made, tasks):
                continue
            caps = "".join(f" {t['cap']}" for t in tasks)
            periods = "".join(" " + timed(t["collect_period"], slot_us) for t in tasks)
            does = ": it would do." if plan["logical"] <= most else ", which is less than it has."
            lines.append(f"die {die}: with alpha {alpha}, caps{caps} and collect_periods{periods}, of each "
                         f"{timed(common, slot_us)} slots {timed(demand(made, tasks), slot_us)} are taken, and the greatest "
                         f"logical is {most}{does}")
    return lines


def greatest_logical(plan, tasks):
    """The greatest number of logical pages with which a die meets its bound, if there is one."""
    if not meets_bound(plan | {"logical": 1}, tasks):
        return None
    fmax = plan["alpha"] - 1 + len(tasks) * (plan["pages"] - plan["alpha"]) + sum(t["cap"] for t in tasks)
    closed = plan["blocks"] - fmax // plan["pages"] - len(tasks)
    return closed * (plan["pages"] - plan["alpha"] + 1) - 1


def change_lines(plan, slot_us=None):
    """The changes of one number with which a plan that is refused would pass, the cheapest first: first those of alpha,
    common, cap and collect_period, then the others; each by how many millionths of itself the number changes."""
    if does(plan):
        return []
    found = []
    for key, pick in (("blocks", min), ("logical", max), ("common", min)):
        if key in plan and doing(plan, key):
            found.append(("plan", key, plan[key], pick(doing(plan, key))))
    for die in range(plan["dies"] if "common" in plan else 0):
        own = [place for place, t in enumerate(plan["task"]) if t["die"] == die]
        for number, place in enumerate(own):
            for key, pick in (("period", min), ("collect_period", max), ("cap", min), ("work", max), ("writes", max)):
                numbers_found = doing(plan, key, place)
                if numbers_found:
                    name = f"[[task]] {place + 1} (die {die} task {number})"
                    found.append((name, key, plan["task"][place][key], pick(numbers_found)))
    for alpha in doing(plan, "alpha") if "common" in plan else []:
        found.append(("plan", "alpha", plan["alpha"], alpha))

    def price(change):
        _, key, old, new = change
        return key not in ("alpha", "common", "cap", "collect_period"), abs(new - old) * 1_000_000 // max(old, 1)
    lines = []
    for name, key, old, new in sorted(found, key=price)[:10]:
        unit = slot_us if key in ("common", "period", "collect_period") else None
        lines.append(f"change: {name}: {key} from {timed(old, unit)} to {timed(new, unit)}.")
    return lines


def text_of(plan):
    """The text of a plan."""
    top = [f"{key} = {plan[key]}" for key in ("version", "dies", "blocks", "pages", "erase_slots", "logical", "alpha", "common")
           if key in plan]
    return "\n".join(top) + "\n" + "".join(
        "\n[[task]]\n" + "".join(f"{key} = {number}\n" for key, number in task.items()) for task in plan["task"])

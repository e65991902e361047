"""A second reading of docs/FORMATS.md, "A checkpoint", and of what docs/RULES.md asks of one: what `flashplan explain PLAN --from
CHECKPOINT` prints of a plan without times, in plain Python. It reads nothing of the program. Of why a checkpoint isn't taken it
has the place and the name, which the sentence begins with. `.ci/second_reading/plays` and `chance-checkpoints` use it."""

from second_reading import plain_plans
from second_reading.plain_texts import closed_of, fmax_of, live_of, number, page, read_plan, read_toml, records

MOST_RECORDS = 2_105_481
MOST_ERASES = 4_293_918_718
# By kind of record how many fields it has, and where it stands among those of a die.
KINDS = {b"page": (4, 0), b"block": (3, 1), b"task": (2, 2), b"die": (3, 3)}


class Broken(Exception):
    """The record at fault, the field in it, and what is wrong with that."""


def numbers(record, fields, places):
    found = []
    for place in places:
        if (value := number(fields[place])) is None:
            raise Broken(record, place + 1, "Number")
        found.append(value)
    return found


def page_of(record, fields):
    """The cell of a page, or nothing, and whether its bytes are kept."""
    place = None if fields[1] == fields[2] == b"" else tuple(numbers(record, fields, (1, 2)))
    if fields[3] and (place is None or page(fields[3]) is None):
        raise Broken(record, 4, "Bytes")
    return place, fields[3] != b""


def check_count(record, fields, count):
    if len(fields) != count:
        raise Broken(record, min(len(fields), count) + 1, "Fields")


def fresh_die():
    return {"pages": [], "blocks": [], "balances": []}


def read_checkpoint(text):
    """The dies of a checkpoint's text: their pages, blocks, balances and spare pages."""
    rows = records(text)
    if not rows or rows[0][0] != b"checkpoint":
        raise Broken(1, 1, "Header")
    if rows[0][1:2] != [b"1"]:
        raise Broken(1, 2, "Version")
    check_count(1, rows[0], 2)
    dies, die, last = [], fresh_die(), 0
    for record, fields in enumerate(rows[1:], 2):
        if record > MOST_RECORDS:
            raise Broken(record, 1, "TooMany")
        if fields[0] not in KINDS:
            raise Broken(record, 1, "Kind")
        count, place = KINDS[fields[0]]
        check_count(record, fields, count)
        item = page_of(record, fields) if place == 0 else numbers(record, fields, range(1, count))
        if place < last:
            raise Broken(record, 1, "Order")
        if place < 3:
            die[("pages", "blocks", "balances")[place]].append(item[0] if place == 2 else item)
            last = place
            continue
        if item[0] != len(dies) or item[0] > 7:
            raise Broken(record, 2, "Die")
        dies.append(dict(die, spare=item[1]))
        die, last = fresh_die(), 0
    if not dies or any(die.values()):
        raise Broken(len(rows) + 1, 1, "Order")
    return dies


def reserves_of(plan):
    return len(plan["tasks"]) * (plan["pages"] - plan["alpha"])


def free_of(plan, die):
    return sum(plan["pages"] - filled for filled, _ in die["blocks"])


def unfit(plan, die, first):
    """The record at fault of a die that doesn't fit its plan, of whose records this is the first, and the fault; or nothing."""
    pages, blocks, balances = die["pages"], die["blocks"], die["balances"]
    to_blocks = first + len(pages)
    to_tasks = to_blocks + len(blocks)
    end = to_tasks + len(balances)
    if (len(pages), len(blocks), len(balances)) != (plan["logical"], plan["blocks"], len(plan["tasks"])):
        return end, "OtherShape"
    is_open = [block for block, (filled, _) in enumerate(blocks) if 0 < filled < plan["pages"]]
    cells = [place for place, _ in pages]
    for name, start, wrong in (
        ("Overfull", to_blocks, [block for block, (filled, _) in enumerate(blocks) if filled > plan["pages"]]),
        ("SecondOpen", to_blocks, is_open[1:]),
        ("WornOut", to_blocks, [block for block, (_, erases) in enumerate(blocks) if erases > MOST_ERASES]),
        ("Unprogrammed", first, [at for at, cell in enumerate(cells)
                                 if cell and (cell[0] >= len(blocks) or cell[1] >= blocks[cell[0]][0])]),
        ("AboveCap", to_tasks, [task for task, balance in enumerate(balances) if balance > plan["tasks"][task]["cap"]]),
        ("OtherSum", end, [] if die["spare"] + sum(balances) + reserves_of(plan) == free_of(plan, die) else [0]),
        ("SharedCell", first, [at for at, cell in enumerate(cells) if cell and cell in cells[:at]]),
    ):
        if wrong:
            return start + wrong[0], name
    return None


def stands(at, plan, die):
    """What stands on a die."""
    balances, erases = die["balances"], [erased for _, erased in die["blocks"]]
    lines = [f"die {at}: {sum(place is not None for place, _ in die['pages'])} of {plan['logical']} logical pages lie in cells; "
             f"{free_of(plan, die)} pages are free: {die['spare']} spare, {sum(balances)} of balances, "
             f"{reserves_of(plan)} of reserves."]
    lines += [f"die {at} task {task}: its balance is {balance} of {plan['tasks'][task]['cap']}."
              for task, balance in enumerate(balances)]
    mean = sum(erases) * 100 // len(erases)
    lines.append(f"die {at}: its blocks were erased {min(erases)} to {max(erases)} times, {mean // 100}.{mean % 100:02} in the mean.")
    return lines


def bound_lines(plan_text, plans):
    """What `explain` says of an accepted plan without times."""
    lines = ["The plan is accepted."]
    for at, plan in enumerate(plans):
        lines += [f"die {at}: while fewer than alpha pages are spare, at most {fmax_of(plan)} are free.",
                  f"die {at}: the closed blocks that no collection works on are then at least {closed_of(plan)}.",
                  f"die {at}: if none of these were worth collecting, at least {live_of(plan)} pages would be valid.",
                  f"die {at}: logical is {plan['logical']}, which is below that."]
    return lines + plain_plans.found_lines(read_toml(plan_text))


def explained(plan_text, checkpoint):
    """The status of `explain PLAN --from CHECKPOINT`, what it prints, and what its report begins with."""
    plans = read_plan(plan_text)
    try:
        dies = read_checkpoint(checkpoint)
    except Broken as broken:
        record, field, fault = broken.args
        return 1, "", f"error: the checkpoint, record {record} field {field}: {fault}: "
    if len(dies) != len(plans):
        return 1, "", f"error: the checkpoint has {len(dies)} dies, and the plan has {len(plans)}\n"
    lines, first = bound_lines(plan_text, plans), 2
    for at, (plan, die) in enumerate(zip(plans, dies)):
        if found := unfit(plan, die, first):
            return 1, "", f"error: the checkpoint, die {at}, record {found[0]}: {found[1]}: "
        lines += stands(at, plan, die)
        first += len(die["pages"]) + len(die["blocks"]) + len(die["balances"]) + 1
    return 0, "".join(line + "\n" for line in lines), ""

"""A second reading of what crates/flashplan/README.md says of `compare`, in plain Python. It reads nothing of the program. The
store's own part is run by `plain_texts.py`; the plain layers are run here, by that page's rules."""

from plain_texts import Die, read_plan, read_script

HEADER = "policy,die,task,jobs,refused,late,unfinished,worst,mean,p99,p999,written,copied,amplification,idle\n"
# By policy the order of its jobs and how it collects.
POLICIES = {"fifo": ("release", "demand"), "rm": ("span", "demand"), "rm-back": ("span", "back"),
            "edf": ("due", "demand"), "edf-back": ("due", "back"), "edf-step": ("due", "step")}
LOW = 2


class Row:
    """A job of a script, by its place among the jobs of its die that the store takes or refuses for lack of tokens."""

    def __init__(self, place, task, release, due, ops):
        self.place, self.task, self.release, self.due, self.ops = place, task, release, due, ops
        self.refused, self.completion, self.carried = False, None, 0


class Slots:
    """What the slots from the first measured one on carried."""

    def __init__(self, first):
        self.first, self.written, self.copied, self.idle = first, 0, 0, 0

    def count(self, slot, name):
        if slot >= self.first:
            setattr(self, name, getattr(self, name) + 1)


# The store

class StoreDie(Die):
    def __init__(self, plan, slots):
        super().__init__(plan)
        self.slots, self.present, self.by_job = slots, 0, False

    def operate(self, job):
        self.by_job = True
        return super().operate(job)

    def collect(self, job):
        self.by_job = False
        return super().collect(job)

    def program(self, held, data):
        self.slots.count(self.present, "written" if self.by_job else "copied")
        super().program(held, data)

    def slot(self):
        self.present = self.now
        super().slot()
        if self.carried[-1] is None:
            self.slots.count(self.present, "idle")


def store_run(plan, rows, slots, first):
    """The rows that count as the die's load, with what became of them in the store."""
    counts = Slots(first)
    die, load, feed = StoreDie(plan, counts), [], list(rows)
    for clock in range(slots + 1):
        while feed and feed[0][1] <= clock:
            _, _, _, task, release, due, ops = feed.pop(0)
            number = len(die.jobs)
            refusal = die.accept(task, release, due, ops)
            if ops is not None and refusal in (None, 12):
                load.append(Row(len(load), task, release, due, ops))
                load[-1].refused = refusal is not None
                load[-1].number = number
        if clock < slots:
            die.slot()
    for row in load:
        row.completion = None if row.refused else die.jobs[row.number].completion
    return load, counts


# The plain layers

class Layer:
    """A die of a plain layer. A cell holds (page, number of the write); `None` is a cell that isn't programmed."""

    def __init__(self, plan, load, policy, pool, counts):
        self.order, self.collecting = POLICIES[policy]
        self.load, self.pool, self.counts = load, pool, counts
        self.pages, self.erase_slots = plan["pages"], plan["erase_slots"]
        self.state, self.erases = ["free"] * plan["blocks"], [0] * plan["blocks"]
        self.cells = [[] for _ in range(plan["blocks"])]
        self.place, self.last, self.writes, self.open = {}, {}, 0, None
        self.collection = None
        spans = {}
        for row in load:
            spans[row.task] = min(spans.get(row.task, row.due), row.due - row.release)
        self.spans = spans

    def key(self, row):
        if self.order == "release":
            return (row.release, row.place)
        if self.order == "span":
            return (self.spans[row.task], row.release, row.place)
        return (row.due, row.place)

    def wholly_free(self):
        return self.state.count("free")

    def free_pages(self):
        free = self.wholly_free() * self.pages
        return free if self.open is None else free + self.pages - len(self.cells[self.open])

    def valid(self, block):
        return [at for at, (page, _) in enumerate(self.cells[block]) if self.place.get(page) == (block, at)]

    def kept(self):
        if self.collection is None:
            return self.pages - 1
        return 0 if self.collection["erased"] else len(self.valid(self.collection["victim"]))

    def victim(self):
        stale = [block for block, state in enumerate(self.state)
                 if state == "closed" and len(self.valid(block)) < self.pages]
        return min(stale, key=lambda block: (len(self.valid(block)), self.erases[block], block), default=None)

    def program(self, page, number):
        if self.open is None:
            self.open = self.state.index("free")
            self.state[self.open] = "open"
        cells = self.cells[self.open]
        self.place[page] = (self.open, len(cells))
        cells.append((page, number))
        if len(cells) == self.pages:
            self.state[self.open], self.open = "closed", None

    def write(self, page):
        self.writes += 1
        self.program(page, self.writes)
        self.last[page] = self.writes

    def is_short(self):
        return self.wholly_free() < LOW

    def begins(self, head, goes):
        """Whether a collection is to begin."""
        idle = head is None and self.wholly_free() < self.pool
        if self.collecting == "demand":
            return self.is_short()
        if self.collecting == "back":
            return self.is_short() or idle
        return idle or head is not None and not goes

    def is_collections(self, goes):
        """Whether the slot is the collection's, which runs."""
        run = self.collection
        if self.collecting == "demand":
            return True
        if self.collecting == "step":
            return not goes
        run["urgent"] = run["urgent"] or self.is_short()
        copies = not run["erased"] and (run["buffer"] is not None or self.valid(run["victim"]))
        return not goes or bool(run["urgent"] and copies)

    def collect(self, slot):
        run = self.collection
        victim, buffer, run["buffer"] = run["victim"], run["buffer"], None
        if buffer is not None:
            page, number, at = buffer
            if self.place.get(page) == (victim, at):
                self.program(page, number)
                self.counts.count(slot, "copied")
                return
        left = self.valid(victim)
        if left:
            page, number = self.cells[victim][left[0]]
            run["buffer"] = (page, number, left[0])
            return
        run["erased"] += 1
        self.state[victim] = "erased"
        if run["erased"] >= self.erase_slots:
            self.state[victim], self.cells[victim] = "free", []
            self.erases[victim] += 1
            self.collection = None

    def carry(self, slot, row):
        letter, page, _ = row.ops[row.carried]
        if letter == b"R":
            block, at = self.place.get(page, (None, None))
            held = None if block is None else self.cells[block][at][1]
            assert held == self.last.get(page), "a read of another write"
        elif letter == b"W":
            self.write(page)
            self.counts.count(slot, "written")
        else:
            self.place.pop(page, None)
            self.last.pop(page, None)
        row.carried += 1
        if row.carried == len(row.ops):
            row.completion = slot + 1

    def slot(self, now):
        ready = [row for row in self.load if row.release <= now and row.completion is None]
        head = min(ready, key=self.key, default=None)
        goes = head is not None
        if goes and head.ops[head.carried][0] == b"W":
            goes = self.free_pages() > self.kept()
        if self.collection is None and self.begins(head, goes):
            victim = self.victim()
            if victim is not None:
                self.collection = {"victim": victim, "buffer": None, "erased": 0, "urgent": False}
        if self.collection is not None and self.is_collections(goes):
            self.collect(now)
        elif goes:
            self.carry(now, head)
        else:
            self.counts.count(now, "idle")


def layer_run(plan, load, policy, slots, first, pool, standing=()):
    """The rows and what the slots carried, of a layer that begins with these pages, one written after the other."""
    counts = Slots(first)
    own = [Row(row.place, row.task, row.release, row.due, row.ops) for row in load]
    layer = Layer(plan, own, policy, pool, counts)
    for page in standing:
        layer.write(page)
    for now in range(slots):
        layer.slot(now)
    return own, counts


# The table

def parts(number, of, digits):
    """A quotient cut to a number of digits."""
    scaled = number * 10**digits // of
    sign, scaled = ("-", -scaled) if scaled < 0 else ("", scaled)
    return f"{sign}{scaled // 10**digits}.{scaled % 10**digits:0{digits}}"


def rank(lateness, share):
    """The least lateness that a number of a thousand don't exceed, by nearest rank."""
    at = -(-len(lateness) * share // 1000)
    return lateness[at - 1]


def record(policy, die, task, rows, slots, counts):
    served = sorted(slots + 1 - row.due if row.completion is None else row.completion - row.due
                    for row in rows if not row.refused)
    refused = sum(row.refused for row in rows)
    unfinished = sum(row.completion is None and not row.refused for row in rows)
    late = sum(lateness > 0 for lateness in served)
    fields = [policy, die, "" if task is None else task, len(rows), refused, late, unfinished,
              served[-1] if served else "", parts(sum(served), len(served), 2) if served else ""]
    ranked = served + ["refused"] * refused
    fields += [rank(ranked, 990), rank(ranked, 999)] if ranked else ["", ""]
    if task is None:
        both = counts.written + counts.copied
        fields += [counts.written, counts.copied, parts(both, counts.written, 3) if counts.written else "", counts.idle]
    else:
        fields += ["", "", "", ""]
    return ",".join(map(str, fields)) + "\n"


def put_die(policy, die, tasks, load, slots, first, counts):
    counted = [row for row in load if row.release >= first and row.due <= slots]
    lines = []
    for task in range(tasks):
        rows = [row for row in counted if row.task == task]
        if rows:
            lines.append(record(policy, die, task, rows, slots, counts))
    return "".join(lines) + record(policy, die, None, counted, slots, counts)


def standing_in(checkpoint):
    """By die the pages that lie in cells, of a checkpoint's text."""
    dies, page = [[]], 0
    for line in checkpoint.splitlines():
        kind, *fields = line.split(",")
        if kind == "page":
            if fields[0]:
                dies[-1].append(page)
            page += 1
        elif kind == "die":
            dies.append([])
            page = 0
    return dies[:-1]


def compare_layers(plan_text, script_text, standing, slots, first=0, pool=4):
    """What `flashplan compare --csv` prints of the plain layers that begin with these pages, where the store takes each job."""
    plans = read_plan(plan_text)
    rows = [row for row in read_script(script_text, len(plans), slots) if row[6] is not None]
    lines = []
    for policy in POLICIES:
        for at, plan in enumerate(plans):
            own = [row for row in rows if row[2] == at]
            load = [Row(place, *row[3:]) for place, row in enumerate(own)]
            ran, counts = layer_run(plan, load, policy, slots, first, pool, standing[at])
            lines.append(put_die(policy, at, len(plan["tasks"]), ran, slots, first, counts))
    return "".join(lines)


def compare(plan_text, script_text, slots, first=0, pool=4):
    """What `flashplan compare --csv` prints."""
    plans = read_plan(plan_text)
    rows = read_script(script_text, len(plans), slots)
    stores = [store_run(plan, [row for row in rows if row[2] == at], slots, first) for at, plan in enumerate(plans)]
    lines = [HEADER]
    for at, (plan, (load, counts)) in enumerate(zip(plans, stores)):
        lines.append(put_die("store", at, len(plan["tasks"]), load, slots, first, counts))
    for policy in POLICIES:
        for at, (plan, (load, _)) in enumerate(zip(plans, stores)):
            own, counts = layer_run(plan, load, policy, slots, first, pool)
            lines.append(put_die(policy, at, len(plan["tasks"]), own, slots, first, counts))
    return "".join(lines)

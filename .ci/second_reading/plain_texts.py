"""A second reading of docs/FORMATS.md and docs/RULES.md: what `flashrec` prints, in plain Python. It reads nothing of the
program, and is slow: a run walks all jobs in each slot that isn't idle. `.ci/second_reading/plays`,
`chance-texts` and `.ci/bench/loads` use it."""

import tomllib

MOST = 4_294_967_295
LAST_SLOT = 1_048_576
NUMBERS = {"NoMemory": 1, "BadShape": 2, "BadPlan": 3, "PlanText": 18, "ScriptRow": 19, "ReportText": 20,
           "ReadFault": 21}
SCRIPT_HEADER = b"at,die,task,kind,release,due,ops"
REPORT_HEADER = b"row,die,job,task,release,due,work,completion,lateness,given,items"
BLANK = b"\xff" * 16


class Refused(Exception):
    """A refusal of a text: its name, and its own numbers and cause."""

    def told(self):
        name, *rest = self.args
        return " ".join(["error", str(NUMBERS[name]), name] + [str(word) for word in rest]) + "\n"


# Records and fields

def records(text):
    """The records of a CSV text: lists of fields. Blank lines are none."""
    if text.startswith(b"\xef\xbb\xbf"):
        text = text[3:]
    made, fields, field = [], [], bytearray()
    begun, fresh, quoted, closing = False, True, False, False
    for byte in text + b"\n":
        if quoted:
            if closing:
                closing = False
                if byte != 34:
                    quoted = False
            elif byte == 34:
                closing = True
                continue
        if quoted:
            field.append(byte)
        elif byte == 44:
            fields.append(bytes(field))
            field, begun, fresh = bytearray(), True, True
        elif byte in (10, 13):
            if begun:
                made.append(fields + [bytes(field)])
                fields, field, begun, fresh = [], bytearray(), False, True
        elif byte == 34 and fresh:
            quoted, begun, fresh = True, True, False
        else:
            field.append(byte)
            begun, fresh = True, False
    if quoted and not closing:
        # The line feed that was put after the text is no part of its last field.
        made.append(fields + [bytes(field[:-1])])
    return made


def number(digits):
    if 1 <= len(digits) <= 10 and digits.isdigit() and int(digits) <= MOST:
        return int(digits)
    return None


def page(digits):
    if len(digits) == 32 and all(digit in b"0123456789abcdefABCDEF" for digit in digits):
        return bytes.fromhex(digits.decode())
    return None


def words(field, read):
    """What the words of a field say, one space between two; None where one says nothing."""
    said = [read(word) for word in field.split(b" ")] if field else []
    return None if None in said else said


# Plans

TOP = ["version", "dies", "blocks", "pages", "erase_slots", "logical", "alpha"]
TASK = ["die", "cap"]
TIMES = ["period", "collect_period", "work", "writes"]


def is_number(value):
    return type(value) is int and 0 <= value <= MOST


def has_great_number(value):
    if isinstance(value, dict):
        return any(has_great_number(inner) for inner in value.values())
    if isinstance(value, list):
        return any(has_great_number(inner) for inner in value)
    return type(value) is int and not -2**63 <= value < 2**63


def keys_of(table, wanted):
    if any(key not in wanted for key in table):
        raise Refused("PlanText", "ExtraKey")
    if any(key not in table for key in wanted):
        raise Refused("PlanText", "MissingKey")


def numbers_of(table, keys):
    if not all(is_number(table[key]) for key in keys):
        raise Refused("PlanText", "WrongKind")


def read_toml(text):
    if len(text) > 1_048_576:
        raise Refused("PlanText", "TooLong")
    try:
        top = tomllib.loads(text.decode())
    except (UnicodeDecodeError, tomllib.TOMLDecodeError, RecursionError):
        raise Refused("PlanText", "NotToml") from None
    if has_great_number(top):
        raise Refused("PlanText", "NotToml")
    return top


def fmax_of(die):
    pages, alpha, caps = die["pages"], die["alpha"], [task["cap"] for task in die["tasks"]]
    return alpha - 1 + len(caps) * (pages - alpha) + sum(caps)


def closed_of(die):
    return die["blocks"] - fmax_of(die) // die["pages"] - len(die["tasks"])


def live_of(die):
    return closed_of(die) * (die["pages"] - die["alpha"] + 1)


def meets_bound(die):
    caps = [task["cap"] for task in die["tasks"]]
    return (die["logical"] >= 1 and 1 <= die["alpha"] <= die["pages"] and 1 <= len(caps) <= 16
            and all(cap >= 1 for cap in caps) and closed_of(die) > 0 and live_of(die) > die["logical"])


def load_of(die):
    slots = 2 * (die["pages"] - die["alpha"]) + die["erase_slots"]
    common = die["common"]
    return sum(task["work"] * (common // task["period"]) + slots * (common // task["collect_period"])
               for task in die["tasks"])


def passes(die):
    common = die["common"]
    if not 1 <= common <= LAST_SLOT:
        return False
    for task in die["tasks"]:
        period, collect, writes = task["period"], task["collect_period"], task["writes"]
        if not (1 <= period <= LAST_SLOT and 1 <= collect <= LAST_SLOT and 1 <= task["work"] <= 64):
            return False
        if writes > task["work"] or common % period or common % collect:
            return False
        if writes * collect > die["alpha"] * period or task["cap"] < 2 * writes + 2 * die["alpha"]:
            return False
    return load_of(die) <= common


def read_plan(text):
    """The dies of a plan."""
    top = read_toml(text)
    timed = is_number(top.get("version")) and top["version"] == 2
    common = ["common"] if timed else []
    keys_of(top, TOP + common + ["task"])
    numbers_of(top, TOP + common)
    tasks = top["task"]
    if type(tasks) is not list or not all(isinstance(task, dict) for task in tasks):
        raise Refused("PlanText", "WrongKind")
    if top["version"] not in (1, 2):
        raise Refused("PlanText", "BadVersion")
    for task in tasks:
        keys_of(task, TASK + (TIMES if timed else []))
        numbers_of(task, TASK + (TIMES if timed else []))
    if not (1 <= top["dies"] <= 8 and 2 <= top["blocks"] <= 1_024 and 2 <= top["pages"] <= 256
            and 1 <= top["erase_slots"] <= 64):
        raise Refused("BadShape")
    if any(task["die"] >= top["dies"] for task in tasks):
        raise Refused("BadPlan")
    dies = [dict(top, tasks=[task for task in tasks if task["die"] == die]) for die in range(top["dies"])]
    if not all(meets_bound(die) and (not timed or passes(die)) for die in dies):
        raise Refused("BadPlan")
    return dies


def figures(dies):
    lines = []
    for at, die in enumerate(dies):
        lines.append(f"die {at} fmax {fmax_of(die)} closed {closed_of(die)} live {live_of(die)} "
                     f"logical {die['logical']} accepted\n")
        if die["version"] == 2:
            lines.append(f"die {at} load {load_of(die)} of {die['common']}\n")
    return "".join(lines)


# Scripts

def read_op(word):
    """An operation: (letter, page, what it writes)."""
    letter, rest = word[:1], word[1:]
    if letter in (b"R", b"T"):
        where = number(rest)
        return None if where is None else (letter, where, None)
    if letter == b"W" and b"=" in rest:
        digits, _, data = rest.partition(b"=")
        where, data = number(digits), page(data)
        return None if where is None or data is None else (letter, where, data)
    return None


def read_row(fields, line, slots, lasts):
    """A row of a script: (line, at, die, task, release, due, operations), without operations where it collects."""
    if len(fields) != 7:
        raise Refused("ScriptRow", line, "Fields")
    numbers = [number(fields[at]) for at in (0, 1, 2, 4, 5)]
    if None in numbers:
        raise Refused("ScriptRow", line, "Number")
    at, die, task, release, due = numbers
    if fields[3] not in (b"job", b"collect"):
        raise Refused("ScriptRow", line, "Kind")
    if die >= len(lasts):
        raise Refused("ScriptRow", line, "Die")
    if at < lasts[die] or at > slots:
        raise Refused("ScriptRow", line, "At")
    lasts[die] = at
    if fields[3] == b"collect":
        ops = None
        if fields[6]:
            raise Refused("ScriptRow", line, "Ops")
    else:
        ops = words(fields[6], read_op)
        if ops is None:
            raise Refused("ScriptRow", line, "Ops")
    return line, at, die, task, release, due, ops


def read_script(text, dies, slots):
    rows, lasts = [], [0] * dies
    all_records = records(text)
    if not all_records:
        raise Refused("ScriptRow", 1, "Header")
    for line, fields in enumerate(all_records, 1):
        if line > 1_000_001:
            raise Refused("ScriptRow", line, "TooManyRows")
        if line == 1:
            if fields != SCRIPT_HEADER.split(b","):
                raise Refused("ScriptRow", 1, "Header")
        else:
            rows.append(read_row(fields, line, slots, lasts))
    return rows


# Dies

class Job:
    """A job, or a collection where it has no operations."""

    def __init__(self, number, task, release, due, ops):
        self.number, self.task, self.release, self.due, self.ops = number, task, release, due, ops
        self.key = (due, number)
        self.work, self.completion, self.given, self.reads = 0, None, None, []
        self.victim, self.buffer, self.copies, self.erased = None, None, 0, 0

    def waits(self):
        return self.completion is None and not (self.ops is None and self.given is not None)


class Die:
    def __init__(self, plan):
        self.blocks, self.pages, self.logical = plan["blocks"], plan["pages"], plan["logical"]
        self.erase_slots, self.alpha = plan["erase_slots"], plan["alpha"]
        self.caps = [task["cap"] for task in plan["tasks"]]
        self.balance, self.hold = list(self.caps), [0] * len(self.caps)
        self.reserve = [self.pages - self.alpha] * len(self.caps)
        self.spare = self.blocks * self.pages - sum(self.balance) - sum(self.reserve)
        self.state, self.erases = ["free"] * self.blocks, [0] * self.blocks
        self.cells = [[] for _ in range(self.blocks)]
        self.place, self.open = {}, None
        self.now, self.jobs, self.waiting, self.carried = 0, [], [], []

    def refusal_of(self, task, release, due, ops):
        """The number of the refusal of a job or a collection; None where it is accepted."""
        if task >= len(self.caps):
            return 5
        if ops is not None:
            if not ops:
                return 6
            if len(ops) > 64:
                return 7
            if any(op[1] >= self.logical for op in ops):
                return 8
        if release < self.now:
            return 9
        if due <= release or due > LAST_SLOT:
            return 10
        if ops is None and any(job.ops is None and job.task == task for job in self.waiting):
            return 13
        if len(self.jobs) == 65_536:
            return 11
        if ops is not None and sum(op[0] == b"W" for op in ops) > self.balance[task]:
            return 12
        return None

    def accept(self, task, release, due, ops):
        """Accepts a job or a collection, or answers the number of its refusal."""
        refusal = self.refusal_of(task, release, due, ops)
        if refusal is None:
            job = Job(len(self.jobs), task, release, due, ops)
            self.jobs.append(job)
            self.waiting.append(job)
            writes = sum(op[0] == b"W" for op in ops or [])
            self.balance[task] -= writes
            self.hold[task] += writes
        return refusal

    def gift(self, task):
        return min(self.alpha, self.caps[task] - self.balance[task] - self.hold[task])

    def head(self):
        """What the slot takes; collections that aren't needed are waived."""
        while True:
            ready = [job for job in self.waiting if job.release <= self.now]
            if not ready:
                return None
            head = min(ready, key=lambda job: job.key)
            if head.ops is not None or head.victim is not None:
                return head
            if self.spare < self.alpha:
                self.take_victim(head)
                return head
            head.given = self.gift(head.task)
            self.spare -= head.given
            self.balance[head.task] += head.given
            self.waiting.remove(head)

    def valid(self, block):
        return sum(self.place.get(held) == (block, at) for at, (held, _) in enumerate(self.cells[block]))

    def take_victim(self, head):
        taken = {job.victim for job in self.waiting}
        closed = [block for block in range(self.blocks) if self.state[block] == "closed" and block not in taken]
        head.victim = min(closed, key=lambda block: (self.valid(block), self.erases[block], block))

    def program(self, held, data):
        if self.open is None:
            self.open = self.state.index("free")
            self.state[self.open] = "open"
        cells = self.cells[self.open]
        self.place[held] = (self.open, len(cells))
        cells.append((held, data))
        if len(cells) == self.pages:
            self.state[self.open] = "closed"
            self.open = None

    def operate(self, job):
        letter, held, data = job.ops[job.work]
        if letter == b"R":
            block, at = self.place.get(held, (None, None))
            job.reads.append(BLANK if block is None else self.cells[block][at][1])
        elif letter == b"W":
            self.hold[job.task] -= 1
            self.program(held, data)
        else:
            self.place.pop(held, None)
        return job.work + 1 == len(job.ops)

    def collect(self, job):
        victim = job.victim
        if job.buffer is not None:
            held, data, at = job.buffer
            job.buffer = None
            if self.place.get(held) == (victim, at):
                self.reserve[job.task] -= 1
                job.copies += 1
                self.program(held, data)
                return False
        for at, (held, data) in enumerate(self.cells[victim]):
            if self.place.get(held) == (victim, at):
                job.buffer = (held, data, at)
                return False
        self.state[victim] = "erased"
        job.erased += 1
        if job.erased < self.erase_slots:
            return False
        self.state[victim], self.cells[victim] = "free", []
        self.erases[victim] += 1
        job.given = self.gift(job.task)
        self.balance[job.task] += job.given
        self.reserve[job.task] += job.copies
        self.spare += self.pages - job.copies - job.given
        return True

    def slot(self):
        head = self.head()
        self.carried.append(None if head is None else head.number)
        self.now += 1
        if head is not None:
            is_done = self.operate(head) if head.ops is not None else self.collect(head)
            head.work += 1
            if is_done:
                head.completion = self.now
                self.waiting.remove(head)

    def worst(self):
        done = [job for job in self.jobs if job.completion is not None]
        return min(done, key=lambda job: (job.due - job.completion, job.completion), default=None)

    def certificate(self, job):
        """The first slot of the stretch that ends with a job's completion, and the numbers carried there."""
        start = job.completion
        while start > 0 and self.carried[start - 1] is not None:
            if self.jobs[self.carried[start - 1]].key > job.key:
                break
            start -= 1
        return start, sorted(set(self.carried[start:job.completion]))


def run_die(plan, rows, slots):
    """A die after a run, and its refused rows: (line, number)."""
    die, refused, feed = Die(plan), [], list(rows)
    for clock in range(slots + 1):
        while feed and feed[0][1] <= clock:
            line, _, _, task, release, due, ops = feed.pop(0)
            refusal = die.accept(task, release, due, ops)
            if refusal is not None:
                refused.append((line, refusal))
        if clock < slots:
            die.slot()
    return die, refused


# What a refused row is called by the number of its refusal, and what is told of it.
NAMES = {
    5: "UnknownTask: its die has no such task",
    6: "EmptyJob: a job has 1 to 64 operations, and it has none",
    7: "TooManyOps: a job has 1 to 64 operations, and it has more",
    8: "BadPage: one of its pages isn't below `logical`",
    9: "ReleasePast: its `release` is below its `at`",
    10: "BadDue: its `due` isn't above its `release`, or is above 1048576",
    11: "JobsFull: its die has taken 65536 jobs and collections, which is a life",
    12: "NoTokens: it has more writes than its task has tokens: collect more often, or write less",
    13: "CollectorBusy: a collection of its task is neither done nor waived yet",
    14: "ClockEnd: its slot is the last one of a life",
}


def told_of(refused):
    """What is told of refused rows, each its record and the number of its refusal: how many there are and the first one, and
    then a line a refusal, by number."""
    if not refused:
        return ""
    line, number = min(refused)
    numbers = [number for _, number in refused]
    kinds = [f"{numbers.count(number)} with {number} {NAMES[number]}\n" for number in sorted(set(numbers))]
    return f"refused {len(refused)} first line {line} with {number}\n" + "".join(kinds)


def joined(items):
    return " ".join(items)


def job_line(at, job):
    kind = "job" if job.ops is not None else "collect" if job.waits() or job.completion is not None else "waived"
    done = job.completion is not None
    completion = job.completion if done else ""
    late = job.completion - job.due if done else ""
    given = "" if job.given is None else job.given
    items = joined(data.hex() for data in job.reads) if done else ""
    return (f"{kind},{at},{job.number},{job.task},{job.release},{job.due},{job.work},"
            f"{completion},{late},{given},{items}\n")


def run(plan_text, script_text, slots):
    """The report of a run, what is told of refused rows, and the dies."""
    plans = read_plan(plan_text)
    rows = read_script(script_text, len(plans), slots)
    dies, refused = [], []
    for at, plan in enumerate(plans):
        die, lines = run_die(plan, [row for row in rows if row[2] == at], slots)
        dies.append(die)
        refused += lines
    report = [REPORT_HEADER.decode() + "\n"]
    for at, die in enumerate(dies):
        report += [job_line(at, job) for job in die.jobs]
    for at, die in enumerate(dies):
        worst = die.worst()
        if worst is not None:
            start, listed = die.certificate(worst)
            report.append(f"cert,{at},{worst.number},,{start},{worst.due},,{worst.completion},"
                          f"{worst.completion - worst.due},,{joined(map(str, listed))}\n")
    return "".join(report), told_of(refused), dies


# Reports

def lateness(text):
    if text.startswith(b"-"):
        late = number(text[1:])
        return -late if late else None
    return number(text)


def report_row(fields, line):
    """A row of a report: (kind, die, number, release, due, work, completion)."""
    wrong = Refused("ReportText", line)
    if len(fields) != 11:
        raise wrong
    kind, *rest = fields
    numbers = [number(field) for field in rest[:6]]
    if kind not in (b"job", b"collect", b"waived") or None in numbers:
        raise wrong
    die, job, task, release, due, work = numbers
    filled = [None if field == b"" else read(field) for field, read in
              zip(rest[6:9], (number, lateness, number))]
    if any(field != b"" and value is None for field, value in zip(rest[6:9], filled)):
        raise wrong
    completion, late, given = filled
    reads = words(rest[9], page)
    if reads is None or die > 7 or job > 65_535 or task > 15 or not release < due <= LAST_SLOT:
        raise wrong
    done = completion is not None
    if done and (kind == b"waived" or completion > LAST_SLOT or work == 0 or late != completion - due):
        raise wrong
    if not done and late is not None:
        raise wrong
    has_given = kind == b"waived" or kind == b"collect" and done
    if has_given != (given is not None) or kind == b"waived" and work > 0:
        raise wrong
    if len(reads) > (64 if kind == b"job" and done else 0):
        raise wrong
    return kind, die, job, release, due, work, completion


def read_report(text):
    """By die its rows and its certificate: (start, due, completion, job, listed)."""
    all_records = records(text)
    if not all_records or all_records[0] != REPORT_HEADER.split(b","):
        raise Refused("ReportText", 1)
    dies, line = {}, 1
    for fields in all_records[1:]:
        if fields[0] == b"cert":
            break
        row = report_row(fields, line + 1)
        die, job = row[1], row[2]
        if die not in dies and dies and die < max(dies) or job != len(dies.get(die, [])):
            raise Refused("ReportText", line + 1)
        if dies and die != max(dies) and die in dies:
            raise Refused("ReportText", line + 1)
        dies.setdefault(die, []).append(row)
        line += 1
    certs = {}
    for die, rows in dies.items():
        done = [row for row in rows if row[6] is not None]
        if not done:
            continue
        line += 1
        worst = min(done, key=lambda row: (row[4] - row[6], row[6]))
        _, _, job, _, due, _, completion = worst
        fields = all_records[line - 1] if line <= len(all_records) else []
        if len(fields) != 11 or fields[0] != b"cert" or (fields[3], fields[6], fields[9]) != (b"", b"", b""):
            raise Refused("ReportText", line)
        numbers = [number(fields[at]) for at in (1, 2, 5, 7)]
        start, listed = number(fields[4]), words(fields[10], number)
        if numbers != [die, job, due, completion] or lateness(fields[8]) != completion - due:
            raise Refused("ReportText", line)
        if start is None or listed is None:
            raise Refused("ReportText", line)
        certs[die] = (start, due, completion, job, listed)
    if len(all_records) > line:
        raise Refused("ReportText", line + 1)
    return [(die, rows, certs.get(die)) for die, rows in dies.items()]


def verdict(rows, cert):
    start, due, completion, _, listed = cert
    by_number = {row[2]: row for row in rows if row[0] != b"waived"}
    if not listed:
        return "refused 1 Empty"
    if any(low >= high for low, high in zip(listed, listed[1:])):
        return "refused 2 NotRising"
    for job in listed:
        if job not in by_number:
            return "refused 3 UnknownJob"
        row = by_number[job]
        if row[6] is None:
            return "refused 4 Unfinished"
        if row[3] < start:
            return "refused 5 EarlyRelease"
        if row[4] > due:
            return "refused 6 LateDue"
    if sum(by_number[job][5] for job in listed) + start != completion:
        return "refused 7 WrongSum"
    return "holds"


def audit(text):
    """What an audit prints, and its status."""
    lines, status = [], 0
    for die, rows, cert in read_report(text):
        if cert is None:
            lines.append(f"die {die} no lateness\n")
        else:
            said = verdict(rows, cert)
            status = status if said == "holds" else 3
            lines.append(f"die {die} worst {cert[2] - cert[1]} job {cert[3]} {said}\n")
    return "".join(lines), status


# The program

def flashrec(words, files):
    """What `flashrec` prints, tells and ends with: (status, out, err). `files` gives the text of a name."""
    command, *rest = words
    try:
        if command == "plan":
            return 0, figures(read_plan(files(rest[0]))), ""
        if command == "audit":
            out, status = audit(files(rest[0]))
            return status, out, ""
        slots = int(rest[rest.index("--slots") + 1])
        out, err, _ = run(files(rest[0]), files(rest[1]), slots)
        return 0, out, err
    except Refused as refused:
        return 1, "", refused.told()

"""What Die refuses before it calls the library, and threads that share a die."""
import threading

import maulgreen
from maulgreen import BLANK, READ, TRIM, WRITE, Die, Plan, Task

PLAN, TASK = Plan(8, 4, 3, 16, 2), Task(4)
OTHER = 2**32


def is_wrong(call):
    try:
        call()
    except ValueError:
        return
    raise SystemExit("wrong: it was taken")


die = Die(PLAN, [TASK])
for wrong in (-1, OTHER, OTHER + 5, 1.0, "1", None, True):
    is_wrong(lambda: die.submit(wrong, 0, 5, [(READ, 0)]))
    is_wrong(lambda: die.submit(0, wrong, 5, [(READ, 0)]))
    is_wrong(lambda: die.submit(0, 0, wrong, [(READ, 0)]))
    is_wrong(lambda: die.submit(0, 0, 5, [(READ, wrong)]))
    is_wrong(lambda: die.submit(0, 0, 5, [(READ, 0)], wrong))
    is_wrong(lambda: die.collect(0, 0, wrong))
    is_wrong(lambda: die.begin(wrong))
    is_wrong(lambda: die.reserve(wrong))
    is_wrong(lambda: die.reserve_jobs(wrong, 1))
    is_wrong(lambda: die.reserve_jobs(1, wrong))
    is_wrong(lambda: die.outcome(wrong))
    is_wrong(lambda: die.place(wrong))
    is_wrong(lambda: die.log(wrong))
    is_wrong(lambda: die.log(0, wrong))
    is_wrong(lambda: maulgreen.memory(PLAN, [TASK], wrong))
    is_wrong(lambda: Die(PLAN._replace(blocks=wrong), [TASK]))
    is_wrong(lambda: maulgreen.bound(PLAN, [TASK._replace(cap=wrong)]))
for op in ((WRITE, 4), (WRITE, 4, b"abc"), (WRITE, 4, b"x" * 17), (WRITE, 4, "x" * 16), (READ, 4, BLANK), (TRIM, 4, BLANK), (READ,)):
    is_wrong(lambda: die.submit(0, 0, 5, [op]))
assert len(die) == 0, "nothing was called"
job = die.submit(0, 0, 5, [(WRITE, 4, b"x" * 16)])
call = die.begin()
assert call.logical == 4 and call.job == job
is_wrong(lambda: die.end(True, b"short"))
assert die.end(True).finished

# Two operations, due after the first.
other = Die(PLAN, [TASK])
late = other.submit(0, 0, 1, [(READ, 4), (READ, 4)])
assert other.overdue() is None, "it is due in a slot"
other.slot(lambda call: (True, BLANK))
assert other.overdue() == maulgreen.Overdue(job=late, due=1, late_by=1)
other.slot(lambda call: (True, BLANK))
assert other.overdue() is None, "it is done"
other.close()



# A part of nine blocks, by cell what was programmed there, with its label. It is mounted, and a die writes and reads; after each write
# the power may go.
class Part:
    def __init__(self):
        self.cells = {}
        self.read = None

    def program(self, block, page, name, label):
        assert (block, page) not in self.cells and all((block, earlier) in self.cells for earlier in range(page)), "the next cell"
        self.cells[block, page] = name, label

    def erase(self, block):
        for page in range(PLAN.pages):
            self.cells.pop((block, page), None)

    def mount(self):
        mount, names = maulgreen.Mount(PLAN, [TASK]), {}
        while (step := mount.step()).kind != maulgreen.NEEDS_NOTHING:
            cell = step.block, step.page
            if step.kind == maulgreen.TELL_BLOCK:
                told = [self.cells.get((step.block, page), (None, None)) for page in range(PLAN.pages)]
                names.update({label: name for name, label in told if label})
                mount.tell(label for _, label in told)
                continue
            left = mount.calls_left()
            if step.kind == maulgreen.READ_PAGE:
                self.read = self.cells[cell][0]
            elif step.kind == maulgreen.PROGRAM_PAGE:
                self.program(*cell, self.read, (step.logical, step.serial, step.erases))
            elif step.last:
                self.erase(step.block)
            mount.done()
            assert mount.calls_left() < left
        places = [mount.place(page) for page in range(PLAN.logical)]
        return mount.end([self.cells[at][0] if at else BLANK for at in places])

    def drive(self, die, call):
        cell = die.part_block(call.block), call.page
        if call.kind == maulgreen.PROGRAM_CELL:
            self.program(*cell, call.name, (call.logical, die.serial(), call.erases))
        if call.kind == maulgreen.ERASE_SLOT and call.last:
            self.erase(cell[0])
        return True, self.cells[cell][0] if call.kind == maulgreen.READ_CELL else BLANK


part, written = Part(), {}
for life in range(12):
    with part.mount() as mounted:
        is_wrong(lambda: mounted.part_block(-1))
        for turn in range(9):
            page = (life * 5 + turn * 3) % PLAN.logical
            name = bytes([life, turn]) * 8
            now = mounted.now()
            try:
                mounted.collect(0, now, now + 40)
            except maulgreen.Refusal as refusal:
                assert refusal.name == "CollectorBusy"
            try:
                wanted = mounted.submit(0, now, now + 9, [(WRITE, page, name)])
            except maulgreen.Refusal as refusal:
                assert refusal.name == "NoTokens"
                wanted = None
            while wanted is not None:
                reply = mounted.slot(lambda call: part.drive(mounted, call))
                if reply.finished and reply.job == wanted:
                    written[page], wanted = name, None
    with part.mount() as mounted:
        for page in range(PLAN.logical):
            now = mounted.now()
            job = mounted.submit(0, now, now + 1, [(READ, page)])
            assert mounted.slot(lambda call: part.drive(mounted, call)).name == written.get(page, BLANK), "nothing is lost"
# A part with three blocks more than the plan, of which block 1 is bad: the last one is spare.
numbers = PLAN.blocks + 1
with maulgreen.Spares(PLAN, numbers + 2, [1]) as table:
    is_wrong(lambda: table.done(-1))
    while table.next().kind == maulgreen.MOVE_ERASE:
        table.done(maulgreen.MOVE_DONE)
    assert (table.left(), table.block(1), table.use(1)[0], table.use(numbers + 1)) == (1, 2, maulgreen.USE_BAD, (maulgreen.USE_SPARE, 0))
    table.program_failed(0, 1)
    assert table.next() == (maulgreen.MOVE_COPY, numbers + 1, 0, 0)
    table.done(maulgreen.MOVE_DONE)
    assert table.next() == (maulgreen.MOVE_PROGRAM, numbers + 1, 1, 0) and table.block(0) == 0
    table.done(maulgreen.MOVE_DONE)
    assert table.block(0) == numbers + 1 and table.use(numbers + 1) == (maulgreen.USE_NUMBER, 0)
    for refused in (lambda: table.erase_failed(3), table.next):
        try:
            refused()
            raise SystemExit("wrong: no spare block is left")
        except maulgreen.Refusal as refusal:
            assert refusal.name == "NoSpare"
with maulgreen.Spares(PLAN, numbers, [], powered=True) as table:
    for block in range(numbers):
        assert table.next() == (maulgreen.MOVE_TELL, block, 0, 0)
        table.tell([(0, block + 1), None])
    assert table.next().kind == maulgreen.MOVE_NONE and [table.block(b) for b in range(numbers)] == list(range(numbers))
with maulgreen.Mount(PLAN, [TASK]) as mount:
    for wrong in ([(0, -1)], [(0, 2**64)], [(-1, 0)], [(0, 1.0)], [(0, 1, -1)], [(0, 1, 2**32)]):
        is_wrong(lambda: mount.tell(wrong))
    try:
        mount.done()
        raise SystemExit("wrong: blocks come first")
    except maulgreen.Refusal as refusal:
        assert refusal.name == "WrongStep"
is_wrong(mount.step)

# A die that keeps its plan is shut down and mounted.
TERMS = maulgreen.Terms(20, 10, 10, 2, 1, 20, 20)
CAP, SMALL = Task(6), PLAN._replace(logical=12)
kept = maulgreen.Planned(SMALL, [CAP], [TERMS], 100)
taken = kept.checkpoint()
for wrong in (-1, OTHER, 1.0, None):
    is_wrong(lambda: kept.part_block(wrong))
    is_wrong(lambda: maulgreen.Planned(SMALL, [CAP], [TERMS], wrong, taken))
    is_wrong(lambda: maulgreen.Planned(SMALL, [CAP], [TERMS], 100, taken._replace(spare=wrong)))
    is_wrong(lambda: maulgreen.Planned(SMALL, [CAP], [TERMS], 100, taken._replace(part=(1, wrong))))
is_wrong(lambda: maulgreen.Planned(SMALL, [CAP], [], 100, taken))
is_wrong(lambda: maulgreen.Planned(SMALL, [CAP], [TERMS], 100, taken._replace(names=[b"short"])))
kept.close()
is_wrong(kept.checkpoint)
is_wrong(kept.serial)
try:
    maulgreen.Planned(SMALL, [CAP], [TERMS], 100, taken._replace(balances=[0], spare=taken.spare + 6))
    raise SystemExit("wrong: a task with too few pages goes on")
except maulgreen.Refusal as refusal:
    assert (refusal.name, refusal.first, refusal.second, refusal.third) == ("NotStocked", 0, 0, 3)
with maulgreen.Planned(SMALL, [CAP], [TERMS], 60, taken) as kept:
    assert kept.life() == maulgreen.Life(0, 60, 0) and kept.checkpoint() == taken and kept.serial() == 1 and taken.part == (1, 8)
    try:
        kept.begin()
        raise SystemExit("wrong: a slot begins though the checkpoint stands")
    except maulgreen.Refusal as refusal:
        assert refusal.name == "CheckpointStands"
    kept.checkpoint_void()
    kept.slot(lambda call: (True, BLANK))
with maulgreen.Planned(SMALL, [CAP], [TERMS], 60, taken._replace(part=(9, 2))) as kept:
    assert kept.serial() == 9 and kept.part_block(2) == 8 and kept.part_block(7) == 7 and kept.checkpoint().part == (9, 2)
with maulgreen.Planned(SMALL, [CAP], [TERMS], 60, taken._replace(part=None)) as kept:
    assert kept.serial() == 1 and kept.part_block(2) == 2
with maulgreen.Mount(SMALL, [CAP]) as mount:
    is_wrong(lambda: mount.end_planned([TERMS], -1, []))
    is_wrong(lambda: mount.end_planned([TERMS], 100, [b"short"]))
    while (step := mount.step()).kind != maulgreen.NEEDS_NOTHING:
        if step.kind == maulgreen.TELL_BLOCK:
            mount.tell([(7, 40)] if step.block == 2 else [])
        else:
            mount.done()
    with mount.end_planned([TERMS], 100, [BLANK] * 7 + [b"x" * 16]) as kept:
        assert kept.serial() == 41 and kept.place(7) == (2, 0) and kept.ask(0, [(READ, 7)]).due == 10
        assert kept.slot(lambda call: (True, call.name)).name == b"x" * 16

# Questions of three threads beside slots: ctypes lets go of the interpreter's lock meanwhile.
done = threading.Event()


def ask():
    while not done.is_set():
        assert len(die.log(0, 20)) >= 2 and die.place(3) is None
        assert die.now() >= 1 and die.worst().lateness <= 0 and len(die.rows()) >= 1


threads = [threading.Thread(target=ask) for _ in range(3)]
for thread in threads:
    thread.start()
for _ in range(300):
    die.submit(0, die.now(), die.now() + 9, [(TRIM, 4)])
    die.slot(lambda call: (True, BLANK))
done.set()
for thread in threads:
    thread.join()
die.close()
is_wrong(die.now)
is_wrong(lambda: die.place(4))
is_wrong(die.log)
print("all as it should be")

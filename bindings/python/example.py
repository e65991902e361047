"""Drives a simulated chip from Python: 200 rounds of a collection and a job, then a page that the chip corrupts."""
import maulgreen


class Chip:
    def __init__(self):
        self.cells = {}

    def drive(self, call):
        if call.kind == maulgreen.READ_CELL:
            return True, self.cells[call.block, call.page]
        if call.kind == maulgreen.PROGRAM_CELL:
            self.cells[call.block, call.page] = call.name
        # NOTE_TRIM: a driver that keeps a record of trims writes it then.
        if call.kind == maulgreen.ERASE_SLOT and call.last:
            self.cells = {cell: name for cell, name in self.cells.items() if cell[0] != call.block}
        return True, maulgreen.BLANK


def refused(call):
    try:
        call()
    except maulgreen.Refusal as refusal:
        return str(refusal)
    return None


chip = Chip()
with maulgreen.Die(maulgreen.Plan(8, 4, 3, 16, 2), [maulgreen.Task(4)]) as die:
    # Careful programs reserve: then nothing is refused for memory, nor waits for it.
    die.reserve_jobs(400, 400)
    die.reserve(4000)
    print(maulgreen.memory(maulgreen.Plan(8, 4, 3, 16, 2), [maulgreen.Task(4)], 4000, 400, 400).reserved, "bytes at most")
    acts, seed = [0] * 7, 1
    for r in range(200):
        seed = (seed * 1664525 + 1013904223) % 2**32
        now, page, name = die.now(), seed >> 28, bytes([r]) * 16
        die.collect(0, now, now + 40)
        job = die.submit(0, now, now + 8, [(maulgreen.WRITE, page, name), (maulgreen.READ, page)])
        while True:
            reply = die.slot(chip.drive)
            acts[reply.act] += 1
            if reply.act == maulgreen.IDLE:
                break
        assert die.outcome(job).reads == [name]
    print(f"{acts[2]} writes, {acts[1]} reads, {acts[5]} copies, {acts[6]} erase slots")
    log = die.log()
    assert len(log) == len(die) and log[1] == (maulgreen.SUBMITTED, 0, 1, 0, []) and log[2][:4] == (maulgreen.OPERATION, 0, 1, 0)
    assert log[4].what == maulgreen.IDLE_SLOT and log[4].waived[0].job == 0 and die.log(2, 3) == log[2:5] and die.log(2**31) == []
    assert all(die.place(page) is None or die.place(page) in chip.cells for page in range(17)) and die.place(16) is None
    maulgreen.check(die.rows(), die.certificate())
    print(refused(lambda: die.submit(0, die.now(), die.now() + 1, [(maulgreen.READ, 16)])))
    print(refused(lambda: die.submit(0, die.now(), die.now() + 1, [(maulgreen.WRITE, 0, b"x" * 16)] * 5)))
    die.renew_giving_back()
    checkpoint = die.checkpoint()

with maulgreen.Die(maulgreen.Plan(8, 4, 3, 16, 2), [maulgreen.Task(4)], checkpoint) as die:  # the chip keeps its pages
    assert die.checkpoint() == checkpoint
    print(refused(lambda: maulgreen.Die(maulgreen.Plan(8, 4, 3, 16, 2), [maulgreen.Task(4)], checkpoint._replace(balances=[5]))))
    die.submit(0, 0, 1, [(maulgreen.TRIM, 3)], caller=7)
    assert refused(lambda: die.begin(8)).startswith("CheckpointStands") and checkpoint.part == (die.serial(), 8)
    die.checkpoint_void()  # once what was written down is destroyed
    call = die.begin(8)
    assert call.kind == maulgreen.NOTE_TRIM and call.logical == 3 and die.end(True).caller == 8 and die.caller(0) == 7
    die.submit(0, 1, 2, [(maulgreen.READ, 4)])
    print(refused(lambda: die.slot(lambda call: (True, b"?" * 16))))
    print(refused(lambda: die.begin()))
    assert die.place(3) is None and die.place(4) in chip.cells  # every page of a stopped die is found
print("all as it should be")

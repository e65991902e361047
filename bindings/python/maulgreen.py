"""A die of a proved flash translation layer with deadlines, over libmaulgreen.so, which bindings/c/Makefile makes.

Standard library only. maulgreen.h says what each call does, and what refuses it; a refusal is raised as Refusal. A number that is
none of 32 bits, a name that hasn't 16 bytes, or an operation of another shape is a ValueError, and nothing was called then.

The calls of one die wait for each other, so threads may share it; a slot that one thread began may be ended by another.
"""
from __future__ import annotations

import ctypes as c
import os
import threading
from typing import Callable, Iterable, List, NamedTuple, Optional, Sequence, Tuple, Union

BLANK = b"\xff" * 16  # the name of a page that was never written, or was trimmed since
READ, WRITE, TRIM = 0, 1, 2  # a trimmed page reads blank; after a loss of power it may have an earlier write again, without notes of trims
NOTHING, READ_CELL, PROGRAM_CELL, ERASE_SLOT, NOTE_TRIM = 0, 1, 2, 3, 4
IDLE, DID_READ, DID_WRITE, DID_TRIM, COPY_READ, COPY_PROGRAM, ERASE = range(7)
WAITING, DONE, WAIVED = 0, 1, 2
# what a mount needs next
NEEDS_NOTHING, READ_PAGE, PROGRAM_PAGE, ERASE_BLOCK, TELL_BLOCK = range(5)
# what a table of spare blocks needs next, how a call of it went, and what a block is for
MOVE_NONE, MOVE_TELL, MOVE_ERASE, MOVE_COPY, MOVE_PROGRAM = range(5)
MOVE_DONE, MOVE_FAILED, MOVE_FAULT = range(3)
USE_BAD, USE_SPARE, USE_NUMBER = range(3)
# what an entry of the log is of
SUBMITTED, COLLECTED, IDLE_SLOT, OPERATION, LAST_OPERATION, PAGE_READ, PAGE_PROGRAMMED, ERASED, LAST_ERASED = range(9)

U32, U64, I64 = c.c_uint32, c.c_uint64, c.c_int64
_Name = c.c_uint8 * 16


def _struct(name, words, more=()):
    return type(name, (c.Structure,), {"_fields_": list(more) + [(word, U32) for word in words.split()]})


def _named(name, words):
    return type(name, (c.Structure,), {"_fields_": [(word, U32) for word in words.split()] + [("name", _Name)]})


_Handle = type("_Handle", (c.Structure,), {"_fields_": [("at", c.c_void_p)]})
_Plan = _struct("_Plan", "blocks pages erase_slots logical alpha common")
_Task = _struct("_Task", "cap period collect_period work writes")
_Load = _struct("_Load", "common", [("demand", U64)])
_Why = _struct("_Why", "first second")
_Op = _named("_Op", "kind page")
_Call = type("_Call", (c.Structure,), {"_fields_": [(word, U32) for word in "kind block page last slot act job logical".split()]
                                      + [("name", _Name), ("erases", U32)]})
_Reply = _named("_Reply", "slot act job page finished waived caller")
_Waived = _struct("_Waived", "job given")
_Entry = _struct("_Entry", "what caller job at waived")
_Job = _struct("_Job", "collects task release due")
_Outcome = _struct("_Outcome", "state completion given reads", [("lateness", I64)])
_Worst = _struct("_Worst", "job", [("lateness", I64)])
_Overdue = _struct("_Overdue", "job due", [("late_by", U64)])
_Certificate = _struct("_Certificate", "job start due completion jobs")
_Row = _struct("_Row", "number release due work done completion")
_Place = _struct("_Place", "block page")
_Block = _struct("_Block", "filled erases")
_Part = _struct("_Part", "aside", [("serial", U64)])
_Label = _struct("_Label", "page erases", [("serial", U64)])
_Terms = _struct("_Terms", "period deadline held work writes collect_period collect_deadline")
_Taken = _struct("_Taken", "waits first jobs", [("release", U64), ("due", U64)])
_Unasked = _struct("_Unasked", "number", [("next", U64)])
_Life = _struct("_Life", "slots now", [("first", U64)])
_Unresumed = _struct("_Unresumed", "first second third")
_Move = _struct("_Move", "kind block page from_")
_Step = _struct("_Step", "kind block page logical last erases", [("serial", U64)])
_Bytes = type("_Bytes", (c.Structure,), {"_fields_": [(word, U64) for word in "birth reserved life question resume".split()]})
_NOWHERE = _NO_PAGE = 0xFFFFFFFF
_NONE_OVERDUE = 111


class Plan(NamedTuple):
    """What a die has; `common` is a multiple of all periods, or 0 where the tasks have no times."""
    blocks: int
    pages: int
    erase_slots: int
    logical: int
    alpha: int
    common: int = 0


class Task(NamedTuple):
    """The most free pages that a task may own tokens for, and its times."""
    cap: int
    period: int = 0
    collect_period: int = 0
    work: int = 0
    writes: int = 0


class Terms(NamedTuple):
    """What a task asks for of a die that keeps its plan: in any `period` slots at most `work` operations and `writes` writes. A job is
    due `deadline` slots after its release, and may hold its tokens for `held` slots, which are no fewer. A collection comes at each
    multiple of `collect_period`, and is due `collect_deadline` slots later."""
    period: int
    deadline: int
    held: int
    work: int
    writes: int
    collect_period: int
    collect_deadline: int


class Taken(NamedTuple):
    """What an ask is answered that is taken: its jobs are released and due so, slots of the clock of all lives. `first` is the number of
    the first of `jobs`, or None where it waits for the next life."""
    release: int
    due: int
    first: Optional[int]
    jobs: int


class Life(NamedTuple):
    """The present life: the slot of the clock of all lives in which it began, how many slots it has, and the present one."""
    first: int
    slots: int
    now: int


class Move(NamedTuple):
    """What a table of spare blocks needs next: MOVE_NONE .. MOVE_PROGRAM. Blocks are the part's; a copy is from the cell of `from_block`
    with the same page."""
    kind: int
    block: int
    page: int
    from_block: int


class Step(NamedTuple):
    """What a mount needs next: NEEDS_NOTHING .. TELL_BLOCK. Blocks are the part's. `logical`, `serial` and `erases` are those of a
    program's label."""
    kind: int
    block: int
    page: int
    last: bool
    logical: int
    serial: int
    erases: int


class Load(NamedTuple):
    demand: int
    common: int


class Memory(NamedTuple):
    """How many bytes a die asks of the heap at most: at its birth; with what was asked about reserved; by the end of a life with that in
    which nothing was reserved; what a question takes in addition, and gives back; and what a die takes until it has gone on from a
    checkpoint."""
    birth: int
    reserved: int
    life: int
    question: int
    resume: int


class Call(NamedTuple):
    """What the device is to do, and for whom. NOTE_TRIM is for a driver that keeps a record of trims: the chip does nothing. `logical` is the page that is read, written, trimmed or copied, or None; `erases` how often the block was erased that is programmed."""
    kind: int
    block: int
    page: int
    last: bool
    slot: int
    act: int
    job: int
    logical: Optional[int]
    name: bytes
    erases: int


class Waived(NamedTuple):
    job: int
    given: int


class Reply(NamedTuple):
    """What a slot did. `page` is the logical page, or the block that is erased."""
    slot: int
    act: int
    job: int
    page: int
    finished: bool
    waived: List[Waived]
    name: bytes
    caller: int


class Entry(NamedTuple):
    """An entry of the log: `what` is SUBMITTED .., `at` the place of an operation, the page of a copy or the block of an erase."""
    what: int
    caller: int
    job: int
    at: int
    waived: List[Waived]


class Job(NamedTuple):
    collects: bool
    task: int
    release: int
    due: int


class Outcome(NamedTuple):
    state: int
    completion: int
    lateness: int
    given: int
    reads: List[bytes]


class Worst(NamedTuple):
    job: int
    lateness: int


class Overdue(NamedTuple):
    """Work that is overdue, and by how many slots it will be late at least."""
    job: int
    due: int
    late_by: int


class Certificate(NamedTuple):
    job: int
    start: int
    due: int
    completion: int
    jobs: List[int]


class Row(NamedTuple):
    """`completion` is None where it isn't done."""
    number: int
    release: int
    due: int
    work: int
    completion: Optional[int]


class Block(NamedTuple):
    filled: int
    erases: int


class Part(NamedTuple):
    """What the label of the next program bears, and the number that the part gives the block which stands aside."""
    serial: int
    aside: int


class Checkpoint(NamedTuple):
    """By logical page its cell, (block, page) or None, and its name; by block its counts; by task its tokens; the spare pages; and what
    is known of a part with labels, or None."""
    places: Sequence[Optional[Tuple[int, int]]]
    names: Sequence[bytes]
    blocks: Sequence[Tuple[int, int]]
    balances: Sequence[int]
    spare: int
    part: Optional[Tuple[int, int]] = None


Op = Union[Tuple[int, int], Tuple[int, int, bytes]]

_HERE = os.path.dirname(os.path.abspath(__file__))


def _library() -> str:
    """MAULGREEN_LIB; else the one that a wheel has beside this file; else that of bindings/c."""
    beside = os.path.join(_HERE, "libmaulgreen.so")
    return os.environ.get("MAULGREEN_LIB") or (beside if os.path.exists(beside) else os.path.join(_HERE, "../c/out/libmaulgreen.so"))


_lib = c.CDLL(_library())
for _word in ("version refusal_name plan_bound plan_test memory new submit collect begin end reserve reserve_jobs renew "
              "renew_giving_back now place part_block mount_new mount_next mount_tell mount_done mount_place mount_end spares_new spares_power_up spares_next spares_tell spares_done spares_program_failed spares_erase_failed "
              "spares_block spares_use spares_left planned_new planned_ask planned_ask_all planned_begin planned_end planned_life planned_waiting "
              "planned_job planned_outcome planned_place planned_checkpoint planned_resume planned_part_block mount_end_planned entries entry_waived job outcome worst overdue certificate rows check checkpoint checkpoint_void planned_checkpoint_void resume").split():
    getattr(_lib, "mg_" + _word).restype = U32
_lib.mg_len.restype = _lib.mg_records.restype = _lib.mg_serial.restype = _lib.mg_mount_calls_left.restype = _lib.mg_planned_clock.restype = _lib.mg_planned_serial.restype = U64
_lib.mg_free.restype = _lib.mg_mount_free.restype = _lib.mg_planned_free.restype = _lib.mg_spares_free.restype = None
_lib.mg_refusal_text.restype = c.c_char_p
# Another major number has other calls; a lower minor one lacks some of these.
if _lib.mg_version() >> 16 != 2 or _lib.mg_version() & 0xFFFF < 0:
    raise ImportError("another version of libmaulgreen.so")


class Refusal(Exception):
    """Why a call is refused: its number of maulgreen.h, its name, what it means, and the numbers that it has; `next` is that of an ask
    that comes too soon, `third` how many pages a task needs that has too few to go on with."""

    def __init__(self, code, why=None):
        text = c.create_string_buffer(17)
        _lib.mg_refusal_name(U32(code), text, c.c_size_t(17))
        self.code, self.name, self.text = code, text.value.decode(), _lib.mg_refusal_text(U32(code)).decode()
        self.third = getattr(why, "third", 0)
        if isinstance(why, _Unasked):
            self.first, self.second, self.next = why.number, 0, why.next
            super().__init__(f"{self.name} {why.number} {why.next}")
            return
        self.first, self.second, self.next = (why.first, why.second, 0) if why else (0, 0, 0)
        super().__init__(f"{self.name} {self.first} {self.second}" if why else self.name)


def _must(code, why=None):
    if code:
        raise Refusal(code, why)


def _u32(number) -> int:
    """A number of 32 bits: ctypes would take any other one by its last 32 bits."""
    if isinstance(number, bool) or not isinstance(number, int) or not 0 <= number < 2**32:
        raise ValueError(f"{number!r} is no number from 0 to 4,294,967,295")
    return number


def _serial(serial) -> int:
    if isinstance(serial, bool) or not isinstance(serial, int) or not 0 <= serial < 2**64:
        raise ValueError(f"{serial!r} is no serial")
    return serial


def _name(name) -> c.Array:
    if not isinstance(name, (bytes, bytearray, memoryview)) or len(name) != 16:
        raise ValueError(f"{name!r} has not 16 bytes")
    return _Name(*bytes(name))


def _op(op) -> _Op:
    kind, page, *names = op
    if len(names) > (kind == WRITE) or (kind == WRITE and not names):
        raise ValueError(f"{op!r} is neither (READ, page), nor (WRITE, page, name), nor (TRIM, page)")
    return _Op(_u32(kind), _u32(page), _name(names[0] if names else BLANK))


def _list(kind, items):
    """An array of C, and how many items it has."""
    items = list(items)
    return (kind * len(items))(*items), c.c_size_t(len(items))


def _numbers(kind, numbers):
    return kind(*map(_u32, numbers))


def _plan(plan, tasks):
    tasks, count = _list(_Task, (_numbers(_Task, Task(*task)) for task in tasks))
    return c.byref(_numbers(_Plan, Plan(*plan))), tasks, count


def bound(plan: Plan, tasks: Iterable[Task]) -> None:
    """Raises where Die doesn't take the plan."""
    _must(_lib.mg_plan_bound(*_plan(plan, tasks)))


def plan_test(plan: Plan, tasks: Iterable[Task]) -> Load:
    """The load of a plan with times; raises where it doesn't pass."""
    load = _Load()
    _must(_lib.mg_plan_test(*_plan(plan, tasks), c.byref(load)))
    return Load(load.demand, load.common)


def memory(plan: Plan, tasks: Iterable[Task], slots: int = 0, jobs: int = 0, operations: int = 0) -> Memory:
    """How many bytes a die asks of the heap at most, where `slots`, `jobs` and `operations` are reserved or come."""
    said = _Bytes()
    _must(_lib.mg_memory(*_plan(plan, tasks), U32(_u32(slots)), U32(_u32(jobs)), U32(_u32(operations)), c.byref(said)))
    return Memory(said.birth, said.reserved, said.life, said.question, said.resume)


def check(rows: Iterable[Row], certificate: Certificate) -> None:
    """Raises what is wrong with a certificate first, or that the rows don't rise."""
    rows, row_count = _list(_Row, (_numbers(
        _Row, (r.number, r.release, r.due, r.work, int(r.completion is not None), r.completion or 0)) for r in rows))
    jobs, count = _list(U32, map(_u32, certificate.jobs))
    given = _numbers(_Certificate, (certificate.job, certificate.start, certificate.due, certificate.completion, 0))
    _must(_lib.mg_check(rows, row_count, c.byref(given), jobs, count))


def _label(label: Optional[Sequence[int]]) -> _Label:
    page, serial, *erases = (_NO_PAGE, 0) if label is None else label
    return _Label(_serial(serial), _u32(page), _u32(erases[0] if erases else 0))


class Spares:
    """A table of the spare blocks of a part: it gives the blocks of a die and of a mount numbers, and where a call of the part failed it
    says which calls come next. For a part of so many blocks on which nothing was done yet, or, `powered`, whose power has come: its
    blocks are told next. `with` frees it. For one thread at a time."""

    def __init__(self, plan: Plan, blocks: int, bad: Iterable[int], powered: bool = False):
        self._at = None
        handle = _Handle()
        begin = _lib.mg_spares_power_up if powered else _lib.mg_spares_new
        _must(begin(c.byref(handle), c.byref(_numbers(_Plan, Plan(*plan))), U32(_u32(blocks)), *_list(U32, map(_u32, bad))))
        self._at = handle

    def __enter__(self):
        return self

    def __exit__(self, *_):
        self.close()

    def __del__(self):
        self.close()

    def close(self) -> None:
        if self._at is not None:
            _lib.mg_spares_free(c.byref(self._at))
            self._at = None

    def __copy__(self):
        raise TypeError("a table isn't copied")

    def __deepcopy__(self, _):
        raise TypeError("a table isn't copied")

    def _call(self, function: str, *words) -> int:
        if self._at is None:
            raise ValueError("the table was freed")
        return getattr(_lib, "mg_spares_" + function)(c.byref(self._at), *words)

    def next(self) -> Move:
        """What it needs next."""
        said = _Move()
        _must(self._call("next", c.byref(said)))
        return Move(said.kind, said.block, said.page, said.from_)

    def tell(self, labels: Iterable[Optional[Sequence[int]]]) -> None:
        """Tells the labels of the block that is to be told, from its first cell on, as Mount.tell: (logical page, serial, erases of the
        block), whose erases aren't looked at and may be left out, or None."""
        _must(self._call("tell", *_list(_Label, map(_label, labels))))

    def done(self, how: int) -> None:
        """How the part carried that out: MOVE_DONE, MOVE_FAILED or MOVE_FAULT."""
        _must(self._call("done", U32(_u32(how))))

    def program_failed(self, number: int, page: int) -> None:
        _must(self._call("program_failed", U32(_u32(number)), U32(_u32(page))))

    def erase_failed(self, number: int) -> None:
        _must(self._call("erase_failed", U32(_u32(number))))

    def block(self, number: int) -> int:
        """The part's block that has this number."""
        said = U32()
        _must(self._call("block", U32(_u32(number)), c.byref(said)))
        return said.value

    def use(self, block: int) -> Tuple[int, int]:
        """What a block of the part is for, USE_BAD .. USE_NUMBER, and its number."""
        becomes, number = U32(), U32()
        _must(self._call("use", U32(_u32(block)), c.byref(becomes), c.byref(number)))
        return becomes.value, number.value

    def left(self) -> int:
        """How many spare blocks are left."""
        return self._call("left")


class Mount:
    """A mount of a part after a loss of power, by the labels in its cells; `with` frees it. For one thread at a time."""

    def __init__(self, plan: Plan, tasks: Iterable[Task]):
        self._at = None
        self._shape = Plan(*plan), list(tasks)
        handle = _Handle()
        _must(_lib.mg_mount_new(c.byref(handle), *_plan(*self._shape)))
        self._at = handle

    def __enter__(self):
        return self

    def __exit__(self, *_):
        self.close()

    def __del__(self):
        self.close()

    def close(self) -> None:
        if self._at is not None:
            _lib.mg_mount_free(c.byref(self._at))
            self._at = None

    def __copy__(self):
        raise TypeError("a mount isn't copied")

    def __deepcopy__(self, _):
        raise TypeError("a mount isn't copied")

    def _call(self, function: str, *words) -> int:
        if self._at is None:
            raise ValueError("the mount was freed")
        return getattr(_lib, "mg_mount_" + function)(c.byref(self._at), *words)

    def step(self) -> Step:
        """What it needs next."""
        said = _Step()
        _must(self._call("next", c.byref(said)))
        return Step(said.kind, said.block, said.page, said.last == 1, said.logical, said.serial, said.erases)

    def tell(self, labels: Iterable[Optional[Sequence[int]]]) -> None:
        """Tells what the cells of the block show that the step names, from the first one on: (logical page, serial, erases of the block),
        of a driver that keeps no counts (logical page, serial), or None."""
        why = _Why()
        _must(self._call("tell", *_list(_Label, map(_label, labels)), c.byref(why)), why)

    def done(self) -> None:
        """The call that the step names was made, and went well."""
        _must(self._call("done"))

    def calls_left(self) -> int:
        return self._call("calls_left")

    def place(self, page: int) -> Optional[Tuple[int, int]]:
        """The cell of the part from which a page may be read now, (block, page), or None."""
        at = _Place()
        _must(self._call("place", U32(_u32(page)), c.byref(at)))
        return None if at.block == _NOWHERE else (at.block, at.page)

    def end(self, names: Iterable[bytes]) -> "Die":
        """The die that begins where it has ended; by logical page the name of what lies there."""
        handle = _Handle()
        _must(self._call("end", *_list(_Name, map(_name, names)), c.byref(handle)))
        return Die._of(handle, *self._shape)

    def end_planned(self, terms: Iterable[Terms], longest: int, names: Iterable[bytes]) -> "Planned":
        """The die that keeps its plan and begins where it has ended, with lives of at most `longest` slots."""
        handle, why = _Handle(), _Unresumed()
        _must(self._call("end_planned", *_list(_Terms, (_numbers(_Terms, Terms(*t)) for t in terms)), U32(_u32(longest)),
                         *_list(_Name, map(_name, names)), c.byref(handle), c.byref(why)), why)
        return Planned._of(handle, *self._shape)


def _as_arrays(checkpoint: Checkpoint):
    """A checkpoint as the library has it."""
    return (*_list(_Place, (_numbers(_Place, at or (_NOWHERE, 0)) for at in checkpoint.places)), *_list(_Name, map(_name, checkpoint.names)),
            *_list(_Block, (_numbers(_Block, b) for b in checkpoint.blocks)), *_list(U32, map(_u32, checkpoint.balances)),
            U32(_u32(checkpoint.spare)), checkpoint.part and c.byref(_Part(_serial(checkpoint.part[0]), _u32(checkpoint.part[1]))))


def _checkpoint_by(call, plan: Plan, tasks: int) -> Checkpoint:
    """What stands, as this call says it of a die of this plan and of `tasks` tasks."""
    places, names, blocks = (_Place * plan.logical)(), (_Name * plan.logical)(), (_Block * plan.blocks)()
    balances, spare, part, why = (U32 * tasks)(), U32(), _Part(), _Why()
    _must(call("checkpoint", places, c.c_size_t(plan.logical), names, c.c_size_t(plan.logical), blocks, c.c_size_t(plan.blocks),
               balances, c.c_size_t(tasks), c.byref(spare), c.byref(part), c.byref(why)), why)
    return Checkpoint([None if p.block == _NOWHERE else (p.block, p.page) for p in places], [bytes(n) for n in names],
                      [Block(b.filled, b.erases) for b in blocks], list(balances), spare.value, Part(part.serial, part.aside))


class Die:
    """One die; `with` frees it. Calls of several threads wait for each other."""

    def __init__(self, plan: Plan, tasks: Iterable[Task], checkpoint: Optional[Checkpoint] = None):
        """A die over a chip that is erased; with a checkpoint one that goes on from there, over a chip that is as that says. That
        stands: no slot begins that would spend it before checkpoint_void."""
        self._at = None
        self._lock = threading.RLock()
        tasks = list(tasks)
        self._shape = Plan(*plan), len(tasks)
        handle = _Handle()
        if checkpoint is None:
            _must(_lib.mg_new(c.byref(handle), *_plan(plan, tasks)))
        else:
            why = _Why()
            _must(_lib.mg_resume(c.byref(handle), *_plan(plan, tasks), *_as_arrays(checkpoint), c.byref(why)), why)
        self._at = handle

    @classmethod
    def _of(cls, handle, plan, tasks):
        die = cls.__new__(cls)
        die._lock = threading.RLock()
        die._shape = plan, len(tasks)
        die._at = handle
        return die

    def __enter__(self):
        return self

    def __exit__(self, *_):
        self.close()

    def __del__(self):
        self.close()

    def close(self) -> None:
        if self._at is not None:
            with self._lock:
                _lib.mg_free(c.byref(self._at))
                self._at = None

    def __copy__(self):
        raise TypeError("a die isn't copied")

    def __deepcopy__(self, _):
        raise TypeError("a die isn't copied")

    def _call(self, function: str, *words) -> int:
        """A call of the library, while no other call of this die runs: ctypes lets other threads run meanwhile."""
        with self._lock:
            if self._at is None:
                raise ValueError("the die was freed")
            return getattr(_lib, "mg_" + function)(c.byref(self._at), *words)

    def submit(self, task: int, release: int, due: int, ops: Iterable[Op], caller: int = 0) -> int:
        """Accepts a job of (READ, page), (WRITE, page, name) and (TRIM, page), and answers its number."""
        ops, count = _list(_Op, map(_op, ops))
        number, why = U32(), _Why()
        _must(self._call("submit", U32(_u32(caller)), U32(_u32(task)), U32(_u32(release)), U32(_u32(due)), ops, count, c.byref(number),
                                c.byref(why)), why)
        return number.value

    def collect(self, task: int, release: int, due: int, caller: int = 0) -> int:
        number, why = U32(), _Why()
        _must(self._call("collect", U32(_u32(caller)), U32(_u32(task)), U32(_u32(release)), U32(_u32(due)), c.byref(number), c.byref(why)), why)
        return number.value

    def begin(self, caller: int = 0) -> Call:
        """Begins the present slot, and reports what the device is to do."""
        call = _Call()
        _must(self._call("begin", U32(_u32(caller)), c.byref(call)))
        return Call(call.kind, call.block, call.page, call.last == 1, call.slot, call.act, call.job,
                    None if call.logical == _NO_PAGE else call.logical, bytes(call.name), call.erases)

    def end(self, ok: bool, name: bytes = BLANK) -> Reply:
        """Ends the slot that has begun: whether the device did it, and the name of what a read gave."""
        said, waived = _Reply(), (_Waived * 16)()
        _must(self._call("end", U32(1 if ok else 0), c.byref(_name(name)), c.byref(said), waived, c.c_size_t(16)))
        return Reply(said.slot, said.act, said.job, said.page, said.finished == 1,
                     [Waived(w.job, w.given) for w in waived[:said.waived]], bytes(said.name), said.caller)

    def slot(self, drive: Callable[[Call], Tuple[bool, bytes]], caller: int = 0) -> Reply:
        """One slot. drive(call) does what is asked on the device, and answers (ok, name). Where it raises, the slot is a fault."""
        call = self.begin(caller)
        try:
            ok, name = drive(call)
        except BaseException:
            try:
                self.end(False)
            except Refusal:
                pass
            raise
        return self.end(ok, name)

    def reserve(self, slots: int) -> None:
        _must(self._call("reserve", U32(_u32(slots))))

    def reserve_jobs(self, jobs: int, operations: int) -> None:
        """Takes the memory for `jobs` later jobs and collections, with `operations` operations in all; slots are reserved after it."""
        _must(self._call("reserve_jobs", U32(_u32(jobs)), U32(_u32(operations))))

    def renew(self) -> None:
        """What had been reserved is reserved again, without memory being taken."""
        why = _Why()
        _must(self._call("renew", c.byref(why)), why)

    def renew_giving_back(self) -> None:
        """And gives back the memory of the log so far, that which is reserved, too."""
        why = _Why()
        _must(self._call("renew_giving_back", c.byref(why)), why)

    def checkpoint(self) -> Checkpoint:
        """What stands at a moment at which all is done or was waived, with the names of the pages."""
        return _checkpoint_by(self._call, *self._shape)

    def checkpoint_void(self) -> None:
        """The checkpoint from which the die was made is void: no die is made of it any more."""
        _must(self._call("checkpoint_void"))

    def serial(self) -> int:
        """What the label of the next program bears."""
        return self._call("serial")

    def part_block(self, block: int) -> int:
        """The number that the part gives a block of the die."""
        said = U32()
        _must(self._call("part_block", U32(_u32(block)), c.byref(said)))
        return said.value

    def now(self) -> int:
        return self._call("now")

    def __len__(self) -> int:
        return self._call("len")

    def records(self) -> int:
        return self._call("records")

    def place(self, page: int) -> Optional[Tuple[int, int]]:
        """The cell in which a logical page lies, (block, page), or None; of a die that is stopped, too."""
        at = _Place()
        _must(self._call("place", U32(_u32(page)), c.byref(at)))
        return None if at.block == _NOWHERE else (at.block, at.page)

    def log(self, start: int = 0, count: int = 2**32 - 1) -> List[Entry]:
        """At most `count` entries of the log, from entry `start` on."""
        _u32(start), _u32(count)
        with self._lock:
            there = max(0, min(len(self) - start, count))
            entries, said = (_Entry * there)(), []
            _must(self._call("entries", U32(start), entries, c.c_size_t(there)))
            for number, e in enumerate(entries, start):
                waived = (_Waived * e.waived)()
                if e.waived:
                    _must(self._call("entry_waived", U32(number), waived, c.c_size_t(e.waived)))
                said.append(Entry(e.what, e.caller, e.job, e.at, [Waived(w.job, w.given) for w in waived]))
            return said

    def job(self, number: int) -> Job:
        job = _Job()
        _must(self._call("job", U32(_u32(number)), c.byref(job)))
        return Job(job.collects == 1, job.task, job.release, job.due)

    def caller(self, number: int) -> int:
        """Who submitted a job or a collection: to find that takes a step for each entry before it."""
        caller = U32()
        _must(self._call("caller", U32(_u32(number)), c.byref(caller)))
        return caller.value

    def outcome(self, job: int) -> Outcome:
        said, reads = _Outcome(), (_Name * 64)()
        _must(self._call("outcome", U32(_u32(job)), c.byref(said), reads, c.c_size_t(64)))
        return Outcome(said.state, said.completion, said.lateness, said.given, [bytes(r) for r in reads[:said.reads]])

    def worst(self) -> Worst:
        worst = _Worst()
        _must(self._call("worst", c.byref(worst)))
        return Worst(worst.job, worst.lateness)

    def overdue(self) -> Optional[Overdue]:
        """The released job or collection that waits, and is due by now, with the earliest deadline, if there is one."""
        said = _Overdue()
        refusal = self._call("overdue", c.byref(said))
        if refusal == _NONE_OVERDUE:
            return None
        _must(refusal)
        return Overdue(said.job, said.due, said.late_by)

    def certificate(self) -> Certificate:
        said, jobs = _Certificate(), (U32 * 65536)()
        _must(self._call("certificate", c.byref(said), jobs, c.c_size_t(65536)))
        return Certificate(said.job, said.start, said.due, said.completion, jobs[:said.jobs])

    def rows(self) -> List[Row]:
        rows, total = (_Row * 65536)(), U32()
        _must(self._call("rows", rows, c.c_size_t(65536), c.byref(total)))
        return [Row(r.number, r.release, r.due, r.work, r.completion if r.done else None) for r in rows[:total.value]]


class Planned:
    """A die that keeps its plan: tasks ask, and it does the rest; `with` frees it. Whatever it takes is done by its `due`, whatever the
    other tasks ask, while slots are carried out and no call of the device fails. Calls of several threads wait for each other; an ask
    while a slot has begun is refused."""

    def __init__(self, plan: Plan, tasks: Iterable[Task], terms: Iterable[Terms], longest: int, checkpoint: Optional[Checkpoint] = None):
        """A die over a chip that is erased, with lives of at most `longest` slots; with a checkpoint one that goes on from there, over a chip
        that is as that says. Each task has its terms, and a cap; the plan has no times."""
        self._at = None
        self._lock = threading.RLock()
        tasks, terms = list(tasks), list(terms)
        if len(tasks) != len(terms):
            raise ValueError(f"{len(tasks)} tasks have {len(terms)} terms")
        self._shape = Plan(*plan), len(tasks)
        handle, given = _Handle(), _plan(plan, tasks)
        of_each, _ = _list(_Terms, (_numbers(_Terms, Terms(*t)) for t in terms))
        words = (c.byref(handle), given[0], given[1], of_each, given[2], U32(_u32(longest)))
        if checkpoint is None:
            why = _Unasked()
            _must(_lib.mg_planned_new(*words, c.byref(why)), why)
        else:
            why = _Unresumed()
            _must(_lib.mg_planned_resume(*words, *_as_arrays(checkpoint), c.byref(why)), why)
        self._at = handle

    @classmethod
    def _of(cls, handle, plan, tasks):
        die = cls.__new__(cls)
        die._lock = threading.RLock()
        die._shape = plan, len(tasks)
        die._at = handle
        return die

    def __enter__(self):
        return self

    def __exit__(self, *_):
        self.close()

    def __del__(self):
        self.close()

    def close(self) -> None:
        if self._at is not None:
            with self._lock:
                _lib.mg_planned_free(c.byref(self._at))
                self._at = None

    def __copy__(self):
        raise TypeError("a die isn't copied")

    def __deepcopy__(self, _):
        raise TypeError("a die isn't copied")

    def _call(self, function: str, *words) -> int:
        with self._lock:
            if self._at is None:
                raise ValueError("the die was freed")
            return getattr(_lib, "mg_planned_" + function)(c.byref(self._at), *words)

    def _asked(self, function, task, ops, caller) -> Taken:
        ops, count = _list(_Op, map(_op, ops))
        taken, why = _Taken(), _Unasked()
        _must(self._call(function, U32(_u32(caller)), U32(_u32(task)), ops, count, c.byref(taken), c.byref(why)), why)
        return Taken(taken.release, taken.due, None if taken.waits else taken.first, taken.jobs)

    def ask(self, task: int, ops: Iterable[Op], caller: int = 0) -> Taken:
        """Asks for a job of (READ, page), (WRITE, page, name) and (TRIM, page)."""
        return self._asked("ask", task, ops, caller)

    def ask_all(self, task: int, ops: Iterable[Op], caller: int = 0) -> Taken:
        """Asks for a burst, which becomes as many jobs as it takes: all of them are taken, or none is."""
        return self._asked("ask_all", task, ops, caller)

    def begin(self, caller: int = 0) -> Call:
        """Begins the present slot, and reports what the device is to do."""
        call = _Call()
        _must(self._call("begin", U32(_u32(caller)), c.byref(call)))
        return Call(call.kind, call.block, call.page, call.last == 1, call.slot, call.act, call.job,
                    None if call.logical == _NO_PAGE else call.logical, bytes(call.name), call.erases)

    def end(self, ok: bool, name: bytes = BLANK) -> Reply:
        """Ends the slot that has begun: whether the device did it, and the name of what a read gave."""
        said, waived = _Reply(), (_Waived * 16)()
        _must(self._call("end", U32(1 if ok else 0), c.byref(_name(name)), c.byref(said), waived, c.c_size_t(16)))
        return Reply(said.slot, said.act, said.job, said.page, said.finished == 1,
                     [Waived(w.job, w.given) for w in waived[:said.waived]], bytes(said.name), said.caller)

    def slot(self, drive: Callable[[Call], Tuple[bool, bytes]], caller: int = 0) -> Reply:
        """One slot. drive(call) does what is asked on the device, and answers (ok, name). Where it raises, the slot is a fault."""
        call = self.begin(caller)
        try:
            ok, name = drive(call)
        except BaseException:
            try:
                self.end(False)
            except Refusal:
                pass
            raise
        return self.end(ok, name)

    def checkpoint(self) -> Checkpoint:
        """What stands between two slots where nothing that was accepted is left, with the names of the pages."""
        return _checkpoint_by(self._call, *self._shape)

    def checkpoint_void(self) -> None:
        """The checkpoint from which the die was made is void: no die is made of it any more."""
        _must(self._call("checkpoint_void"))

    def serial(self) -> int:
        """What the label of the next program bears. It rises over all lives."""
        return self._call("serial")

    def part_block(self, block: int) -> int:
        """The number that the part gives a block of the die."""
        said = U32()
        _must(self._call("part_block", U32(_u32(block)), c.byref(said)))
        return said.value

    def clock(self) -> int:
        """The present slot of the clock of all lives."""
        return self._call("clock")

    def life(self) -> Life:
        life = _Life()
        _must(self._call("life", c.byref(life)))
        return Life(life.first, life.slots, life.now)

    def waiting(self, task: int) -> int:
        """How many operations the task's ask has that waits for the next life; 0 where none waits."""
        said = U32()
        _must(self._call("waiting", U32(_u32(task)), c.byref(said)))
        return said.value

    def job(self, number: int) -> Job:
        job = _Job()
        _must(self._call("job", U32(_u32(number)), c.byref(job)))
        return Job(job.collects == 1, job.task, job.release, job.due)

    def outcome(self, job: int) -> Outcome:
        said, reads = _Outcome(), (_Name * 64)()
        _must(self._call("outcome", U32(_u32(job)), c.byref(said), reads, c.c_size_t(64)))
        return Outcome(said.state, said.completion, said.lateness, said.given, [bytes(r) for r in reads[:said.reads]])

    def place(self, page: int) -> Optional[Tuple[int, int]]:
        """The cell in which a logical page lies, (block, page), or None; of a die that is stopped, too."""
        at = _Place()
        _must(self._call("place", U32(_u32(page)), c.byref(at)))
        return None if at.block == _NOWHERE else (at.block, at.page)

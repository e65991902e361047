//! What goes into a die and comes out of it.

use crate::raw;
use alloc::vec::Vec;

/// The sixteen bytes of a page: the name of a payload of any size, which the driver moves.
#[derive(Clone, Copy, PartialEq, Eq, Debug, Hash)]
#[repr(C)]
pub struct Name(pub [u8; 16]);

impl Name {
    /// What a page reads as that was never written, or was trimmed since.
    pub const BLANK: Name = Name([255; 16]);
}

impl Default for Name {
    fn default() -> Name {
        Name::BLANK
    }
}

/// What a die has. [`Plan::bound`] says which plans may be used.
#[derive(Clone, PartialEq, Eq, Debug)]
pub struct Plan {
    /// 2 to 1,024.
    pub blocks: u32,
    /// Of a block: 2 to 256.
    pub pages: u32,
    /// Slots that the erase of a block takes: 1 to 64.
    pub erase_slots: u32,
    /// Logical pages, numbered from 0: at least 1.
    pub logical: u32,
    /// The most pages that a collection gives its task: 1 to `pages`.
    pub alpha: u32,
    /// By task the most free pages that it may own tokens for, at least 1; 1 to 16 tasks.
    pub caps: Vec<u32>,
    /// When the tasks ask, and for how much.
    pub times: Option<Times>,
}

/// What the tasks of a die ask for. Times are in slots.
#[derive(Clone, PartialEq, Eq, Debug)]
pub struct Times {
    /// A multiple of all periods, 1 to 1,048,576.
    pub common: u32,
    /// One for each cap.
    pub tasks: Vec<TaskTimes>,
}

/// What a task asks for.
#[derive(Clone, Copy, PartialEq, Eq, Debug)]
pub struct TaskTimes {
    /// The slots from one job to the next, at least; a job is due as many slots after its release: 1 to 1,048,576.
    pub period: u32,
    /// Its collections come at each multiple of this, and have as long: 1 to 1,048,576.
    pub collect_period: u32,
    /// The most operations of a job: 1 to 64.
    pub work: u32,
    /// The most writes among these.
    pub writes: u32,
}

impl Plan {
    pub(crate) fn raw(&self) -> (raw::Plan, Vec<raw::Task>) {
        let Plan { blocks, pages, erase_slots, logical, alpha, ref caps, ref times } = *self;
        let common = times.as_ref().map_or(0, |times| times.common);
        let tasks = caps.iter().enumerate().map(|(i, &cap)| {
            let times = times.as_ref().and_then(|times| times.tasks.get(i)).copied();
            let none = TaskTimes { period: 0, collect_period: 0, work: 0, writes: 0 };
            let TaskTimes { period, collect_period, work, writes } = times.unwrap_or(none);
            raw::Task { cap, period, collect_period, work, writes }
        });
        (raw::Plan { blocks, pages, erase_slots, logical, alpha, common }, tasks.collect())
    }
}

/// The most slots that the tasks ask for in each `common` ones.
#[derive(Clone, Copy, PartialEq, Eq, Debug)]
pub struct Load {
    pub demand: u64,
    pub common: u32,
}

/// An operation of a job, on a logical page.
#[derive(Clone, Copy, PartialEq, Eq, Debug)]
pub enum Op {
    Read(u32),
    Write(u32, Name),
    /// The page reads blank from then on. After a loss of power it may have an earlier write again, unless the driver keeps notes
    /// of trims.
    Trim(u32),
}

impl Op {
    pub(crate) fn raw(self) -> raw::Op {
        let (kind, page, name) = match self {
            Op::Read(page) => (0, page, Name::BLANK),
            Op::Write(page, name) => (1, page, name),
            Op::Trim(page) => (2, page, Name::BLANK),
        };
        raw::Op { kind, page, name }
    }
}

/// What the device is to do.
#[derive(Clone, Copy, PartialEq, Eq, Debug)]
pub enum Call {
    Nothing,
    /// Read the cell, whose payload has to have this name. What a collection reads (`copy`) is kept until that collection's next
    /// call, whichever it is: it programs the payload elsewhere; or it reads another page or erases, where the page was written
    /// or trimmed meanwhile, and the payload isn't needed.
    Read { block: u32, page: u32, name: Name, copy: bool },
    /// Program the next free cell of the block with the payload of this name. The block was erased so often, which a label may bear.
    Program { block: u32, page: u32, name: Name, erases: u32 },
    /// Do one slot of the erase of the block; the last one frees its pages.
    Erase { block: u32, last: bool },
    /// The slot trims the logical page, for which the chip does nothing. A driver that keeps a record of trims writes it now: where
    /// it can't, the slot is ended as one that failed, and the page wasn't trimmed.
    Trim { page: u32 },
}

impl Call {
    pub(crate) fn of(call: &raw::Call) -> Call {
        let raw::Call { kind, block, page, last, act, logical, name, erases, .. } = *call;
        match kind {
            1 => Call::Read { block, page, name, copy: act == 4 },
            2 => Call::Program { block, page, name, erases },
            3 => Call::Erase { block, last: last == 1 },
            4 => Call::Trim { page: logical },
            _ => Call::Nothing,
        }
    }
}

/// A slot that has begun: what the device is to do, and for whom.
#[derive(Clone, Copy, PartialEq, Eq, Debug)]
pub struct Begun {
    /// The slot's number.
    pub slot: u32,
    /// What the device is to do.
    pub call: Call,
    /// The job or collection that has the slot, if one has it.
    pub job: Option<u32>,
    /// The logical page that is read, written, trimmed or copied; none in an erase and in an idle slot.
    pub logical: Option<u32>,
}

impl Begun {
    pub(crate) fn of(call: &raw::Call) -> Begun {
        Begun { slot: call.slot, call: Call::of(call), job: (call.act != 0).then_some(call.job), logical: (call.logical != u32::MAX).then_some(call.logical) }
    }
}

/// What a slot did, and for which job or collection.
#[derive(Clone, Copy, PartialEq, Eq, Debug)]
pub enum Act {
    Idle,
    Read { job: u32, page: u32, name: Name },
    Write { job: u32, page: u32, name: Name },
    Trim { job: u32, page: u32 },
    CopyRead { job: u32, page: u32 },
    CopyProgram { job: u32, page: u32 },
    Erase { job: u32, block: u32 },
}

/// A collection that was waived, and the tokens that it gave its task.
#[derive(Clone, Copy, PartialEq, Eq, Debug)]
pub struct Waived {
    pub job: u32,
    pub given: u32,
}

/// What was done in a slot.
#[derive(Clone, PartialEq, Eq, Debug)]
pub struct Reply {
    pub slot: u32,
    pub act: Act,
    /// Whether it was the last slot of its job or collection.
    pub finished: bool,
    /// Who began it.
    pub caller: u32,
    pub waived: Vec<Waived>,
}

impl Reply {
    pub(crate) fn of(said: &raw::Reply, waived: &[raw::Waived]) -> Reply {
        let raw::Reply { slot, act, job, page, finished, waived: count, caller, name } = *said;
        Reply {
            slot,
            act: match act {
                1 => Act::Read { job, page, name },
                2 => Act::Write { job, page, name },
                3 => Act::Trim { job, page },
                4 => Act::CopyRead { job, page },
                5 => Act::CopyProgram { job, page },
                6 => Act::Erase { job, block: page },
                _ => Act::Idle,
            },
            finished: finished == 1,
            caller,
            waived: waived[..(count as usize).min(waived.len())]
                .iter()
                .map(|w| Waived { job: w.job, given: w.given })
                .collect(),
        }
    }
}

/// An entry of the log.
#[derive(Clone, PartialEq, Eq, Debug)]
pub struct Entry {
    pub what: Entered,
    /// Who submitted it, or began the slot.
    pub caller: u32,
    /// The collections that were waived in the slot.
    pub waived: Vec<Waived>,
}

/// What an entry of the log is of.
#[derive(Clone, Copy, PartialEq, Eq, Debug)]
pub enum Entered {
    /// A job was accepted.
    Submitted { job: u32 },
    /// A collection was accepted.
    Collected { job: u32 },
    /// A slot in which nothing was carried.
    Idle,
    /// One in which a job did its operation at this place, from 0.
    Operation { job: u32, place: u32, last: bool },
    /// One in which a collection read a logical page to copy it.
    CopyRead { job: u32, page: u32 },
    /// One in which a collection programmed it.
    CopyProgram { job: u32, page: u32 },
    /// One in which a collection did a slot of its erase.
    Erase { job: u32, block: u32, last: bool },
}

impl Entered {
    pub(crate) fn of(entry: &raw::Entry) -> Entered {
        let raw::Entry { what, job, at, .. } = *entry;
        match what {
            0 => Entered::Submitted { job },
            1 => Entered::Collected { job },
            3 | 4 => Entered::Operation { job, place: at, last: what == 4 },
            5 => Entered::CopyRead { job, page: at },
            6 => Entered::CopyProgram { job, page: at },
            7 | 8 => Entered::Erase { job, block: at, last: what == 8 },
            _ => Entered::Idle,
        }
    }
}

/// How many bytes a die asks of the heap at most; maulgreen.h has the formulas.
#[derive(Clone, Copy, PartialEq, Eq, Debug)]
pub struct Memory {
    /// From its birth on. Exact.
    pub birth: u64,
    /// That, and with what was asked about reserved at once, jobs first. Exact.
    pub reserved: u64,
    /// By the end of a life with the slots, jobs and operations that were asked about, in which nothing was reserved.
    pub life: u64,
    /// What a question takes beside that, and gives back.
    pub question: u64,
    /// What [`Die::resume`](crate::Die::resume) takes until it has answered.
    pub resume: u64,
}

/// What a job or a collection was accepted with.
#[derive(Clone, Copy, PartialEq, Eq, Debug)]
pub struct Job {
    pub collects: bool,
    pub task: u32,
    pub release: u32,
    pub due: u32,
}

impl Job {
    pub(crate) fn of(said: &raw::Job) -> Job {
        let raw::Job { collects, task, release, due } = *said;
        Job { collects: collects == 1, task, release, due }
    }
}

/// What became of a job or a collection.
#[derive(Clone, PartialEq, Eq, Debug)]
pub enum Outcome {
    Waiting,
    /// `completion` is 1 + its last slot, `lateness` that minus its due, `given` the tokens that a collection gave.
    Done { completion: u32, lateness: i64, given: u32, reads: Vec<Name> },
    Waived { given: u32 },
}

impl Outcome {
    /// A job has 64 operations at most, and so has `reads`.
    pub(crate) fn of(said: &raw::Outcome, reads: &[Name; 64]) -> Outcome {
        let raw::Outcome { lateness, state, completion, given, reads: count } = *said;
        match state {
            0 => Outcome::Waiting,
            1 => Outcome::Done { completion, lateness, given, reads: reads[..count as usize].to_vec() },
            _ => Outcome::Waived { given },
        }
    }
}

/// The done job or collection with the greatest lateness.
#[derive(Clone, Copy, PartialEq, Eq, Debug)]
pub struct Worst {
    pub job: u32,
    pub lateness: i64,
}

/// Work that is overdue.
#[derive(Clone, Copy, PartialEq, Eq, Debug)]
pub struct Overdue {
    pub job: u32,
    pub due: u32,
    /// By how many slots it will be late at least.
    pub late_by: u64,
}

/// Jobs that fill the slots from `start` to `completion`, none released before `start` and none due after `due`. So in
/// every schedule of them one is at least `completion - due` late.
#[derive(Clone, PartialEq, Eq, Debug)]
pub struct Certificate {
    pub job: u32,
    pub start: u32,
    pub due: u32,
    pub completion: u32,
    pub jobs: Vec<u32>,
}

/// What is known of a job or of a collection that wasn't waived.
#[derive(Clone, Copy, PartialEq, Eq, Debug)]
pub struct Row {
    pub number: u32,
    pub release: u32,
    pub due: u32,
    /// How many slots carried it so far.
    pub work: u32,
    /// 1 + its last slot, once it is done.
    pub completion: Option<u32>,
}

impl Row {
    pub(crate) fn raw(&self) -> raw::Row {
        let Row { number, release, due, work, completion } = *self;
        let done = u32::from(completion.is_some());
        raw::Row { number, release, due, work, done, completion: completion.unwrap_or(0) }
    }

    pub(crate) fn of(row: &raw::Row) -> Row {
        let raw::Row { number, release, due, work, done, completion } = *row;
        Row { number, release, due, work, completion: (done != 0).then_some(completion) }
    }
}

/// A cell of the chip.
#[derive(Clone, Copy, PartialEq, Eq, Debug)]
pub struct Place {
    pub block: u32,
    pub page: u32,
}

/// Of a block how many pages are programmed since its last erase, which are its first ones, and how often it was erased.
#[derive(Clone, Copy, PartialEq, Eq, Debug)]
pub struct BlockCounts {
    pub filled: u32,
    pub erases: u32,
}

/// What is known of the part beneath a die: of a part with labels what the label of the next program bears, and the block that
/// stands aside, by the part's number.
#[derive(Clone, Copy, PartialEq, Eq, Debug)]
pub struct Part {
    pub serial: u64,
    pub aside: u32,
}

/// What stands on a die at a moment at which all that was accepted is done or was waived.
#[derive(Clone, PartialEq, Eq, Debug)]
pub struct Checkpoint {
    /// By logical page the cell in which it lies, if it lies in one, and its name.
    pub pages: Vec<(Option<Place>, Name)>,
    pub blocks: Vec<BlockCounts>,
    /// By task how many tokens it has.
    pub balances: Vec<u32>,
    /// How many free pages nobody has a claim on.
    pub spare: u32,
    pub part: Part,
}

//! Why a call is refused.

use crate::raw;
use core::fmt;

/// Why a call is refused, or what is wrong with a certificate.
#[derive(Clone, Copy, PartialEq, Eq, Debug)]
#[non_exhaustive]
pub enum Refusal {
    /// Memory was asked for and not had; the call may be made again.
    NoMemory,
    /// Blocks, pages or erase slots out of their limits.
    BadShape,
    /// Another number of a plan out of its limits, or the plan's bound isn't met.
    BadPlan,
    UnknownTask,
    /// A job without an operation.
    EmptyJob,
    /// A job of more than 64 operations.
    TooManyOps,
    /// An operation on a page that the die doesn't have: the first such.
    BadPage { page: u32 },
    /// A release below the present slot.
    ReleasePast { now: u32 },
    /// A due that isn't above its release, or is above 1,048,576.
    BadDue,
    /// 65,536 jobs and collections were accepted since the die was new or was renewed.
    JobsFull,
    /// A job of more writes than its task has tokens.
    NoTokens { have: u32, need: u32 },
    /// The task has a collection that is neither done nor waived.
    CollectorBusy,
    /// The present slot is 1,048,576.
    ClockEnd,
    /// The device failed in this slot, or gave another name than its cell was programmed with.
    DeviceFault,
    /// The device failed before; the die answers questions, takes memory, and nothing else.
    DieStopped,
    /// No job or collection of this number.
    UnknownJob,
    /// A slot has begun, and is to be ended first; or, of a job or collection, one that isn't below its release.
    Begun,
    /// No slot has begun.
    NotBegun,
    /// No job or collection is done yet.
    NothingDone,
    /// Rows whose numbers don't rise.
    RowsNotRising,
    /// A job or collection is neither done nor waived: the one that is carried next.
    NotQuiet { job: u32 },
    /// A block was erased too often for a life more: the first such.
    WornOut { block: u32 },
    /// No released work that waits is due by now.
    NoneOverdue,
    /// A mount or table needs something else next, or nothing comes any more.
    WrongStep,
    /// More cells of a block were told than it has.
    TooManyCells,
    /// A label of a page that the plan doesn't have, or with a serial of 2^63 or more: the first such cell.
    BadLabel { cell: u32 },
    /// The die was resumed from a checkpoint that isn't void yet, and the slot would spend it.
    CheckpointStands,
    /// What is wrong with a certificate first.
    Certificate(Flaw),
    /// A checkpoint doesn't fit the plan.
    Checkpoint(Misfit),
    /// More operations than the task may ask for at once: its most.
    TooManyAsked { most: u32 },
    /// More writes than the task may ask for in a period: its most.
    TooManyWrites { most: u32 },
    /// With what the task asked for in its last period it would be too much: the first slot with room for all of it, from the
    /// start of the present life.
    TooSoon { next: u64 },
    /// It would be due after the life, and an ask of the task waits for the next one already.
    WaitsAlready,
    /// No number of slots up to the longest is a life of this plan.
    NoLife,
    /// The longest life that is allowed is shorter than the deadline of this task: the first such.
    ShortLife { task: u32 },
    /// Terms out of their limits, or of another number of tasks.
    BadTerms,
    /// More may be asked than there are slots, in the long run or in some interval.
    TooMuchDemand,
    /// A task's collections give less than it writes, or its cap doesn't cover it.
    TooFewPages,
    /// An ask of this task waits for the next life, and would be lost: of the first such task.
    AskWaits { task: u32 },
    /// A task lacks more to its cap than alpha pages and what it may write in a period: the first such task, how many pages it has, and
    /// how many it needs.
    NotStocked { task: u32, have: u32, need: u32 },
    /// A block failed and no spare one is left: what was programmed before can still be read.
    NoSpare,
    /// No block has this number, or a block doesn't have this page.
    NoBlock,
    /// A number that maulgreen.h doesn't have.
    Other(u32),
}

/// What is wrong with a certificate.
#[derive(Clone, Copy, PartialEq, Eq, Debug)]
pub enum Flaw {
    /// It lists no job.
    Empty,
    /// A listed number isn't above the one before.
    NotRising,
    /// A listed number has no row.
    UnknownJob,
    /// A listed job isn't done, or no slot carried it.
    Unfinished,
    /// A listed job was released before the certificate's start.
    EarlyRelease,
    /// A listed job is due after the certificate's due.
    LateDue,
    /// The work of the listed jobs isn't the number of slots from start to completion.
    WrongSum,
}

/// What is wrong with a checkpoint first.
#[derive(Clone, Copy, PartialEq, Eq, Debug)]
#[non_exhaustive]
pub enum Misfit {
    /// It has another number of pages, blocks or tasks than the plan.
    OtherShape,
    /// More pages are programmed in a block than it has: the first such block.
    Overfull { block: u32 },
    /// Two blocks have programmed and free pages: the second of them.
    SecondOpen { block: u32 },
    /// A page lies in a cell that isn't programmed, or isn't there: the first such page.
    Unprogrammed { page: u32 },
    /// A balance is above its task's cap: the first such task.
    AboveCap { task: u32 },
    /// The accounts share out another number of pages than are free.
    OtherSum { accounts: u32, free: u32 },
    /// A page lies in the cell of a page before it: the first such page.
    SharedCell { page: u32 },
}

impl Refusal {
    /// What it means, in a line, without the numbers that it has.
    pub fn text(&self) -> &'static str {
        // SAFETY: the library answers a text of ASCII that is there for good, for any number.
        let text = unsafe { core::ffi::CStr::from_ptr(raw::mg_refusal_text(self.code())) };
        text.to_str().unwrap_or("")
    }

    /// Its number in maulgreen.h.
    pub fn code(&self) -> u32 {
        use Refusal::*;
        match *self {
            NoMemory => 1,
            BadShape => 2,
            BadPlan => 3,
            UnknownTask => 5,
            EmptyJob => 6,
            TooManyOps => 7,
            BadPage { .. } => 8,
            ReleasePast { .. } => 9,
            BadDue => 10,
            JobsFull => 11,
            NoTokens { .. } => 12,
            CollectorBusy => 13,
            ClockEnd => 14,
            DeviceFault => 15,
            DieStopped => 16,
            UnknownJob => 17,
            Begun => 100,
            NotBegun => 101,
            NothingDone => 103,
            NoneOverdue => 111,
            WrongStep => 112,
            TooManyCells => 113,
            BadLabel { .. } => 114,
            CheckpointStands => 115,
            RowsNotRising => 104,
            NotQuiet { .. } => 105,
            WornOut { .. } => 106,
            Certificate(flaw) => 201 + flaw as u32,
            Checkpoint(misfit) => match misfit {
                Misfit::OtherShape => 301,
                Misfit::Overfull { .. } => 302,
                Misfit::SecondOpen { .. } => 303,
                Misfit::Unprogrammed { .. } => 304,
                Misfit::AboveCap { .. } => 305,
                Misfit::OtherSum { .. } => 306,
                Misfit::SharedCell { .. } => 307,
            },
            TooManyAsked { .. } => 7,
            TooManyWrites { .. } => 401,
            TooSoon { .. } => 402,
            WaitsAlready => 403,
            NoLife => 405,
            ShortLife { .. } => 406,
            BadTerms => 407,
            TooMuchDemand => 408,
            TooFewPages => 409,
            AskWaits { .. } => 410,
            NotStocked { .. } => 411,
            NoSpare => 501,
            NoBlock => 502,
            Other(number) => number,
        }
    }
}

/// What an ask was answered, or why no die was made that keeps its plan.
pub(crate) fn asked(code: u32, why: &raw::Unasked) -> Result<(), Refusal> {
    use Refusal::*;
    Err(match code {
        7 => TooManyAsked { most: why.number },
        401 => TooManyWrites { most: why.number },
        402 => TooSoon { next: why.next },
        403 => WaitsAlready,
        405 => NoLife,
        406 => ShortLife { task: why.number },
        407 => BadTerms,
        408 => TooMuchDemand,
        409 => TooFewPages,
        _ => return answer(code, &raw::Why { first: why.number, second: 0 }),
    })
}

/// Why no die that keeps its plan goes on from a checkpoint, or where a mount ended.
pub(crate) fn resumed(code: u32, why: &raw::Unresumed) -> Result<(), Refusal> {
    match code {
        406 => Err(Refusal::ShortLife { task: why.first }),
        411 => Err(Refusal::NotStocked { task: why.first, have: why.second, need: why.third }),
        405..=409 => asked(code, &raw::Unasked::default()),
        _ => answer(code, &raw::Why { first: why.first, second: why.second }),
    }
}

/// What a call answered, by its number.
pub(crate) fn answer(code: u32, why: &raw::Why) -> Result<(), Refusal> {
    use Refusal::*;
    Err(match code {
        0 => return Ok(()),
        1 => NoMemory,
        2 => BadShape,
        3 => BadPlan,
        5 => UnknownTask,
        6 => EmptyJob,
        7 => TooManyOps,
        8 => BadPage { page: why.first },
        9 => ReleasePast { now: why.first },
        10 => BadDue,
        11 => JobsFull,
        12 => NoTokens { have: why.first, need: why.second },
        13 => CollectorBusy,
        14 => ClockEnd,
        15 => DeviceFault,
        16 => DieStopped,
        17 => UnknownJob,
        100 => Begun,
        101 => NotBegun,
        103 => NothingDone,
        111 => NoneOverdue,
        112 => WrongStep,
        113 => TooManyCells,
        114 => BadLabel { cell: why.first },
        115 => CheckpointStands,
        104 => RowsNotRising,
        105 => NotQuiet { job: why.first },
        106 => WornOut { block: why.first },
        201 => Certificate(Flaw::Empty),
        202 => Certificate(Flaw::NotRising),
        203 => Certificate(Flaw::UnknownJob),
        204 => Certificate(Flaw::Unfinished),
        205 => Certificate(Flaw::EarlyRelease),
        206 => Certificate(Flaw::LateDue),
        207 => Certificate(Flaw::WrongSum),
        301 => Checkpoint(Misfit::OtherShape),
        302 => Checkpoint(Misfit::Overfull { block: why.first }),
        303 => Checkpoint(Misfit::SecondOpen { block: why.first }),
        304 => Checkpoint(Misfit::Unprogrammed { page: why.first }),
        305 => Checkpoint(Misfit::AboveCap { task: why.first }),
        306 => Checkpoint(Misfit::OtherSum { accounts: why.first, free: why.second }),
        307 => Checkpoint(Misfit::SharedCell { page: why.first }),
        410 => AskWaits { task: why.first },
        501 => NoSpare,
        502 => NoBlock,
        other => Other(other),
    })
}

impl fmt::Display for Refusal {
    fn fmt(&self, f: &mut fmt::Formatter<'_>) -> fmt::Result {
        write!(f, "{self:?}")
    }
}

impl core::error::Error for Refusal {}

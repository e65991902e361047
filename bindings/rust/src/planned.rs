//! A die that keeps its plan itself.

use crate::data::{Begun, Checkpoint, Job, Name, Op, Outcome, Place, Plan, Reply};
use crate::die::{checkpoint_by, must_fit, plain, Written, NOWHERE};
use crate::raw;
use crate::refusals::{asked, resumed, Refusal};
use alloc::vec::Vec;

/// What a task asks for of a die that keeps its plan. All times are in slots; `maulgreen.h` says the ranges.
#[derive(Clone, Copy, PartialEq, Eq, Debug)]
pub struct Terms {
    /// In any `period` slots the task asks for at most `work` operations in all, and for at most `writes` writes.
    pub period: u32,
    /// The slots from a job's release to its deadline.
    pub deadline: u32,
    /// The most slots for which a job may hold the tokens for what it writes: `deadline`, or more.
    pub held: u32,
    pub work: u32,
    pub writes: u32,
    /// A collection comes at each multiple of this, and is due `collect_deadline` slots later.
    pub collect_period: u32,
    pub collect_deadline: u32,
}

/// What an ask is answered that is taken. Slots are those of the clock of all lives.
#[derive(Clone, Copy, PartialEq, Eq, Debug)]
pub enum Taken {
    /// Its jobs are jobs of the present life, with one number after the other from `first` on.
    Enters { release: u64, due: u64, first: u32, jobs: u32 },
    /// It waits for the next life, and its jobs are then released and due so.
    Waits { release: u64, due: u64 },
}

/// The present life, up to the first call after its end.
#[derive(Clone, Copy, PartialEq, Eq, Debug)]
pub struct Life {
    /// The slot of the clock of all lives in which it began.
    pub first: u64,
    /// How many slots it has.
    pub slots: u32,
    /// Its present slot.
    pub now: u32,
}

/// A die that keeps its plan itself: tasks ask, and it does the rest. Whatever it takes is done by its `due`, whatever the other
/// tasks ask, while slots are carried out and no call of the device fails. It isn't copied.
pub struct Planned {
    // It is full from `new` to `drop`.
    pub(crate) handle: raw::Handle,
    // What a checkpoint has: logical pages, blocks, tasks.
    pub(crate) counts: [usize; 3],
}

// SAFETY: the library knows no thread. A die shares nothing with another but the heap, and what takes it by `&` only reads it.
unsafe impl Send for Planned {}
unsafe impl Sync for Planned {}

type Ask = unsafe extern "C" fn(*mut raw::Handle, u32, u32, *const raw::Op, usize, *mut raw::Taken, *mut raw::Unasked) -> u32;

impl Planned {
    /// A die at slot 0, of a chip that is erased, with lives of at most `longest` slots. The plan has no times; each task has its
    /// terms. Refused with the first that stands: `BadShape`, `BadPlan`, `BadTerms`, `TooMuchDemand`, `TooFewPages`, `NoLife`,
    /// `ShortLife`; `NoMemory`, which may come before these.
    pub fn new(plan: &Plan, terms: &[Terms], longest: u32) -> Result<Planned, Refusal> {
        must_fit();
        let counts = [plan.logical as usize, plan.blocks as usize, plan.caps.len()];
        let (plan, tasks) = plan.raw();
        if terms.len() != tasks.len() {
            return Err(Refusal::BadTerms);
        }
        let terms: Vec<raw::Terms> = terms.iter().map(Terms::raw).collect();
        let (mut handle, mut why) = (raw::Handle::EMPTY, raw::Unasked::default());
        // SAFETY: the handle is empty, and stays so where this is refused; the count is that of both slices.
        let code = unsafe {
            raw::mg_planned_new(&mut handle, &plan, tasks.as_ptr(), terms.as_ptr(), tasks.len(), longest, &mut why)
        };
        asked(code, &why)?;
        Ok(Planned { handle, counts })
    }

    /// A die that goes on from a checkpoint, at slot 0 of the longest life of at most `longest` slots; its promises go on. Terms and
    /// `longest` may be others than before. The chip has to be as the checkpoint says. What a task lacks to its cap beyond alpha pages
    /// counts as asked to write in slot 0.
    ///
    /// Refused with the first that stands: `NoMemory`, which may come at any time; as [`Die::resume`](crate::Die::resume); `BadTerms`,
    /// `TooMuchDemand`, `TooFewPages`, `NoLife`, `NotStocked`, `ShortLife`.
    pub fn resume(plan: &Plan, terms: &[Terms], longest: u32, checkpoint: &Checkpoint) -> Result<Planned, Refusal> {
        must_fit();
        let counts = [plan.logical as usize, plan.blocks as usize, plan.caps.len()];
        let (plan, tasks) = plan.raw();
        if terms.len() != tasks.len() {
            return Err(Refusal::BadTerms);
        }
        let terms: Vec<raw::Terms> = terms.iter().map(Terms::raw).collect();
        let Written { places, names, blocks, balances, spare, part } = Written::of(checkpoint);
        let (mut handle, mut why) = (raw::Handle::EMPTY, raw::Unresumed::default());
        // SAFETY: the handle is empty, and stays so where this is refused; each count is its slice's.
        let code = unsafe {
            raw::mg_planned_resume(
                &mut handle, &plan, tasks.as_ptr(), terms.as_ptr(), tasks.len(), longest, places.as_ptr(), places.len(), names.as_ptr(),
                names.len(), blocks.as_ptr(), blocks.len(), balances.as_ptr(), balances.len(), spare, &part, &mut why,
            )
        };
        resumed(code, &why)?;
        Ok(Planned { handle, counts })
    }

    /// The checkpoint from which the die was resumed is void: it is resumed from no more. Before that no slot of it begins
    /// (`CheckpointStands`).
    pub fn checkpoint_void(&mut self) {
        // SAFETY: the handle is full, so it isn't refused.
        unsafe { raw::mg_planned_checkpoint_void(&mut self.handle) };
    }

    /// What stands between two slots where nothing that was accepted is left, with the names of the pages. The die stays as it is.
    /// Refused with the first that stands: `Begun`, `DieStopped`, `NotQuiet`, `WornOut`, `AskWaits`; `NoMemory`, which may come before
    /// `AskWaits`.
    pub fn checkpoint(&mut self) -> Result<Checkpoint, Refusal> {
        // SAFETY: the handle is full.
        unsafe { checkpoint_by(raw::mg_planned_checkpoint, &mut self.handle, self.counts) }
    }

    /// What the label of the next program bears. It rises over all lives.
    pub fn serial(&self) -> u64 {
        unsafe { raw::mg_planned_serial(&self.handle) }
    }

    /// The number that the part gives a block of the die.
    pub fn part_block(&self, block: u32) -> u32 {
        let mut said = 0;
        // It refuses nothing but what can't be here, an empty handle and a null pointer.
        unsafe { raw::mg_planned_part_block(&self.handle, block, &mut said) };
        said
    }

    fn asked(&mut self, ask: Ask, caller: u32, task: u32, ops: &[Op]) -> Result<Taken, Refusal> {
        let ops: Vec<raw::Op> = ops.iter().map(|op| op.raw()).collect();
        let (mut taken, mut why) = (raw::Taken::default(), raw::Unasked::default());
        // SAFETY: the handle is full, as in each call below, and the pointers come from references.
        asked(unsafe { ask(&mut self.handle, caller, task, ops.as_ptr(), ops.len(), &mut taken, &mut why) }, &why)?;
        let raw::Taken { release, due, waits, first, jobs } = taken;
        Ok(if waits == 0 { Taken::Enters { release, due, first, jobs } } else { Taken::Waits { release, due } })
    }

    /// Asks for a job of 1 to 64 operations. Refused, where nothing changes but that an ended life may be over, with the first that
    /// stands: `Begun`, `DieStopped`, `ClockEnd`, `WornOut`, `UnknownTask`, `EmptyJob`, `TooManyAsked`, `BadPage`, `TooManyWrites`,
    /// `TooSoon`, `WaitsAlready`.
    pub fn ask(&mut self, caller: u32, task: u32, ops: &[Op]) -> Result<Taken, Refusal> {
        self.asked(raw::mg_planned_ask, caller, task, ops)
    }

    /// Asks for a burst, which becomes as many jobs as it takes: all of them are taken, or none is. Refused as [`Planned::ask`].
    pub fn ask_all(&mut self, caller: u32, task: u32, ops: &[Op]) -> Result<Taken, Refusal> {
        self.asked(raw::mg_planned_ask_all, caller, task, ops)
    }

    /// Begins the present slot, which is to be ended. Refused, where nothing changes, with the first that stands: `Begun`,
    /// `DieStopped`, `ClockEnd`, `WornOut`.
    pub fn begin_slot(&mut self, caller: u32) -> Result<Begun, Refusal> {
        let mut call = raw::Call::default();
        plain(unsafe { raw::mg_planned_begin(&mut self.handle, caller, &mut call) })?;
        Ok(Begun::of(&call))
    }

    /// Ends the slot that has begun: whether the device did the call, and the name of what it read, if it read. `DieStopped`;
    /// `NotBegun`; `DeviceFault`, which stops the die.
    pub fn end_slot(&mut self, ok: bool, name: Name) -> Result<Reply, Refusal> {
        let mut said = raw::Reply::default();
        let mut waived = [raw::Waived::default(); 16]; // one a task at most
        plain(unsafe {
            raw::mg_planned_end(&mut self.handle, u32::from(ok), &name, &mut said, waived.as_mut_ptr(), waived.len())
        })?;
        Ok(Reply::of(&said, &waived))
    }

    /// The present slot of the clock of all lives.
    pub fn clock(&self) -> u64 {
        unsafe { raw::mg_planned_clock(&self.handle) }
    }

    /// The present life.
    pub fn life(&self) -> Life {
        let mut said = raw::Life::default();
        // It refuses nothing but what can't be here, an empty handle and a null pointer; and so the questions below.
        unsafe { raw::mg_planned_life(&self.handle, &mut said) };
        Life { first: said.first, slots: said.slots, now: said.now }
    }

    /// How many operations the task's ask has that waits for the next life; 0 where none waits.
    pub fn waiting(&self, task: u32) -> u32 {
        let mut said = 0;
        unsafe { raw::mg_planned_waiting(&self.handle, task, &mut said) };
        said
    }

    /// What a job or a collection of the present life was accepted with. `UnknownJob`.
    pub fn job(&self, number: u32) -> Result<Job, Refusal> {
        let mut said = raw::Job::default();
        plain(unsafe { raw::mg_planned_job(&self.handle, number, &mut said) })?;
        Ok(Job::of(&said))
    }

    /// What became of a job or a collection of the present life. `UnknownJob`; `NoMemory`.
    pub fn outcome(&self, job: u32) -> Result<Outcome, Refusal> {
        let mut said = raw::Outcome::default();
        let mut reads = [Name::BLANK; 64];
        plain(unsafe { raw::mg_planned_outcome(&self.handle, job, &mut said, reads.as_mut_ptr(), reads.len()) })?;
        Ok(Outcome::of(&said, &reads))
    }

    /// The cell in which a logical page lies, if it lies in one, of a die that is stopped, too.
    pub fn place(&self, page: u32) -> Option<Place> {
        let mut said = raw::Place::default();
        let code = unsafe { raw::mg_planned_place(&self.handle, page, &mut said) };
        (code == 0 && said.block != NOWHERE).then_some(Place { block: said.block, page: said.page })
    }
}

impl Drop for Planned {
    fn drop(&mut self) {
        // SAFETY: the handle is full, and this is its last use.
        unsafe { raw::mg_planned_free(&mut self.handle) }
    }
}

impl Terms {
    pub(crate) fn raw(&self) -> raw::Terms {
        let Terms { period, deadline, held, work, writes, collect_period, collect_deadline } = *self;
        raw::Terms { period, deadline, held, work, writes, collect_period, collect_deadline }
    }
}

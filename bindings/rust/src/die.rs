//! A die, and a slot that has begun.

use crate::data::{
    Begun, BlockCounts, Call, Certificate, Checkpoint, Entered, Entry, Job, Load, Memory, Name, Op, Outcome, Overdue, Part, Place, Plan, Reply, Row, Waived,
    Worst,
};
use crate::raw;
use crate::refusals::{answer, Refusal};
use alloc::vec;
use alloc::vec::Vec;
use core::ops::Deref;

pub(crate) const NO_NUMBERS: raw::Why = raw::Why { first: 0, second: 0 };

/// What a call answered that has no numbers.
pub(crate) fn plain(code: u32) -> Result<(), Refusal> {
    answer(code, &NO_NUMBERS)
}

impl Plan {
    /// Whether [`Die::new`] takes the plan: `BadShape`, `BadPlan` or `NoMemory` where it doesn't.
    pub fn bound(&self) -> Result<(), Refusal> {
        let (plan, tasks) = self.raw();
        // SAFETY: each pointer comes from a reference, and the count is the slice's.
        plain(unsafe { raw::mg_plan_bound(&plan, tasks.as_ptr(), tasks.len()) })
    }

    /// Tests a plan with times: where it passes, nothing that it lets its tasks ask is refused or late.
    pub fn test(&self) -> Result<Load, Refusal> {
        if self.times.as_ref().is_some_and(|times| times.tasks.len() != self.caps.len()) {
            return Err(Refusal::BadPlan);
        }
        let (plan, tasks) = self.raw();
        let mut load = raw::Load::default();
        // SAFETY: as in `bound`.
        plain(unsafe { raw::mg_plan_test(&plan, tasks.as_ptr(), tasks.len(), &mut load) })?;
        Ok(Load { demand: load.demand, common: load.common })
    }

    /// How many bytes a die asks of the heap at most: with these slots, jobs and operations reserved, and by the end of a life that
    /// has them. Refused as [`Plan::bound`].
    pub fn memory(&self, slots: u32, jobs: u32, operations: u32) -> Result<Memory, Refusal> {
        let (plan, tasks) = self.raw();
        let mut said = raw::Bytes::default();
        // SAFETY: as in `bound`.
        plain(unsafe { raw::mg_memory(&plan, tasks.as_ptr(), tasks.len(), slots, jobs, operations, &mut said) })?;
        let raw::Bytes { birth, reserved, life, question, resume } = said;
        Ok(Memory { birth, reserved, life, question, resume })
    }
}

/// Whether a certificate holds for these rows: `Certificate` with its first flaw where it doesn't, `RowsNotRising` where a
/// row's number isn't above the one before.
pub fn check(rows: &[Row], certificate: &Certificate) -> Result<(), Refusal> {
    let rows: Vec<raw::Row> = rows.iter().map(Row::raw).collect();
    let Certificate { job, start, due, completion, ref jobs } = *certificate;
    let given = raw::Certificate { job, start, due, completion, jobs: 0 };
    // SAFETY: each pointer comes from a reference, and each count is its slice's.
    plain(unsafe { raw::mg_check(rows.as_ptr(), rows.len(), &given, jobs.as_ptr(), jobs.len()) })
}

/// One die. Questions (`&self`) may be asked by several threads at a time.
pub struct Die {
    // It is full from `new` to `drop`.
    pub(crate) handle: raw::Handle,
    // What a checkpoint has: logical pages, blocks, tasks.
    pub(crate) counts: [usize; 3],
}

// SAFETY: the library knows no thread. A die shares nothing with another but the heap, and what takes it by `&` only reads it.
unsafe impl Send for Die {}
unsafe impl Sync for Die {}

/// The version of the interface that this crate was written for: a library of the same major number serves, whose minor one
/// isn't below.
const VERSION: u32 = 2 << 16 | 0;

pub(crate) fn must_fit() {
    // SAFETY: it takes nothing.
    let version = unsafe { raw::mg_version() };
    assert!(version >> 16 == VERSION >> 16 && version >= VERSION, "another version of libmaulgreen");
}

/// The block of a page that lies nowhere.
pub(crate) const NOWHERE: u32 = u32::MAX;

/// A checkpoint as the library has it.
pub(crate) struct Written {
    pub(crate) places: Vec<raw::Place>,
    pub(crate) names: Vec<Name>,
    pub(crate) blocks: Vec<raw::Block>,
    pub(crate) balances: Vec<u32>,
    pub(crate) spare: u32,
    pub(crate) part: raw::Part,
}

impl Written {
    pub(crate) fn of(checkpoint: &Checkpoint) -> Written {
        let Checkpoint { ref pages, ref blocks, ref balances, spare, part: Part { serial, aside } } = *checkpoint;
        let nowhere = raw::Place { block: NOWHERE, page: 0 };
        Written {
            places: pages.iter().map(|(at, _)| at.map_or(nowhere, |Place { block, page }| raw::Place { block, page })).collect(),
            names: pages.iter().map(|(_, name)| *name).collect(),
            blocks: blocks.iter().map(|&BlockCounts { filled, erases }| raw::Block { filled, erases }).collect(),
            balances: balances.clone(),
            spare,
            part: raw::Part { serial, aside },
        }
    }
}

type TakeCheckpoint = unsafe extern "C" fn(
    *mut raw::Handle, *mut raw::Place, usize, *mut Name, usize, *mut raw::Block, usize, *mut u32, usize, *mut u32, *mut raw::Part, *mut raw::Why,
) -> u32;

/// What stands, as this call says it of a die with these counts of logical pages, blocks and tasks.
///
/// # Safety
/// The handle is full, and the call is one of its kind of die.
pub(crate) unsafe fn checkpoint_by(take: TakeCheckpoint, handle: &mut raw::Handle, counts: [usize; 3]) -> Result<Checkpoint, Refusal> {
    let [logical, blocks, tasks] = counts;
    let mut places = vec![raw::Place::default(); logical];
    let mut names = vec![Name::BLANK; logical];
    let mut counts = vec![raw::Block::default(); blocks];
    let mut balances = vec![0; tasks];
    let (mut spare, mut part, mut why) = (0, raw::Part::default(), NO_NUMBERS);
    let code = take(
        handle, places.as_mut_ptr(), places.len(), names.as_mut_ptr(), names.len(), counts.as_mut_ptr(), counts.len(),
        balances.as_mut_ptr(), balances.len(), &mut spare, &mut part, &mut why,
    );
    answer(code, &why)?;
    let place = |raw::Place { block, page }| (block != NOWHERE).then_some(Place { block, page });
    Ok(Checkpoint {
        pages: places.into_iter().map(place).zip(names).collect(),
        blocks: counts.into_iter().map(|raw::Block { filled, erases }| BlockCounts { filled, erases }).collect(),
        balances,
        spare,
        part: Part { serial: part.serial, aside: part.aside },
    })
}

impl Die {
    /// A die at slot 0, of a chip that is erased. `BadShape`, `BadPlan` or `NoMemory` where it is refused.
    pub fn new(plan: &Plan) -> Result<Die, Refusal> {
        must_fit();
        let counts = [plan.logical as usize, plan.blocks as usize, plan.caps.len()];
        let (plan, tasks) = plan.raw();
        let mut handle = raw::Handle::EMPTY;
        // SAFETY: the handle is empty, and stays so where this is refused.
        plain(unsafe { raw::mg_new(&mut handle, &plan, tasks.as_ptr(), tasks.len()) })?;
        Ok(Die { handle, counts })
    }

    /// A die that goes on from a checkpoint, at slot 0 with an empty log. The chip has to be as the checkpoint says: of each
    /// block as many pages are programmed, and none is in erase. Where a page was changed meanwhile, its read is a fault, since
    /// it gives another name than the page has here.
    ///
    /// Refused with the first that stands: `NoMemory`, which may come at any time; `Checkpoint` with what is wrong first with
    /// it, `BadPlan` coming behind [`Misfit::OtherShape`], and `WornOut` behind [`Misfit::SecondOpen`].
    ///
    /// The checkpoint stands: no slot begins that would spend it (`CheckpointStands`) before
    /// [`checkpoint_void`](Die::checkpoint_void).
    pub fn resume(plan: &Plan, checkpoint: &Checkpoint) -> Result<Die, Refusal> {
        must_fit();
        let counts = [plan.logical as usize, plan.blocks as usize, plan.caps.len()];
        let (plan, tasks) = plan.raw();
        let Written { places, names, blocks, balances, spare, part } = Written::of(checkpoint);
        let (mut handle, mut why) = (raw::Handle::EMPTY, NO_NUMBERS);
        // SAFETY: the handle is empty, and stays so where this is refused; each count is its slice's.
        let code = unsafe {
            raw::mg_resume(
                &mut handle, &plan, tasks.as_ptr(), tasks.len(), places.as_ptr(), places.len(), names.as_ptr(), names.len(),
                blocks.as_ptr(), blocks.len(), balances.as_ptr(), balances.len(), spare, &part, &mut why,
            )
        };
        answer(code, &why)?;
        Ok(Die { handle, counts })
    }

    /// What stands, with the names of the pages. The die stays as it is. Refused with the first that stands: `DieStopped`,
    /// `NotQuiet`, `WornOut`, `NoMemory`.
    pub fn checkpoint(&mut self) -> Result<Checkpoint, Refusal> {
        // SAFETY: the handle is full.
        unsafe { checkpoint_by(raw::mg_checkpoint, &mut self.handle, self.counts) }
    }

    /// The checkpoint from which the die was resumed is void: it is resumed from no more. From then on each slot may begin.
    pub fn checkpoint_void(&mut self) {
        // SAFETY: the handle is full, so it isn't refused.
        unsafe { raw::mg_checkpoint_void(&mut self.handle) };
    }

    /// Accepts a job of 1 to 64 operations, and answers its number. Refused, where nothing changes, with the first that
    /// stands: `DieStopped`, `UnknownTask`, `EmptyJob`, `TooManyOps`, `BadPage`, `ReleasePast`, `BadDue`, `JobsFull`,
    /// `NoTokens`, `NoMemory`.
    pub fn submit(&mut self, caller: u32, task: u32, release: u32, due: u32, ops: &[Op]) -> Result<u32, Refusal> {
        let ops: Vec<raw::Op> = ops.iter().map(|op| op.raw()).collect();
        let (mut number, mut why) = (0, NO_NUMBERS);
        // SAFETY: the handle is full, as in each call below, and the pointers come from references.
        let code = unsafe {
            raw::mg_submit(
                &mut self.handle, caller, task, release, due, ops.as_ptr(), ops.len(), &mut number, &mut why,
            )
        };
        answer(code, &why).map(|()| number)
    }

    /// Accepts a collection for the task, and answers its number. Refused, where nothing changes, with the first that
    /// stands: `DieStopped`, `UnknownTask`, `ReleasePast`, `BadDue`, `CollectorBusy`, `JobsFull`, `NoMemory`.
    pub fn collect(&mut self, caller: u32, task: u32, release: u32, due: u32) -> Result<u32, Refusal> {
        let (mut number, mut why) = (0, NO_NUMBERS);
        let code = unsafe { raw::mg_collect(&mut self.handle, caller, task, release, due, &mut number, &mut why) };
        answer(code, &why).map(|()| number)
    }

    /// Begins the present slot, which borrows the die until it is ended. Refused, where nothing changes, with the first that
    /// stands: `DieStopped`, `Begun`, `ClockEnd`, `NoMemory`, which never comes while slots are reserved.
    pub fn begin(&mut self, caller: u32) -> Result<Slot<'_>, Refusal> {
        let begun = self.begin_slot(caller)?;
        Ok(Slot { die: self, begun, ended: false })
    }

    /// Begins the present slot, and borrows nothing: another function may end it, by [`Die::end_slot`], as where an interrupt
    /// says that the device is done. Every slot that has begun is to be ended. Refused as [`Die::begin`].
    pub fn begin_slot(&mut self, caller: u32) -> Result<Begun, Refusal> {
        let mut call = raw::Call::default();
        plain(unsafe { raw::mg_begin(&mut self.handle, caller, &mut call) })?;
        Ok(Begun::of(&call))
    }

    /// Ends the slot that has begun: whether the device did the call, and the name of what it read, if it read. `DieStopped`;
    /// `NotBegun`; `DeviceFault` where it failed, or a read gave another name than its cell was programmed with: the die is
    /// stopped then, and the slot isn't in its log.
    pub fn end_slot(&mut self, ok: bool, name: Name) -> Result<Reply, Refusal> {
        let mut said = raw::Reply::default();
        let mut waived = [raw::Waived::default(); 16]; // one a task at most
        plain(unsafe {
            raw::mg_end(&mut self.handle, u32::from(ok), &name, &mut said, waived.as_mut_ptr(), waived.len())
        })?;
        Ok(Reply::of(&said, &waived))
    }

    /// Takes the memory for `jobs` later jobs and collections, with `operations` operations in all: while that lasts,
    /// [`Die::submit`] and [`Die::collect`] ask the library's heap for nothing, and are never refused for it. `NoMemory` where it
    /// isn't there. Reserve slots after them: the other way round takes more.
    pub fn reserve_jobs(&mut self, jobs: u32, operations: u32) -> Result<(), Refusal> {
        plain(unsafe { raw::mg_reserve_jobs(&mut self.handle, jobs, operations) })
    }

    /// Takes the memory for `slots` later slots, which then take none. `NoMemory` where it isn't there.
    pub fn reserve(&mut self, slots: u32) -> Result<(), Refusal> {
        plain(unsafe { raw::mg_reserve(&mut self.handle, slots) })
    }

    /// Starts the log anew: the present slot is 0 again, and jobs are numbered from 0. Pages, tokens and erases stay, and what had
    /// been reserved is reserved again, without memory being taken. Refused with the first that stands: `DieStopped`, `NotQuiet`,
    /// `WornOut`.
    pub fn renew(&mut self) -> Result<(), Refusal> {
        let mut why = NO_NUMBERS;
        let code = unsafe { raw::mg_renew(&mut self.handle, &mut why) };
        answer(code, &why)
    }

    /// As [`Die::renew`], and gives back the memory of the log so far, that which is reserved, too.
    pub fn renew_giving_back(&mut self) -> Result<(), Refusal> {
        let mut why = NO_NUMBERS;
        let code = unsafe { raw::mg_renew_giving_back(&mut self.handle, &mut why) };
        answer(code, &why)
    }

    /// The cell in which a logical page lies, if it lies in one: at any moment, and of a die that is stopped, so that every page of
    /// that is found.
    pub fn place(&self, page: u32) -> Option<Place> {
        let mut said = raw::Place::default();
        // It refuses nothing but what can't be here, an empty handle and a null pointer.
        let code = unsafe { raw::mg_place(&self.handle, page, &mut said) };
        (code == 0 && said.block != NOWHERE).then_some(Place { block: said.block, page: said.page })
    }

    /// At most `count` entries of the log, from entry `from` on, counted from 0. To find the first takes a step for each
    /// record before it.
    pub fn log(&self, from: u32, count: usize) -> Vec<Entry> {
        let there = self.entries().saturating_sub(u64::from(from)).min(count as u64) as usize;
        let mut said = vec![raw::Entry::default(); there];
        // It refuses no more than `place`.
        unsafe { raw::mg_entries(&self.handle, from, said.as_mut_ptr(), said.len()) };
        (from..).zip(&said).map(|(number, entry)| self.entry(number, entry)).collect()
    }

    fn entry(&self, number: u32, entry: &raw::Entry) -> Entry {
        let mut waived = vec![raw::Waived::default(); entry.waived as usize];
        if !waived.is_empty() {
            unsafe { raw::mg_entry_waived(&self.handle, number, waived.as_mut_ptr(), waived.len()) };
        }
        let waived = waived.into_iter().map(|raw::Waived { job, given }| Waived { job, given }).collect();
        Entry { what: Entered::of(entry), caller: entry.caller, waived }
    }

    /// What the label of the next program bears. It rises by one with each program that is ended.
    pub fn serial(&self) -> u64 {
        unsafe { raw::mg_serial(&self.handle) }
    }

    /// The number that the part gives a block of the die.
    pub fn part_block(&self, block: u32) -> u32 {
        let mut said = block;
        // The handle is full, so it isn't refused.
        unsafe { raw::mg_part_block(&self.handle, block, &mut said) };
        said
    }

    /// The present slot: how many were carried out.
    pub fn now(&self) -> u32 {
        unsafe { raw::mg_now(&self.handle) }
    }

    /// How many entries the log has: jobs and collections accepted, and slots.
    pub fn entries(&self) -> u64 {
        unsafe { raw::mg_len(&self.handle) }
    }

    /// How many records these take in memory: runs of alike entries.
    pub fn records(&self) -> u64 {
        unsafe { raw::mg_records(&self.handle) }
    }

    /// What a job or a collection was accepted with. `UnknownJob` where there is none of that number.
    pub fn job(&self, number: u32) -> Result<Job, Refusal> {
        let mut said = raw::Job::default();
        plain(unsafe { raw::mg_job(&self.handle, number, &mut said) })?;
        Ok(Job::of(&said))
    }

    /// Who submitted a job or a collection: to find that takes a step for each entry before it. `UnknownJob` where there is none of
    /// that number.
    pub fn caller(&self, number: u32) -> Result<u32, Refusal> {
        let mut said = 0;
        plain(unsafe { raw::mg_caller(&self.handle, number, &mut said) })?;
        Ok(said)
    }

    /// What became of a job or a collection. `UnknownJob`; `NoMemory`.
    pub fn outcome(&self, job: u32) -> Result<Outcome, Refusal> {
        let mut said = raw::Outcome::default();
        let mut reads = [Name::BLANK; 64]; // a job has 64 operations at most
        plain(unsafe { raw::mg_outcome(&self.handle, job, &mut said, reads.as_mut_ptr(), reads.len()) })?;
        Ok(Outcome::of(&said, &reads))
    }

    /// The done job or collection with the greatest lateness. `NothingDone`.
    pub fn worst(&self) -> Result<Worst, Refusal> {
        let mut said = raw::Worst::default();
        plain(unsafe { raw::mg_worst(&self.handle, &mut said) })?;
        Ok(Worst { job: said.job, lateness: said.lateness })
    }

    /// The released job or collection that waits, and is due at the present slot at the latest, with the earliest
    /// deadline; none where nothing is overdue, or a fault has stopped the die. It sorts what is released: so it takes the
    /// die for itself.
    pub fn overdue(&mut self) -> Result<Option<Overdue>, Refusal> {
        let mut said = raw::Overdue::default();
        match plain(unsafe { raw::mg_overdue(&mut self.handle, &mut said) }) {
            Ok(()) => Ok(Some(Overdue { job: said.job, due: said.due, late_by: said.late_by })),
            Err(Refusal::NoneOverdue) => Ok(None),
            Err(refusal) => Err(refusal),
        }
    }

    /// The certificate of the worst. `NothingDone`, `NoMemory`.
    pub fn certificate(&self) -> Result<Certificate, Refusal> {
        let mut jobs = vec![0; 64];
        loop {
            let mut said = raw::Certificate::default();
            plain(unsafe { raw::mg_certificate(&self.handle, &mut said, jobs.as_mut_ptr(), jobs.len()) })?;
            let raw::Certificate { job, start, due, completion, jobs: count } = said;
            if count as usize <= jobs.len() {
                jobs.truncate(count as usize);
                return Ok(Certificate { job, start, due, completion, jobs });
            }
            jobs.resize(count as usize, 0);
        }
    }

    /// The rows of all jobs and collections but the waived ones, by number: what [`check`] reads. `NoMemory`.
    pub fn rows(&self) -> Result<Vec<Row>, Refusal> {
        let mut rows = vec![raw::Row::default(); 64];
        loop {
            let mut total = 0;
            plain(unsafe { raw::mg_rows(&self.handle, rows.as_mut_ptr(), rows.len(), &mut total) })?;
            if total as usize <= rows.len() {
                return Ok(rows[..total as usize].iter().map(Row::of).collect());
            }
            rows.resize(total as usize, raw::Row::default());
        }
    }
}

impl Drop for Die {
    fn drop(&mut self) {
        // SAFETY: the handle is full, and isn't used again.
        unsafe { raw::mg_free(&mut self.handle) }
    }
}

/// A slot that has begun. It derefs to the die for questions, which are answered by the log without it.
///
/// One that is dropped without an end is ended as a fault, which stops the die if the device was to do something.
pub struct Slot<'a> {
    die: &'a mut Die,
    begun: Begun,
    ended: bool,
}

impl Slot<'_> {
    /// What the device is to do.
    pub fn call(&self) -> Call {
        self.begun.call
    }

    /// The job or collection that has the slot, if one has it.
    pub fn job(&self) -> Option<u32> {
        self.begun.job
    }

    /// The logical page that is read, written, trimmed or copied, if one is.
    pub fn logical(&self) -> Option<u32> {
        self.begun.logical
    }

    /// As [`Die::submit`], of a job whose release is above this slot; `Begun` of another one. It is answered by the log
    /// without this slot.
    pub fn submit(&mut self, caller: u32, task: u32, release: u32, due: u32, ops: &[Op]) -> Result<u32, Refusal> {
        self.die.submit(caller, task, release, due, ops)
    }

    /// As [`Die::collect`], of a collection whose release is above this slot; `Begun` of another one. It is answered by the
    /// log without this slot.
    pub fn collect(&mut self, caller: u32, task: u32, release: u32, due: u32) -> Result<u32, Refusal> {
        self.die.collect(caller, task, release, due)
    }

    /// Ends the slot: whether the device did the call, and the name of what it read, if it read. `DeviceFault` where it
    /// failed, or a read gave another name than its cell was programmed with: the die is stopped then, and the slot isn't in
    /// its log.
    pub fn end(mut self, ok: bool, name: Name) -> Result<Reply, Refusal> {
        self.ended = true;
        self.die.end_slot(ok, name)
    }
}

impl Deref for Slot<'_> {
    type Target = Die;

    fn deref(&self) -> &Die {
        self.die
    }
}

impl Drop for Slot<'_> {
    fn drop(&mut self) {
        if !self.ended {
            let _ = self.die.end_slot(false, Name::BLANK);
        }
    }
}

//! A mount of a part after a loss of power.

use crate::data::{Name, Place, Plan};
use crate::die::{must_fit, plain, Die, NOWHERE, NO_NUMBERS};
use crate::raw;
use crate::planned::{Planned, Terms};
use crate::refusals::{answer, resumed, Refusal};
use alloc::vec::Vec;

/// What a program left in its cell: the logical page, the program's serial, which is below 2^63, and how often its block was erased
/// before it; 0 in all labels of a driver that keeps no counts.
#[derive(Clone, Copy, PartialEq, Eq, Debug)]
pub struct Label {
    pub page: u32,
    pub serial: u64,
    pub erases: u32,
}

/// What a mount needs next. Blocks and cells are those of the part.
#[derive(Clone, Copy, PartialEq, Eq, Debug)]
pub enum Step {
    /// To be told what the cells of this block show.
    Tell { block: u32 },
    /// A read of this cell. The program that comes next has its payload.
    Read { place: Place },
    /// A program of this cell with what was read last, and with this label.
    Program { place: Place, label: Label },
    /// One slot of the erase of this block, which is its last slot or not.
    Erase { block: u32, last: bool },
}

/// A mount of a part by the labels in its cells, until a die may start. It may be given up at any moment, as the power may go.
pub struct Mount {
    // It is full from `new` to `drop`.
    handle: raw::Handle,
    counts: [usize; 3],
}

// SAFETY: the library knows no thread, and a mount shares nothing with another but the heap.
unsafe impl Send for Mount {}

impl Mount {
    /// A mount of a part with one block more than this plan, to which nothing was told yet. `BadPlan` or `NoMemory` where it is
    /// refused.
    pub fn new(plan: &Plan) -> Result<Mount, Refusal> {
        must_fit();
        let counts = [plan.logical as usize, plan.blocks as usize, plan.caps.len()];
        let (plan, tasks) = plan.raw();
        let mut handle = raw::Handle::EMPTY;
        // SAFETY: the handle is empty, and stays so where this is refused.
        plain(unsafe { raw::mg_mount_new(&mut handle, &plan, tasks.as_ptr(), tasks.len()) })?;
        Ok(Mount { handle, counts })
    }

    /// What it needs next; none where it has ended. `WrongStep` where it has ended in a die, or was refused as its calls were to begin.
    pub fn next_step(&mut self) -> Result<Option<Step>, Refusal> {
        let mut said = raw::Step::default();
        // SAFETY: the handle is full, as in each call below, and the pointers come from references.
        plain(unsafe { raw::mg_mount_next(&mut self.handle, &mut said) })?;
        let raw::Step { serial, kind, block, page, logical, last, erases } = said;
        let place = Place { block, page };
        Ok(match kind {
            1 => Some(Step::Read { place }),
            2 => Some(Step::Program { place, label: Label { page: logical, serial, erases } }),
            3 => Some(Step::Erase { block, last: last == 1 }),
            4 => Some(Step::Tell { block }),
            _ => None,
        })
    }

    /// Tells what the cells of the block show that is to be told next, from the first one on; cells that aren't told show nothing.
    /// Refused with the first that stands: `NoMemory`, `WrongStep`, `TooManyCells`, `BadLabel`, which leave the mount; and behind the
    /// last block with `WornOut` or `NoMemory`, after which nothing comes any more.
    pub fn tell(&mut self, labels: &[Option<Label>]) -> Result<(), Refusal> {
        let labels: Vec<raw::Label> = labels
            .iter()
            .map(|label| match *label {
                Some(Label { page, serial, erases }) => raw::Label { serial, page, erases },
                None => raw::Label { serial: 0, page: NOWHERE, erases: 0 },
            })
            .collect();
        let mut why = NO_NUMBERS;
        let code = unsafe { raw::mg_mount_tell(&mut self.handle, labels.as_ptr(), labels.len(), &mut why) };
        answer(code, &why)
    }

    /// The call that is the next step was made, and went well. `WrongStep` where none is to be made.
    pub fn done(&mut self) -> Result<(), Refusal> {
        plain(unsafe { raw::mg_mount_done(&mut self.handle) })
    }

    /// How many calls may come yet, once all blocks were told; 0 before.
    pub fn calls_left(&mut self) -> u64 {
        unsafe { raw::mg_mount_calls_left(&mut self.handle) }
    }

    /// The cell of the part from which a page may be read now, if it lies in one. `WrongStep` before all blocks were told.
    pub fn place(&mut self, page: u32) -> Result<Option<Place>, Refusal> {
        let mut said = raw::Place::default();
        plain(unsafe { raw::mg_mount_place(&mut self.handle, page, &mut said) })?;
        let raw::Place { block, page } = said;
        Ok((block != NOWHERE).then_some(Place { block, page }))
    }

    /// The die that begins where the mount has ended, with full accounts; by logical page the name of what lies there. The mount is
    /// over then. `NoMemory`, which leaves it; `WrongStep` where it hasn't ended.
    pub fn end(&mut self, names: &[Name]) -> Result<Die, Refusal> {
        let mut handle = raw::Handle::EMPTY;
        plain(unsafe { raw::mg_mount_end(&mut self.handle, names.as_ptr(), names.len(), &mut handle) })?;
        Ok(Die { handle, counts: self.counts })
    }

    /// The die that keeps its plan and begins where the mount has ended, with full accounts, in the longest life of at most `longest`
    /// slots. The mount is over then. `NoMemory`; `WrongStep` where it hasn't ended; `BadTerms`, `TooMuchDemand`, `TooFewPages`,
    /// `NoLife`, `ShortLife`, as of [`Planned::new`]: these leave it. With the terms and `longest` of before it is `NoMemory` alone.
    pub fn end_planned(&mut self, terms: &[Terms], longest: u32, names: &[Name]) -> Result<Planned, Refusal> {
        let terms: Vec<raw::Terms> = terms.iter().map(Terms::raw).collect();
        let (mut handle, mut why) = (raw::Handle::EMPTY, raw::Unresumed::default());
        let code = unsafe {
            raw::mg_mount_end_planned(
                &mut self.handle, terms.as_ptr(), terms.len(), longest, names.as_ptr(), names.len(), &mut handle, &mut why,
            )
        };
        resumed(code, &why)?;
        Ok(Planned { handle, counts: self.counts })
    }
}

impl Drop for Mount {
    fn drop(&mut self) {
        // SAFETY: the handle is full, and nobody uses it after this.
        unsafe { raw::mg_mount_free(&mut self.handle) }
    }
}

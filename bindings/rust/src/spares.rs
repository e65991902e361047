//! A table of the spare blocks of a part, some of which fail.

use crate::data::{Place, Plan};
use crate::die::{must_fit, plain, NOWHERE};
use crate::mount::Label;
use crate::raw;
use crate::refusals::Refusal;
use alloc::vec::Vec;

/// What a table needs next. Blocks are those of the part.
#[derive(Clone, Copy, PartialEq, Eq, Debug)]
pub enum Move {
    /// To be told the labels in the cells of this block.
    Tell { block: u32 },
    /// The erase of this block, in all of its slots.
    Erase { block: u32 },
    /// A copy of what the cell of `from` with the same page holds: payload, logical page, serial and erases.
    Copy { from: u32, to: Place },
    /// The program that failed, in this cell.
    Program { place: Place },
}

/// How the part carried a move out.
#[derive(Clone, Copy, PartialEq, Eq, Debug)]
pub enum Moved {
    Done = 0,
    /// The block that was erased or programmed failed.
    Failed = 1,
    /// The part itself made it fail.
    Fault = 2,
}

/// What a block of the part is for.
#[derive(Clone, Copy, PartialEq, Eq, Debug)]
pub enum BlockUse {
    Bad,
    Spare,
    Number(u32),
}

/// Which block of a part has which number of a die's and a mount's blocks, and which calls come next where one failed.
pub struct Spares {
    // It is full from `new` to `drop`.
    handle: raw::Handle,
}

// SAFETY: the library knows no thread, and a table shares nothing with another but the heap.
unsafe impl Send for Spares {}

impl Spares {
    /// For a part of so many blocks on which nothing was done yet, of which these are bad. Each other one is erased first. `BadShape` or
    /// `NoMemory` where it is refused.
    pub fn new(plan: &Plan, blocks: u32, bad: &[u32]) -> Result<Spares, Refusal> {
        must_fit();
        let (plan, _tasks) = plan.raw();
        let mut handle = raw::Handle::EMPTY;
        // SAFETY: the handle is empty, and stays so where this is refused.
        plain(unsafe { raw::mg_spares_new(&mut handle, &plan, blocks, bad.as_ptr(), bad.len()) })?;
        Ok(Spares { handle })
    }

    /// For a part whose power has come: its blocks are told next. `BadShape` or `NoMemory` where it is refused.
    pub fn power_up(plan: &Plan, blocks: u32, bad: &[u32]) -> Result<Spares, Refusal> {
        must_fit();
        let (plan, _tasks) = plan.raw();
        let mut handle = raw::Handle::EMPTY;
        // SAFETY: as above.
        plain(unsafe { raw::mg_spares_power_up(&mut handle, &plan, blocks, bad.as_ptr(), bad.len()) })?;
        Ok(Spares { handle })
    }

    /// What it needs next; none where die and mount go on. `NoSpare` where a block failed and no spare one was left, `DeviceFault` after a
    /// fault, `WrongStep` where the blocks that were told make no table.
    pub fn next_move(&mut self) -> Result<Option<Move>, Refusal> {
        let mut said = raw::Move::default();
        // SAFETY: the handle is full, as in each call below, and the pointers come from references.
        plain(unsafe { raw::mg_spares_next(&mut self.handle, &mut said) })?;
        let raw::Move { kind, block, page, from } = said;
        let place = Place { block, page };
        Ok(match kind {
            1 => Some(Move::Tell { block }),
            2 => Some(Move::Erase { block }),
            3 => Some(Move::Copy { from, to: place }),
            4 => Some(Move::Program { place }),
            _ => None,
        })
    }

    /// Tells the labels of the block that is to be told next, whose erases aren't looked at. Refused with the first that stands:
    /// `NoMemory`, `WrongStep`, `TooManyCells`, which leave the table; and behind the last block with `BadShape` or `NoMemory`, after
    /// which nothing comes any more.
    pub fn tell(&mut self, labels: &[Option<Label>]) -> Result<(), Refusal> {
        let labels: Vec<raw::Label> = labels
            .iter()
            .map(|label| match *label {
                Some(Label { page, serial, erases }) => raw::Label { serial, page, erases },
                None => raw::Label { serial: 0, page: NOWHERE, erases: 0 },
            })
            .collect();
        plain(unsafe { raw::mg_spares_tell(&mut self.handle, labels.as_ptr(), labels.len()) })
    }

    /// How the part carried out the next move. `WrongStep` where none comes.
    pub fn done(&mut self, how: Moved) -> Result<(), Refusal> {
        plain(unsafe { raw::mg_spares_done(&mut self.handle, how as u32) })
    }

    /// A program failed, of this page of the block with this number: moves come now. `NoSpare` where no spare block is left; `DeviceFault`,
    /// `WrongStep` or `NoBlock`, and nothing has changed.
    pub fn program_failed(&mut self, number: u32, page: u32) -> Result<(), Refusal> {
        plain(unsafe { raw::mg_spares_program_failed(&mut self.handle, number, page) })
    }

    /// The last slot of the erase of the block with this number failed: a spare one has it now. Refused as `program_failed`.
    pub fn erase_failed(&mut self, number: u32) -> Result<(), Refusal> {
        plain(unsafe { raw::mg_spares_erase_failed(&mut self.handle, number) })
    }

    /// The part's block that has this number. `NoBlock`; `WrongStep` before all blocks were told.
    pub fn block(&mut self, number: u32) -> Result<u32, Refusal> {
        let mut said = 0;
        plain(unsafe { raw::mg_spares_block(&mut self.handle, number, &mut said) })?;
        Ok(said)
    }

    /// What a block of the part is for. `WrongStep` before all blocks were told.
    pub fn use_of(&mut self, block: u32) -> Result<BlockUse, Refusal> {
        let (mut is, mut number) = (0, 0);
        plain(unsafe { raw::mg_spares_use(&mut self.handle, block, &mut is, &mut number) })?;
        Ok(match is {
            1 => BlockUse::Spare,
            2 => BlockUse::Number(number),
            _ => BlockUse::Bad,
        })
    }

    /// How many spare blocks are left; 0 before all blocks were told.
    pub fn left(&mut self) -> u32 {
        unsafe { raw::mg_spares_left(&mut self.handle) }
    }
}

impl Drop for Spares {
    fn drop(&mut self) {
        // SAFETY: the handle is full, and nobody uses it after this.
        unsafe { raw::mg_spares_free(&mut self.handle) }
    }
}

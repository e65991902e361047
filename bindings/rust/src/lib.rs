//! A die of a proved flash translation layer with deadlines.
//!
//! A slot goes in two steps. [`Die::begin`] chooses what the slot carries and reports the one call of the device that it
//! needs, the driver does it, and [`Slot::end`] takes what the device answered. A device that failed, or that gave another
//! name than the cell was programmed with, stops the die for good.
//!
//! ```
//! use maulgreen::{Call, Die, Name, Op, Plan};
//!
//! # fn main() -> Result<(), maulgreen::Refusal> {
//! let plan = Plan { blocks: 8, pages: 4, erase_slots: 3, logical: 16, alpha: 2, caps: vec![4], times: None };
//! let mut die = Die::new(&plan)?;
//! let mut chip = [[Name::BLANK; 4]; 8];
//! // a job of task 0, to run from slot 0 on and to be done by slot 2: it writes page 5 and reads it back
//! let job = die.submit(9, 0, 0, 2, &[Op::Write(5, Name([7; 16])), Op::Read(5)])?;
//! for _ in 0..2 {
//!     let slot = die.begin(9)?;
//!     let gave = match slot.call() {
//!         Call::Read { block, page, .. } => chip[block as usize][page as usize],
//!         Call::Program { block, page, name, .. } => { chip[block as usize][page as usize] = name; name }
//!         Call::Erase { .. } | Call::Trim { .. } | Call::Nothing => Name::BLANK,
//!     };
//!     slot.end(true, gave)?;
//! }
//! assert_eq!(die.worst()?.lateness, 0);
//! assert!(matches!(die.outcome(job)?, maulgreen::Outcome::Done { reads, .. } if reads == [Name([7; 16])]));
//! # Ok(())
//! # }
//! ```
//!
//! A die isn't copied. It may go to another thread, and questions may be asked by several at a time:
//!
//! ```
//! # let plan = maulgreen::Plan { blocks: 8, pages: 4, erase_slots: 3, logical: 16, alpha: 2, caps: vec![4], times: None };
//! let die = maulgreen::Die::new(&plan).unwrap();
//! std::thread::scope(|scope| for _ in 0..2 { scope.spawn(|| assert_eq!(die.now(), 0)); });
//! assert_eq!(std::thread::spawn(move || die.entries()).join().unwrap(), 0);
//! ```
//!
//! What changes it is done by one at a time:
//!
//! ```compile_fail
//! # let plan = maulgreen::Plan { blocks: 8, pages: 4, erase_slots: 3, logical: 16, alpha: 2, caps: vec![4], times: None };
//! let mut die = maulgreen::Die::new(&plan).unwrap();
//! std::thread::scope(|scope| for _ in 0..2 { scope.spawn(|| die.renew()); });
//! ```
//!
//! While a slot has begun, the die is lent to it: what may arrive then goes through the [`Slot`].
//!
//! ```compile_fail
//! # let plan = maulgreen::Plan { blocks: 8, pages: 4, erase_slots: 3, logical: 16, alpha: 2, caps: vec![4], times: None };
//! let mut die = maulgreen::Die::new(&plan).unwrap();
//! let slot = die.begin(9).unwrap();
//! die.begin(9).unwrap();
//! slot.end(true, maulgreen::Name::BLANK).unwrap();
//! ```
//!
//! Where an interrupt says that the device is done, the slot is ended by another function than the one that began it:
//!
//! ```
//! use maulgreen::{Begun, Die, Name, Op, Plan, Refusal};
//!
//! struct Driver { die: Die, under_way: Option<Begun> }
//!
//! impl Driver {
//!     fn start(&mut self) -> Result<(), Refusal> {
//!         self.under_way = Some(self.die.begin_slot(9)?); // and hands the call to the device
//!         Ok(())
//!     }
//!     fn interrupt(&mut self, ok: bool, name: Name) -> Result<(), Refusal> {
//!         if self.under_way.take().is_some() { self.die.end_slot(ok, name)?; }
//!         Ok(())
//!     }
//! }
//!
//! # fn main() -> Result<(), Refusal> {
//! # let plan = Plan { blocks: 8, pages: 4, erase_slots: 3, logical: 16, alpha: 2, caps: vec![4], times: None };
//! let mut driver = Driver { die: Die::new(&plan)?, under_way: None };
//! driver.die.submit(9, 0, 0, 2, &[Op::Write(5, Name([7; 16]))])?;
//! driver.start()?;
//! assert_eq!(driver.die.begin_slot(9), Err(Refusal::Begun));
//! driver.interrupt(true, Name::BLANK)?;
//! assert_eq!(driver.die.now(), 1);
//! # Ok(())
//! # }
//! ```
//!
//! What may be refused for memory is reserved beforehand, and [`Plan::memory`] says how much that takes:
//!
//! ```
//! use maulgreen::{Die, Entered, Op, Plan, Refusal};
//!
//! # fn main() -> Result<(), Refusal> {
//! let plan = Plan { blocks: 64, pages: 32, erase_slots: 3, logical: 1024, alpha: 8, caps: vec![32], times: None };
//! assert_eq!(plan.memory(1000, 100, 400)?.reserved, 99_985);
//! let mut die = Die::new(&plan)?;
//! die.reserve_jobs(100, 400)?;
//! die.reserve(1000)?;
//! die.submit(7, 0, 0, 2, &[Op::Trim(5)])?;
//! let slot = die.begin(9)?;
//! assert_eq!(slot.call(), maulgreen::Call::Trim { page: 5 });
//! slot.end(true, maulgreen::Name::BLANK)?;
//! assert_eq!((die.log(0, 9)[1].what, die.caller(0)?), (Entered::Operation { job: 0, place: 0, last: true }, 7));
//! # Ok(())
//! # }
//! ```

#![no_std]

extern crate alloc;

mod data;
mod die;
mod mount;
mod planned;
mod raw;
mod refusals;
mod spares;

pub use data::{
    Act, Begun, BlockCounts, Call, Certificate, Checkpoint, Entered, Entry, Job, Load, Memory, Name, Op, Outcome, Overdue, Part, Place, Plan, Reply, Row,
    TaskTimes, Times, Waived, Worst,
};
pub use die::{check, Die, Slot};
pub use mount::{Label, Mount, Step};
pub use spares::{BlockUse, Move, Moved, Spares};
pub use planned::{Life, Planned, Taken, Terms};
pub use refusals::{Flaw, Misfit, Refusal};

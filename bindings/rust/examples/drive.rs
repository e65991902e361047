//! Drives a chip of 4 KiB pages, which is simulated here: what `../c/example.c` does, in Rust.

use maulgreen::{
    check, Act, BlockUse, Call, Die, Entered, Label, Misfit, Mount, Move, Moved, Name, Op, Outcome, Part, Place, Plan, Planned, Refusal,
    Spares, Step, Terms,
};
use std::collections::HashMap;

const PAYLOAD: usize = 4096;
const LOGICAL: u32 = 16;

type Payload = Vec<u8>;

/// A payload's name. A driver takes a digest that no two of its payloads share.
fn name_of(payload: &[u8]) -> Name {
    let (mut a, mut b) = (14695981039346656037u64, 0x9E3779B97F4A7C15u64);
    for (i, &byte) in payload.iter().enumerate() {
        a = (a ^ u64::from(byte)).wrapping_mul(1099511628211);
        b = (b ^ u64::from(byte)).wrapping_mul(1099511628211).wrapping_add(i as u64);
    }
    let mut name = [0; 16];
    name[..8].copy_from_slice(&a.to_le_bytes());
    name[8..].copy_from_slice(&b.to_le_bytes());
    Name(name)
}

/// The chip, and the payloads on their way to it: what jobs write, and what copies have read.
#[derive(Default)]
struct Driver {
    cells: HashMap<(u32, u32), Payload>,
    staged: HashMap<Name, Payload>,
    programs_left: Option<u32>,
}

impl Driver {
    fn stage(&mut self, payload: &[u8]) -> Name {
        let name = name_of(payload);
        self.staged.insert(name, payload.to_vec());
        name
    }

    /// Does what the die asks: whether it went well, and the name of what a read gave.
    fn drive(&mut self, call: Call) -> (bool, Name) {
        match call {
            // A driver that keeps a record of trims writes it here.
            Call::Nothing | Call::Trim { .. } => (true, Name::BLANK),
            Call::Read { block, page, copy, .. } => {
                let payload = self.cells[&(block, page)].clone();
                if copy {
                    self.stage(&payload);
                }
                (true, name_of(&payload))
            }
            Call::Program { block, page, name, .. } => {
                if self.programs_left == Some(0) {
                    return (false, Name::BLANK);
                }
                self.programs_left = self.programs_left.map(|left| left - 1);
                let Some(payload) = self.staged.get(&name).cloned() else { return (false, Name::BLANK) };
                self.cells.insert((block, page), payload);
                (true, Name::BLANK)
            }
            Call::Erase { block, last } => {
                if last {
                    self.cells.retain(|cell, _| cell.0 != block);
                }
                (true, Name::BLANK)
            }
        }
    }
}

fn made() -> Result<(Die, Driver), Refusal> {
    let plan = Plan { blocks: 8, pages: 4, erase_slots: 3, logical: LOGICAL, alpha: 2, caps: vec![4], times: None };
    Ok((Die::new(&plan)?, Driver::default()))
}

/// In each round a collection and a job that writes a page and reads it back, and slots until one is idle.
fn play(die: &mut Die, driver: &mut Driver, rounds: u32) -> Result<[u32; 7], Refusal> {
    let (mut seed, mut acts) = (1u32, [0; 7]);
    for round in 0..rounds {
        seed = seed.wrapping_mul(1664525).wrapping_add(1013904223);
        let (page, now) = (seed >> 28, die.now());
        let payload: Payload = (0..PAYLOAD).map(|i| (round as usize + i * 7 + page as usize) as u8).collect();
        let name = driver.stage(&payload);
        die.collect(1, 0, now, now + 40)?;
        let job = die.submit(1, 0, now, now + 8, &[Op::Write(page, name), Op::Read(page)])?;
        loop {
            let slot = die.begin(9)?;
            let (ok, gave) = driver.drive(slot.call());
            let act = match slot.end(ok, gave)?.act {
                Act::Idle => break,
                Act::Read { .. } => 1,
                Act::Write { .. } => 2,
                Act::Trim { .. } => 3,
                Act::CopyRead { .. } => 4,
                Act::CopyProgram { .. } => 5,
                Act::Erase { .. } => 6,
            };
            acts[act] += 1;
        }
        assert!(matches!(die.outcome(job)?, Outcome::Done { reads, .. } if reads == [name]));
    }
    Ok(acts)
}

fn main() -> Result<(), Refusal> {
    let (mut die, mut driver) = made()?;
    assert_eq!(die.submit(1, 0, 0, 1, &[]), Err(Refusal::EmptyJob));
    assert_eq!(die.submit(1, 0, 0, 1, &[Op::Trim(0), Op::Read(LOGICAL)]), Err(Refusal::BadPage { page: LOGICAL }));
    assert_eq!(die.submit(1, 0, 0, 1, &[Op::Write(0, Name::BLANK); 5]), Err(Refusal::NoTokens { have: 4, need: 5 }));
    println!("refusals have their numbers");
    assert_eq!(die.overdue(), Ok(None));

    // Careful programs reserve: then nothing is refused for memory, nor waits for it.
    die.reserve_jobs(400, 400)?;
    die.reserve(4000)?;
    let acts = play(&mut die, &mut driver, 200)?;
    println!("{} writes, {} reads, {} copies, {} erase slots", acts[2], acts[1], acts[5], acts[6]);
    let (worst, certificate, rows) = (die.worst()?, die.certificate()?, die.rows()?);
    assert_eq!((certificate.job, check(&rows, &certificate)), (worst.job, Ok(())));
    println!(
        "worst: job {}, lateness {}; its certificate: {} jobs fill slots {} to {}",
        worst.job, worst.lateness, certificate.jobs.len(), certificate.start, certificate.completion
    );

    let log = die.log(0, usize::MAX);
    assert_eq!((log.len() as u64, log[1].what, log[1].caller), (die.entries(), Entered::Submitted { job: 1 }, 1));
    assert_eq!((log[2].what, log[2].caller), (Entered::Operation { job: 1, place: 0, last: false }, 9));
    assert!(log[4].waived.len() == 1 && log[4].waived[0].job == 0 && die.caller(1)? == 1);
    assert!(die.log(2, 3) == log[2..5] && die.log(u32::MAX, 9).is_empty());

    // Arrivals while a slot has begun, and a renewal.
    let now = die.now();
    let job = die.submit(1, 0, now, now + 1, &[Op::Read(3)])?;
    let mut slot = die.begin(9)?;
    assert_eq!(slot.job(), Some(job));
    assert_eq!(slot.submit(1, 0, now, now + 1, &[Op::Read(3)]), Err(Refusal::Begun));
    let other = slot.submit(1, 0, now + 1, now + 2, &[Op::Read(3)])?;
    let (ok, gave) = driver.drive(slot.call());
    slot.end(ok, gave)?;
    assert_eq!(die.renew(), Err(Refusal::NotQuiet { job: other }));
    let slot = die.begin(9)?;
    let (ok, gave) = driver.drive(slot.call());
    slot.end(ok, gave)?;
    die.renew()?;
    assert_eq!((die.now(), die.entries()), (0, 0));
    println!("arrivals between begin and end, and a renewal");

    // A corrupted page is never given out: its read is a fault.
    let job = die.submit(1, 0, 0, 1, &[Op::Read(3)])?;
    let slot = die.begin(9)?;
    if let Call::Read { block, page, .. } = slot.call() {
        driver.cells.get_mut(&(block, page)).expect("it is programmed")[17] ^= 1;
    }
    let (ok, gave) = driver.drive(slot.call());
    assert_eq!(slot.end(ok, gave), Err(Refusal::DeviceFault));
    assert_eq!(die.outcome(job), Ok(Outcome::Waiting));
    assert!(matches!(die.begin(9), Err(Refusal::DieStopped)));
    println!("a corrupted page is a fault");

    let (mut die, mut driver) = made()?;
    driver.programs_left = Some(20);
    assert_eq!(play(&mut die, &mut driver, 200), Err(Refusal::DeviceFault));
    // Every page of a stopped die is found.
    for place in (0..=LOGICAL).filter_map(|page| die.place(page)) {
        assert!(driver.cells.contains_key(&(place.block, place.page)));
    }
    assert!((0..LOGICAL).any(|page| die.place(page).is_some()));
    println!("a program that fails stops the die");

    // The die is dropped and made again from its checkpoint; the chip keeps its pages.
    let (mut die, mut driver) = made()?;
    play(&mut die, &mut driver, 30)?;
    let mut checkpoint = die.checkpoint()?;
    drop(die);
    let plan = Plan { blocks: 8, pages: 4, erase_slots: 3, logical: LOGICAL, alpha: 2, caps: vec![4], times: None };
    checkpoint.spare += 1;
    assert!(matches!(Die::resume(&plan, &checkpoint), Err(Refusal::Checkpoint(Misfit::OtherSum { .. }))));
    checkpoint.spare -= 1;
    let mut die = Die::resume(&plan, &checkpoint)?;
    assert_eq!(die.checkpoint()?, checkpoint);
    assert_eq!(checkpoint.part, Part { serial: die.serial(), aside: 8 });
    die.submit(1, 0, 0, 9, &[Op::Trim(0)])?;
    assert_eq!(die.begin(9).err(), Some(Refusal::CheckpointStands));
    die.checkpoint_void();
    die.begin(9)?.end(true, Name::BLANK)?;
    play(&mut die, &mut driver, 30)?;
    println!("a shutdown, and a die that goes on");

    // A slot that is dropped stops a die, too.
    let (mut die, _) = made()?;
    die.submit(1, 0, 0, 1, &[Op::Write(0, Name::BLANK)])?;
    drop(die.begin(9)?);
    assert!(matches!(die.begin(9), Err(Refusal::DieStopped)));
    println!("a slot that is dropped stops the die");

    // Page 5 lies in a part's last block, which the die has under the number of the one aside: block 0.
    let mut mount = Mount::new(&plan)?;
    assert_eq!((mount.done(), mount.calls_left()), (Err(Refusal::WrongStep), 0));
    assert_eq!(mount.tell(&[None, Some(Label { page: LOGICAL, serial: 1, erases: 0 })]), Err(Refusal::BadLabel { cell: 1 }));
    let mut slots = 0;
    while let Some(step) = mount.next_step()? {
        match step {
            Step::Tell { block: 8 } => mount.tell(&[Some(Label { page: 5, serial: 41, erases: 6 })])?,
            Step::Tell { .. } => mount.tell(&[])?,
            Step::Erase { .. } => {
                assert_eq!(mount.place(5)?, Some(Place { block: 8, page: 0 }));
                mount.done()?;
                slots += 1;
            }
            _ => panic!("nothing is to be copied"),
        }
    }
    let fifth = Name([171; 16]);
    let mut die = mount.end(&[Name::BLANK, Name::BLANK, Name::BLANK, Name::BLANK, Name::BLANK, fifth])?;
    // Block 8 had 6 erases, and is block 0 here; one of which nothing is told counts one more.
    let erases: Vec<u32> = die.checkpoint()?.blocks.iter().map(|block| block.erases).collect();
    assert_eq!((erases[0], erases[4]), (6, 7));
    assert_eq!(mount.next_step(), Err(Refusal::WrongStep));
    assert_eq!((slots, die.serial(), die.part_block(0), die.place(5)), (9, 42, 8, Some(Place { block: 0, page: 0 })));
    die.submit(1, 0, 0, 1, &[Op::Read(5)])?;
    let slot = die.begin(9)?;
    assert!(matches!(slot.call(), Call::Read { block: 0, page: 0, name, .. } if name == fifth));
    slot.end(true, fifth)?;
    println!("a mount, and the die that begins where it ends");

    // Eleven blocks, of which block 1 is bad and block 10 is spare: it has the number 0 once page 0 of block 0 was copied.
    let mut table = Spares::new(&plan, 11, &[1])?;
    let mut erased = 0;
    while let Some(Move::Erase { .. }) = table.next_move()? {
        table.done(Moved::Done)?;
        erased += 1;
    }
    assert_eq!((erased, table.left(), table.block(1)?, table.use_of(10)?), (10, 1, 2, BlockUse::Spare));
    table.program_failed(0, 1)?;
    assert_eq!(table.next_move()?, Some(Move::Copy { from: 0, to: Place { block: 10, page: 0 } }));
    table.done(Moved::Done)?;
    assert_eq!((table.next_move()?, table.block(0)?), (Some(Move::Program { place: Place { block: 10, page: 1 } }), 0));
    table.done(Moved::Done)?;
    assert_eq!((table.block(0)?, table.use_of(0)?, table.use_of(10)?), (10, BlockUse::Bad, BlockUse::Number(0)));
    assert_eq!((table.erase_failed(3), table.next_move()), (Err(Refusal::NoSpare), Err(Refusal::NoSpare)));
    let mut table = Spares::power_up(&plan, 9, &[])?;
    for block in 0..9 {
        assert_eq!(table.next_move()?, Some(Move::Tell { block }));
        table.tell(&[Some(Label { page: 0, serial: u64::from(block) + 1, erases: 0 })])?;
    }
    assert_eq!((table.next_move()?, table.block(8)?, table.block(9)), (None, 8, Err(Refusal::NoBlock)));
    println!("a table of spare blocks");

    // A die that keeps its plan is written down and goes on, and a mount ends in one.
    let plan = Plan { logical: 12, caps: vec![6], ..plan };
    let terms = Terms { period: 20, deadline: 10, held: 10, work: 2, writes: 1, collect_period: 20, collect_deadline: 20 };
    let mut kept = Planned::new(&plan, &[terms], 100)?;
    kept.ask(1, 0, &[Op::Write(5, fifth)])?;
    assert_eq!(kept.checkpoint(), Err(Refusal::NotQuiet { job: 0 }));
    kept.begin_slot(9)?;
    assert_eq!(kept.checkpoint(), Err(Refusal::Begun));
    kept.end_slot(true, Name::BLANK)?;
    kept.begin_slot(9)?; // it waives the collection
    kept.end_slot(true, Name::BLANK)?;
    assert_eq!((kept.serial(), kept.part_block(3)), (2, 3));
    let mut written = kept.checkpoint()?;
    assert_eq!(written.pages[5], (Some(Place { block: 0, page: 0 }), fifth));
    drop(kept);
    assert_eq!(Planned::resume(&plan, &[terms], 19, &written).err(), Some(Refusal::NoLife));
    written.balances[0] -= 4;
    written.spare += 4;
    assert_eq!(Planned::resume(&plan, &[terms], 100, &written).err(), Some(Refusal::NotStocked { task: 0, have: 2, need: 3 }));
    written.balances[0] += 4;
    written.spare -= 4;
    let mut kept = Planned::resume(&plan, &[terms], 60, &written)?;
    assert_eq!((kept.life().slots, kept.serial(), kept.checkpoint()?), (60, 2, written));
    assert_eq!(kept.begin_slot(9).err(), Some(Refusal::CheckpointStands));
    kept.checkpoint_void();
    kept.begin_slot(9)?;
    kept.end_slot(true, Name::BLANK)?;
    let mut mount = Mount::new(&plan)?;
    assert_eq!(mount.end_planned(&[terms], 100, &[]).err(), Some(Refusal::WrongStep));
    while let Some(step) = mount.next_step()? {
        match step {
            Step::Tell { block: 8 } => mount.tell(&[Some(Label { page: 5, serial: 41, erases: 6 })])?,
            Step::Tell { .. } => mount.tell(&[])?,
            _ => mount.done()?,
        }
    }
    assert_eq!(mount.end_planned(&[terms, terms], 100, &[]).err(), Some(Refusal::BadTerms));
    let mut kept = mount.end_planned(&[terms], 100, &[Name::BLANK, Name::BLANK, Name::BLANK, Name::BLANK, Name::BLANK, fifth])?;
    assert_eq!((kept.serial(), kept.part_block(0), kept.place(5)), (42, 8, Some(Place { block: 0, page: 0 })));
    kept.ask(1, 0, &[Op::Read(5)])?;
    assert!(matches!(kept.begin_slot(9)?.call, Call::Read { name, .. } if name == fifth));
    kept.end_slot(true, fifth)?;
    println!("a die that keeps its plan goes on, and begins where a mount ends");
    println!("all as it should be");
    Ok(())
}

//! The structs and functions of maulgreen.h, which says what each means.

use crate::Name;
use core::ffi::c_void;
use core::ptr::null_mut;

#[repr(C)]
pub struct Handle {
    at: *mut c_void,
}

impl Handle {
    pub const EMPTY: Handle = Handle { at: null_mut() };
}

macro_rules! structs {
    ($($name:ident { $($field:ident: $type:ty),* })*) => { $(
        #[derive(Clone, Copy, Default)]
        #[repr(C)]
        pub struct $name { $(pub $field: $type),* }
    )* };
}

structs! {
    Plan { blocks: u32, pages: u32, erase_slots: u32, logical: u32, alpha: u32, common: u32 }
    Task { cap: u32, period: u32, collect_period: u32, work: u32, writes: u32 }
    Load { demand: u64, common: u32 }
    Why { first: u32, second: u32 }
    Op { kind: u32, page: u32, name: Name }
    Call { kind: u32, block: u32, page: u32, last: u32, slot: u32, act: u32, job: u32, logical: u32, name: Name, erases: u32 }
    Reply { slot: u32, act: u32, job: u32, page: u32, finished: u32, waived: u32, caller: u32, name: Name }
    Waived { job: u32, given: u32 }
    Entry { what: u32, caller: u32, job: u32, at: u32, waived: u32 }
    Job { collects: u32, task: u32, release: u32, due: u32 }
    Bytes { birth: u64, reserved: u64, life: u64, question: u64, resume: u64 }
    Outcome { lateness: i64, state: u32, completion: u32, given: u32, reads: u32 }
    Worst { lateness: i64, job: u32 }
    Overdue { late_by: u64, job: u32, due: u32 }
    Certificate { job: u32, start: u32, due: u32, completion: u32, jobs: u32 }
    Row { number: u32, release: u32, due: u32, work: u32, done: u32, completion: u32 }
    Place { block: u32, page: u32 }
    Block { filled: u32, erases: u32 }
    Part { serial: u64, aside: u32 }
    Label { serial: u64, page: u32, erases: u32 }
    Terms { period: u32, deadline: u32, held: u32, work: u32, writes: u32, collect_period: u32, collect_deadline: u32 }
    Taken { release: u64, due: u64, waits: u32, first: u32, jobs: u32 }
    Unasked { next: u64, number: u32 }
    Life { first: u64, slots: u32, now: u32 }
    Unresumed { first: u32, second: u32, third: u32 }
    Step { serial: u64, kind: u32, block: u32, page: u32, logical: u32, last: u32, erases: u32 }
    Move { kind: u32, block: u32, page: u32, from: u32 }
}

extern "C" {
    pub fn mg_version() -> u32;
    pub fn mg_refusal_text(refusal: u32) -> *const core::ffi::c_char;
    pub fn mg_plan_bound(plan: *const Plan, tasks: *const Task, count: usize) -> u32;
    pub fn mg_plan_test(plan: *const Plan, tasks: *const Task, count: usize, load: *mut Load) -> u32;
    pub fn mg_memory(
        plan: *const Plan, tasks: *const Task, count: usize, slots: u32, jobs: u32, operations: u32, bytes: *mut Bytes,
    ) -> u32;
    pub fn mg_new(die: *mut Handle, plan: *const Plan, tasks: *const Task, count: usize) -> u32;
    pub fn mg_free(die: *mut Handle);
    pub fn mg_submit(
        die: *mut Handle, caller: u32, task: u32, release: u32, due: u32, ops: *const Op, count: usize,
        number: *mut u32, why: *mut Why,
    ) -> u32;
    pub fn mg_collect(
        die: *mut Handle, caller: u32, task: u32, release: u32, due: u32, number: *mut u32, why: *mut Why,
    ) -> u32;
    pub fn mg_begin(die: *mut Handle, caller: u32, call: *mut Call) -> u32;
    pub fn mg_end(
        die: *mut Handle, ok: u32, name: *const Name, reply: *mut Reply, waived: *mut Waived, count: usize,
    ) -> u32;
    pub fn mg_reserve(die: *mut Handle, slots: u32) -> u32;
    pub fn mg_reserve_jobs(die: *mut Handle, jobs: u32, operations: u32) -> u32;
    pub fn mg_renew(die: *mut Handle, why: *mut Why) -> u32;
    pub fn mg_renew_giving_back(die: *mut Handle, why: *mut Why) -> u32;
    pub fn mg_checkpoint(
        die: *mut Handle, places: *mut Place, place_count: usize, names: *mut Name, name_count: usize, blocks: *mut Block,
        block_count: usize, balances: *mut u32, balance_count: usize, spare: *mut u32, part: *mut Part, why: *mut Why,
    ) -> u32;
    pub fn mg_resume(
        die: *mut Handle, plan: *const Plan, tasks: *const Task, count: usize, places: *const Place, place_count: usize,
        names: *const Name, name_count: usize, blocks: *const Block, block_count: usize, balances: *const u32,
        balance_count: usize, spare: u32, part: *const Part, why: *mut Why,
    ) -> u32;
    pub fn mg_checkpoint_void(die: *mut Handle) -> u32;
    pub fn mg_mount_new(mount: *mut Handle, plan: *const Plan, tasks: *const Task, count: usize) -> u32;
    pub fn mg_mount_free(mount: *mut Handle);
    pub fn mg_mount_next(mount: *mut Handle, step: *mut Step) -> u32;
    pub fn mg_mount_tell(mount: *mut Handle, labels: *const Label, count: usize, why: *mut Why) -> u32;
    pub fn mg_mount_done(mount: *mut Handle) -> u32;
    pub fn mg_mount_calls_left(mount: *mut Handle) -> u64;
    pub fn mg_mount_place(mount: *mut Handle, page: u32, place: *mut Place) -> u32;
    pub fn mg_mount_end(mount: *mut Handle, names: *const Name, count: usize, die: *mut Handle) -> u32;
    pub fn mg_spares_new(spares: *mut Handle, plan: *const Plan, blocks: u32, bad: *const u32, count: usize) -> u32;
    pub fn mg_spares_power_up(spares: *mut Handle, plan: *const Plan, blocks: u32, bad: *const u32, count: usize) -> u32;
    pub fn mg_spares_free(spares: *mut Handle);
    pub fn mg_spares_next(spares: *mut Handle, next: *mut Move) -> u32;
    pub fn mg_spares_tell(spares: *mut Handle, labels: *const Label, count: usize) -> u32;
    pub fn mg_spares_done(spares: *mut Handle, how: u32) -> u32;
    pub fn mg_spares_program_failed(spares: *mut Handle, number: u32, page: u32) -> u32;
    pub fn mg_spares_erase_failed(spares: *mut Handle, number: u32) -> u32;
    pub fn mg_spares_block(spares: *mut Handle, number: u32, block: *mut u32) -> u32;
    pub fn mg_spares_use(spares: *mut Handle, block: u32, is: *mut u32, number: *mut u32) -> u32;
    pub fn mg_spares_left(spares: *mut Handle) -> u32;
    pub fn mg_serial(die: *const Handle) -> u64;
    pub fn mg_part_block(die: *const Handle, block: u32, part_block: *mut u32) -> u32;
    pub fn mg_now(die: *const Handle) -> u32;
    pub fn mg_len(die: *const Handle) -> u64;
    pub fn mg_records(die: *const Handle) -> u64;
    pub fn mg_place(die: *const Handle, page: u32, place: *mut Place) -> u32;
    pub fn mg_entries(die: *const Handle, from: u32, entries: *mut Entry, count: usize) -> u32;
    pub fn mg_entry_waived(die: *const Handle, entry: u32, waived: *mut Waived, count: usize) -> u32;
    pub fn mg_job(die: *const Handle, number: u32, job: *mut Job) -> u32;
    pub fn mg_caller(die: *const Handle, number: u32, caller: *mut u32) -> u32;
    pub fn mg_outcome(die: *const Handle, job: u32, outcome: *mut Outcome, reads: *mut Name, count: usize) -> u32;
    pub fn mg_worst(die: *const Handle, worst: *mut Worst) -> u32;
    pub fn mg_overdue(die: *mut Handle, overdue: *mut Overdue) -> u32;
    pub fn mg_certificate(die: *const Handle, certificate: *mut Certificate, jobs: *mut u32, count: usize) -> u32;
    pub fn mg_rows(die: *const Handle, rows: *mut Row, count: usize, total: *mut u32) -> u32;
    pub fn mg_planned_new(
        die: *mut Handle, plan: *const Plan, tasks: *const Task, terms: *const Terms, count: usize, longest: u32, why: *mut Unasked,
    ) -> u32;
    pub fn mg_planned_free(die: *mut Handle);
    pub fn mg_planned_ask(
        die: *mut Handle, caller: u32, task: u32, ops: *const Op, count: usize, taken: *mut Taken, why: *mut Unasked,
    ) -> u32;
    pub fn mg_planned_ask_all(
        die: *mut Handle, caller: u32, task: u32, ops: *const Op, count: usize, taken: *mut Taken, why: *mut Unasked,
    ) -> u32;
    pub fn mg_planned_begin(die: *mut Handle, caller: u32, call: *mut Call) -> u32;
    pub fn mg_planned_end(
        die: *mut Handle, ok: u32, name: *const Name, reply: *mut Reply, waived: *mut Waived, count: usize,
    ) -> u32;
    pub fn mg_planned_clock(die: *const Handle) -> u64;
    pub fn mg_planned_life(die: *const Handle, life: *mut Life) -> u32;
    pub fn mg_planned_waiting(die: *const Handle, task: u32, operations: *mut u32) -> u32;
    pub fn mg_planned_job(die: *const Handle, number: u32, job: *mut Job) -> u32;
    pub fn mg_planned_outcome(die: *const Handle, job: u32, outcome: *mut Outcome, reads: *mut Name, count: usize) -> u32;
    pub fn mg_planned_place(die: *const Handle, page: u32, place: *mut Place) -> u32;
    pub fn mg_planned_checkpoint(
        die: *mut Handle, places: *mut Place, place_count: usize, names: *mut Name, name_count: usize, blocks: *mut Block,
        block_count: usize, balances: *mut u32, balance_count: usize, spare: *mut u32, part: *mut Part, why: *mut Why,
    ) -> u32;
    pub fn mg_planned_resume(
        die: *mut Handle, plan: *const Plan, tasks: *const Task, terms: *const Terms, count: usize, longest: u32, places: *const Place,
        place_count: usize, names: *const Name, name_count: usize, blocks: *const Block, block_count: usize, balances: *const u32,
        balance_count: usize, spare: u32, part: *const Part, why: *mut Unresumed,
    ) -> u32;
    pub fn mg_planned_checkpoint_void(die: *mut Handle) -> u32;
    pub fn mg_mount_end_planned(
        mount: *mut Handle, terms: *const Terms, count: usize, longest: u32, names: *const Name, name_count: usize, die: *mut Handle,
        why: *mut Unresumed,
    ) -> u32;
    pub fn mg_planned_serial(die: *const Handle) -> u64;
    pub fn mg_planned_part_block(die: *const Handle, block: u32, part_block: *mut u32) -> u32;
    pub fn mg_check(
        rows: *const Row, row_count: usize, certificate: *const Certificate, jobs: *const u32, count: usize,
    ) -> u32;
}

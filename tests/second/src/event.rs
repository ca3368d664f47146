//! The events, their answers, and "Order for an event: 1, 2, 3, 4, then 5 or 6", with "3, 13, 14 where 3
//! stood" (document 02, request 2) and without 6 (request 4).
//!
//! 1 and 2 are not here: "a whole trace starts fresh and need not check again", and its sizes are
//! judged when they are read.

use crate::pool::{Pool, Record, Sizes};
use crate::{collector, worker};

/// An event with the numbers a trace gives it, in the trace's order.
#[derive(Clone, Copy, Debug, PartialEq, Eq)]
pub enum Event {
    Make { w: u8, r: u8 },
    Move { w: u8, r: u8, q: u8 },
    Drop { w: u8, r: u8 },
    Load { w: u8, r: u8, q: u8, f: u8 },
    Store { w: u8, q: u8, f: u8, r: u8 },
    Look { w: u8, r: u8, e: u8 },
    Post { w: u8, e: u8, r: u8 },
    Collect,
}

/// An answer number and a value. "A refused event has the value 0."
#[derive(Clone, Copy, Debug, PartialEq, Eq)]
pub struct Answer {
    pub number: u8,
    pub value: Option<Record>,
}

pub const NO_SUCH_WORKER: u8 = 3;
pub const THROUGH_NONE: u8 = 4;
pub const NO_FREE_RECORD: u8 = 5;
pub const NO_SUCH_REGISTER: u8 = 13;
pub const NO_SUCH_LINK: u8 = 14;

/// One event: "a refused event changes nothing".
pub fn happen(pool: &mut Pool, event: Event) -> Answer {
    if let Some(number) = refusal(pool, event) {
        return Answer { number, value: None };
    }
    let value = match event {
        Event::Make { w, r } => worker::make(pool, w.into(), r.into()),
        Event::Move { w, r, q } => worker::move_(pool, w.into(), r.into(), q.into()),
        Event::Drop { w, r } => worker::drop(pool, w.into(), r.into()),
        Event::Load { w, r, q, f } => worker::load(pool, w.into(), r.into(), q.into(), f.into()),
        Event::Store { w, q, f, r } => worker::store(pool, w.into(), q.into(), f.into(), r.into()),
        Event::Look { w, r, e } => worker::look(pool, w.into(), r.into(), e.into()),
        Event::Post { w, e, r } => worker::post(pool, w.into(), e.into(), r.into()),
        Event::Collect => collector::collect(pool),
    };
    Answer { number: 0, value }
}

/// "Order for an event: ... 3, 4, then 5 or 6", "in the order 3, 13, 14 where 3 stood" (document 02,
/// request 2), and "take the test and the answer out" (request 4).
fn refusal(pool: &Pool, event: Event) -> Option<u8> {
    if names_no_such_worker(pool.sizes, event) {
        Some(NO_SUCH_WORKER)
    } else if names_no_such_register(pool.sizes, event) {
        Some(NO_SUCH_REGISTER)
    } else if names_no_such_link(pool.sizes, event) || names_no_such_entry(pool.sizes, event) {
        Some(NO_SUCH_LINK)
    } else if goes_through_none(pool, event) {
        Some(THROUGH_NONE)
    } else if makes_without_a_free_record(pool, event) {
        Some(NO_FREE_RECORD)
    } else {
        None
    }
}

/// "From now on 3 means no such worker" (document 02, request 2).
pub fn names_no_such_worker(sizes: Sizes, event: Event) -> bool {
    match event {
        Event::Make { w, .. }
        | Event::Move { w, .. }
        | Event::Drop { w, .. }
        | Event::Load { w, .. }
        | Event::Store { w, .. }
        | Event::Look { w, .. }
        | Event::Post { w, .. } => u16::from(w) >= sizes.w,
        Event::Collect => false,
    }
}

/// "Refusals: 13 register, .."
pub fn names_no_such_register(sizes: Sizes, event: Event) -> bool {
    let no_such = |register: u8| u16::from(register) >= sizes.r;
    match event {
        Event::Make { r, .. } | Event::Drop { r, .. } | Event::Look { r, .. } | Event::Post { r, .. } => {
            no_such(r)
        }
        Event::Move { r, q, .. } | Event::Load { r, q, .. } | Event::Store { q, r, .. } => {
            no_such(r) || no_such(q)
        }
        Event::Collect => false,
    }
}

/// ".. 14 link."
pub fn names_no_such_link(sizes: Sizes, event: Event) -> bool {
    match event {
        Event::Load { f, .. } | Event::Store { f, .. } => u16::from(f) >= sizes.k,
        _ => false,
    }
}

/// "14 also for a board entry that isn't there" (document 02, request 5).
pub fn names_no_such_entry(sizes: Sizes, event: Event) -> bool {
    match event {
        Event::Look { e, .. } | Event::Post { e, .. } => u16::from(e) >= sizes.b,
        _ => false,
    }
}

/// "4: load or store through a register that holds none." One that is not there holds nothing.
pub fn goes_through_none(pool: &Pool, event: Event) -> bool {
    let (Event::Load { w, q, .. } | Event::Store { w, q, .. }) = event else {
        return false;
    };
    let worker = pool.workers.get(usize::from(w));
    worker.and_then(|worker| worker.registers.get(usize::from(q))).is_some_and(Option::is_none)
}

/// "5: make, and no record is free."
pub fn makes_without_a_free_record(pool: &Pool, event: Event) -> bool {
    matches!(event, Event::Make { .. }) && pool.free_records() == 0
}

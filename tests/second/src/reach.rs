//! What is reached, what is lost, and what is left to closed loops: all by present values.

use std::collections::BTreeSet;

use crate::pool::{Pool, Record, Worker};

/// The records that these lead to, in no step or more, through the present values of links and
/// through no record but those allowed.
fn lead_to(
    pool: &Pool,
    from: impl IntoIterator<Item = Record>,
    allowed: impl Fn(&Record) -> bool,
) -> BTreeSet<Record> {
    let mut found = BTreeSet::new();
    let mut waiting: Vec<Record> = from.into_iter().collect();
    while let Some(record) = waiting.pop() {
        if allowed(&record) && found.insert(record) {
            waiting.extend(linked_from(pool, record));
        }
    }
    found
}

/// The present values of a record's links.
fn linked_from(pool: &Pool, record: Record) -> impl Iterator<Item = Record> + '_ {
    pool.sizes.links_of(record).filter_map(|link| pool.value(link))
}

/// What is reached from some worker's registers or from the board: "From here "reach" in demand 3
/// begins at registers and board entries, and board links count" (document 02, request 5).
pub fn reached(pool: &Pool) -> BTreeSet<Record> {
    let held = pool.workers.iter().flat_map(|worker| worker.registers.iter().flatten().copied());
    lead_to(pool, held.chain(posted(pool)), |_| true)
}

/// The present values of the board entries.
pub fn posted(pool: &Pool) -> impl Iterator<Item = Record> + '_ {
    pool.sizes.board().filter_map(|entry| pool.value(entry))
}

/// The records that board entries hold, and no register and no link of a record.
pub fn held_by_the_board_alone(pool: &Pool) -> BTreeSet<Record> {
    let held = pool.workers.iter().flat_map(|worker| worker.registers.iter().flatten());
    let linked = pool.values.iter().filter(|(link, _)| link.record().is_some()).map(|(_, record)| record);
    let elsewhere: BTreeSet<Record> = held.chain(linked).copied().collect();
    posted(pool).filter(|record| !elsewhere.contains(record)).collect()
}

/// Used, and out of reach.
pub fn lost(pool: &Pool) -> BTreeSet<Record> {
    pool.used.difference(&reached(pool)).copied().collect()
}

/// Those of the lost records that are in a closed loop of lost records, or led to from one.
pub fn left_to_loops(pool: &Pool, lost: &BTreeSet<Record>) -> BTreeSet<Record> {
    let is_lost = |record: &Record| lost.contains(record);
    let in_a_loop = |record: &Record| lead_to(pool, linked_from(pool, *record), is_lost).contains(record);
    let loops: Vec<Record> = lost.iter().copied().filter(in_a_loop).collect();
    lead_to(pool, loops, is_lost)
}

/// Whether a link from one record to another would close a loop.
pub fn would_close_a_loop(pool: &Pool, from: Record, to: Record) -> bool {
    lead_to(pool, [to], |_| true).contains(&from)
}

/// "A worker reaches what its registers hold and, from a reached record, the present values of
/// its links."
fn reached_by(pool: &Pool, worker: &Worker) -> BTreeSet<Record> {
    lead_to(pool, worker.registers.iter().flatten().copied(), |_| true)
}

/// Whether some record is reached from the registers of two workers.
pub fn two_workers_share(pool: &Pool) -> bool {
    let mut by_others = BTreeSet::new();
    pool.workers.iter().any(|worker| {
        let by_this = reached_by(pool, worker);
        let shared = !by_this.is_disjoint(&by_others);
        by_others.extend(by_this);
        shared
    })
}

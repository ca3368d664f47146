//! "Worker events" of document 01, with document 02's choice of the record that is made and its two
//! events of the board. Each is called only where `event` refuses nothing, and gives back the value of
//! its answer.

use crate::pool::{Entry, Link, Pool, Record};

/// "make w r: [the record that it takes] becomes used, its maker is w + 1, register r holds it.
/// Nothing else of it is touched. Answer: its number." "The pool remembers the last made number"
/// (document 02, request 1).
pub fn make(pool: &mut Pool, w: usize, r: usize) -> Option<Record> {
    let record = first_above_the_last_made(pool).or_else(|| lowest_free(pool))?;
    pool.used.insert(record);
    pool.makers.insert(record, w);
    pool.workers[w].registers[r] = Some(record);
    pool.last_made = Some(record);
    Some(record)
}

/// "A make now takes the first free record above the last one made, else .." (document 02, request
/// 1). Every record is above none.
fn first_above_the_last_made(pool: &Pool) -> Option<Record> {
    pool.sizes.records().filter(|record| Some(*record) > pool.last_made).find(|record| pool.is_free(record))
}

/// ".. the lowest."
fn lowest_free(pool: &Pool) -> Option<Record> {
    pool.sizes.records().find(|record| pool.is_free(record))
}

/// "move w r q: register r takes what q holds. Answer: that value."
pub fn move_(pool: &mut Pool, w: usize, r: usize, q: usize) -> Option<Record> {
    let registers = &mut pool.workers[w].registers;
    registers[r] = registers[q];
    registers[r]
}

/// "drop w r: register r becomes none. Answer 0."
pub fn drop(pool: &mut Pool, w: usize, r: usize) -> Option<Record> {
    pool.workers[w].registers[r] = None;
    None
}

/// "load w r q f: register r takes link f of the record in q. Answer: that value."
pub fn load(pool: &mut Pool, w: usize, r: usize, q: usize, f: usize) -> Option<Record> {
    let record = pool.workers[w].registers[q]?;
    take(pool, w, r, Link::Of { record, f })
}

/// "look w r e .., with the answers .. of load" (document 02, request 5).
pub fn look(pool: &mut Pool, w: usize, r: usize, entry: usize) -> Option<Record> {
    take(pool, w, r, Link::Board { entry })
}

/// "register r takes [the link]. Answer: that value."
fn take(pool: &mut Pool, w: usize, r: usize, link: Link) -> Option<Record> {
    let value = pool.value(link);
    pool.workers[w].registers[r] = value;
    value
}

/// "store w q f r", into link f of the record in q.
pub fn store(pool: &mut Pool, w: usize, q: usize, f: usize, r: usize) -> Option<Record> {
    let record = pool.workers[w].registers[q]?;
    put(pool, w, Link::Of { record, f }, r)
}

/// "post w e r .., with the answers and the barrier of .. store" (document 02, request 5).
pub fn post(pool: &mut Pool, w: usize, entry: usize, r: usize) -> Option<Record> {
    put(pool, w, Link::Board { entry }, r)
}

/// "[log the first overwritten value]; the link takes what r holds (none is allowed); [snoop].
/// Answer: the value overwritten."
fn put(pool: &mut Pool, w: usize, link: Link, r: usize) -> Option<Record> {
    let stored = pool.workers[w].registers[r];
    let overwritten = pool.value(link);
    log_first_overwritten(pool, w, link);
    pool.set_value(link, stored);
    snoop(pool, w, stored);
    overwritten
}

/// "if the link's changed mark is off, (link, its value) is added to w's log and the mark goes
/// on." "A store of an equal value is logged like any other." "A worker's log in a sound pool never
/// has S entries when a store must log" (document 02, request 4): it stops here if one has.
fn log_first_overwritten(pool: &mut Pool, w: usize, link: Link) {
    if pool.changed.insert(link) {
        let old = pool.value(link);
        let log = &mut pool.workers[w].log;
        assert!(log.len() < pool.sizes.s(), "a store must log, and the log of worker {w} has S entries");
        log.push(Entry { link, old });
    }
}

/// "if w snoops and the value is not none, that record is marked held."
fn snoop(pool: &mut Pool, w: usize, stored: Option<Record>) {
    if pool.workers[w].snoops {
        pool.held.extend(stored);
    }
}

#[cfg(test)]
mod tests {
    use super::*;
    use crate::pool::Sizes;

    /// A log with S entries whose only link is not marked, which no sound pool has.
    #[test]
    #[should_panic(expected = "a store must log, and the log of worker 0 has S entries")]
    fn a_full_log_stops_it() {
        let mut pool = Pool::fresh(Sizes { n: 1, k: 1, w: 1, r: 1, b: 0 });
        make(&mut pool, 0, 0);
        store(&mut pool, 0, 0, 0, 0);
        pool.changed.clear();
        store(&mut pool, 0, 0, 0, 0);
    }
}

//! "A sound pool" of document 01, and what document 02 adds to it, clause by clause, by code of its
//! own: nothing of the rules is used, so that a wrong rule is seen here.
//!
//! Held by the types: "marks and flags 0 or 1" are sets and `bool`s, which have no unused bits (document
//! 02, request 9), and "0 in every entry past a list's length" has no place in a vector.

use std::collections::{BTreeMap, BTreeSet};

use crate::pool::{Entry, Link, Pool, Record};

pub const PHASE_AND_POSITION: &str = "phase 0..6, the position in its range";
pub const HISTORY_BY_PHASE: &str = "history empty in 0, 1, 6 and not empty in 3, 5";
pub const RECORD_NUMBERS: &str = "record numbers in registers, links and entries 0..N";
pub const LINK_NUMBERS: &str = "link numbers in entries below S";
pub const MAKERS: &str = "makers 0..W";
pub const LIST_LENGTHS: &str = "list lengths at most S";
pub const HISTORY_WITHOUT_REPEATS: &str = "no link twice in the history";
pub const MARKS_AND_ENTRIES: &str = "a marked link stands exactly once among the entries, another nowhere";
pub const COUNTS: &str = "each record's count is the number of links counted for it";
pub const LAST_MADE: &str = "the last made number 0..N";

/// All of these, in the documents' order.
pub const CLAUSES: [&str; 10] = [
    PHASE_AND_POSITION,
    HISTORY_BY_PHASE,
    RECORD_NUMBERS,
    LINK_NUMBERS,
    MAKERS,
    LIST_LENGTHS,
    HISTORY_WITHOUT_REPEATS,
    MARKS_AND_ENTRIES,
    COUNTS,
    LAST_MADE,
];

/// The clauses that do not hold, in words, in the documents' order.
pub fn broken(pool: &Pool) -> Vec<&'static str> {
    let holds = [
        phase_and_position(pool),
        history_by_phase(pool),
        record_numbers(pool),
        link_numbers(pool),
        makers(pool),
        list_lengths(pool),
        history_without_repeats(pool),
        marks_and_entries(pool),
        counts(pool),
        last_made(pool),
    ];
    CLAUSES.into_iter().zip(holds).filter(|(_, holds)| !holds).map(|(clause, _)| clause).collect()
}

/// The first clause that does not hold, in words.
pub fn sound(pool: &Pool) -> Result<(), String> {
    match broken(pool).first() {
        Some(clause) => Err(format!("the pool is not sound: {clause}")),
        None => Ok(()),
    }
}

/// "phase 0..6; position below W in phases 1, 2, 4, below the history's length in 3 and 5, else 0."
fn phase_and_position(pool: &Pool) -> bool {
    match pool.phase {
        1 | 2 | 4 => pool.position < usize::from(pool.sizes.w),
        3 | 5 => pool.position < pool.history.len(),
        0 | 6 => pool.position == 0,
        _ => false,
    }
}

/// "history empty in 0, 1, 6 and not empty in 3, 5."
fn history_by_phase(pool: &Pool) -> bool {
    match pool.phase {
        0 | 1 | 6 => pool.history.is_empty(),
        3 | 5 => !pool.history.is_empty(),
        _ => true,
    }
}

fn entries(pool: &Pool) -> impl Iterator<Item = &Entry> {
    let logged = pool.workers.iter().flat_map(|worker| &worker.log);
    logged.chain(&pool.history)
}

/// "record numbers in registers, links and entries 0..N." A mark or a count of a record that is
/// not there has no place in the tables either.
fn record_numbers(pool: &Pool) -> bool {
    let is_one = |record: &Record| (1..=pool.sizes.n).contains(&record.0);
    let held_by_workers = pool.workers.iter().flat_map(|worker| worker.registers.iter().flatten());
    let marked = pool.used.iter().chain(&pool.held).chain(&pool.candidates);
    held_by_workers.chain(marked).all(is_one)
        && pool.values.values().chain(pool.counts.keys()).chain(pool.makers.keys()).all(is_one)
        && entries(pool).all(|entry| entry.old.is_none_or(|old| is_one(&old)))
}

/// A link is there: its record is, and has that link; or it is an entry of the board.
fn is_link(pool: &Pool, link: &Link) -> bool {
    match *link {
        Link::Of { record, f } => (1..=pool.sizes.n).contains(&record.0) && f < usize::from(pool.sizes.k),
        Link::Board { entry } => entry < usize::from(pool.sizes.b),
    }
}

/// "link numbers in entries below S." A value or a mark of a link that is not there has no place in
/// the tables either.
fn link_numbers(pool: &Pool) -> bool {
    entries(pool).all(|entry| is_link(pool, &entry.link))
        && pool.values.keys().chain(&pool.changed).all(|link| is_link(pool, link))
}

/// "makers 0..W": a maker is a worker + 1, or 0.
fn makers(pool: &Pool) -> bool {
    pool.makers.values().all(|worker| *worker < usize::from(pool.sizes.w))
}

/// "list lengths at most S."
fn list_lengths(pool: &Pool) -> bool {
    let mut logs = pool.workers.iter().map(|worker| &worker.log);
    logs.all(|log| log.len() <= pool.sizes.s()) && pool.history.len() <= pool.sizes.s()
}

/// "no link twice in the history."
fn history_without_repeats(pool: &Pool) -> bool {
    let links: BTreeSet<Link> = pool.history.iter().map(|entry| entry.link).collect();
    links.len() == pool.history.len()
}

/// "a link whose mark is on stands exactly once among all logs together with the history not yet
/// cleared (all of it in phase 2, from the position on in phase 3, none otherwise); a link whose
/// mark is off stands nowhere there." Of an entry whose link is not there it says nothing.
fn marks_and_entries(pool: &Pool) -> bool {
    let uncleared = match pool.phase {
        2 => &pool.history[..],
        3 => pool.history.get(pool.position..).unwrap_or(&[]),
        _ => &[],
    };
    let logged = pool.workers.iter().flat_map(|worker| &worker.log);
    let links = logged.chain(uncleared).map(|entry| entry.link);
    let standing: Vec<Link> = links.filter(|link| is_link(pool, link)).collect();
    let different: BTreeSet<Link> = standing.iter().copied().collect();
    different.len() == standing.len() && different == pool.changed
}

/// "each record's count is the number of links counted for it."
fn counts(pool: &Pool) -> bool {
    tallies_are_the_counts(pool, counted_for(pool).into_iter())
}

/// The records that links count for, each as often as a link does. "A link counts for the old value
/// of its history entry while that entry is not yet counted, else for its view value."
pub fn counted_for(pool: &Pool) -> Vec<Record> {
    let logged = logged_values(pool);
    let uncounted = uncounted_values(pool);
    let counted_for = |link: Link| -> Option<Record> {
        if let Some(old) = uncounted.get(&link) {
            *old
        } else if pool.changed.contains(&link) {
            logged.get(&link).copied().flatten()
        } else {
            pool.values.get(&link).copied()
        }
    };
    pool.sizes.links().filter_map(counted_for).collect()
}

/// The old values of history entries "not yet counted (all in phases 2 to 4, from the position on
/// in phase 5)".
fn uncounted_values(pool: &Pool) -> BTreeMap<Link, Option<Record>> {
    let uncounted = match pool.phase {
        2..=4 => &pool.history[..],
        5 => pool.history.get(pool.position..).unwrap_or(&[]),
        _ => &[],
    };
    uncounted.iter().map(|entry| (entry.link, entry.old)).collect()
}

/// "the old value in the one log entry for it": the other half of a view value.
fn logged_values(pool: &Pool) -> BTreeMap<Link, Option<Record>> {
    let logged = pool.workers.iter().flat_map(|worker| &worker.log);
    logged.map(|entry| (entry.link, entry.old)).collect()
}

/// Whether each record's count is how often it stands among `values`.
pub fn tallies_are_the_counts(pool: &Pool, values: impl Iterator<Item = Record>) -> bool {
    let mut tallies: BTreeMap<Record, i64> = BTreeMap::new();
    for record in values {
        *tallies.entry(record).or_insert(0) += 1;
    }
    let tally = |record: &Record| tallies.get(record).copied().unwrap_or(0);
    pool.sizes.records().all(|record| tally(&record) == pool.counts.get(&record).copied().unwrap_or(0))
}

/// "The pool remembers the last made number (.. 0..N in a sound pool)" (document 02, request 1).
fn last_made(pool: &Pool) -> bool {
    pool.last_made.is_none_or(|record| (1..=pool.sizes.n).contains(&record.0))
}

#[cfg(test)]
mod tests {
    use super::*;
    use crate::event::{happen, Event};
    use crate::pool::Sizes;

    /// A pool in phase 3 with a link and a board entry marked, and two counts yet to rise.
    fn amid_a_cycle() -> Pool {
        let mut pool = Pool::fresh(Sizes { n: 2, k: 1, w: 1, r: 1, b: 1 });
        happen(&mut pool, Event::Make { w: 0, r: 0 });
        happen(&mut pool, Event::Store { w: 0, q: 0, f: 0, r: 0 });
        happen(&mut pool, Event::Post { w: 0, e: 0, r: 0 });
        for _ in 0..3 {
            happen(&mut pool, Event::Collect);
        }
        assert_eq!(sound(&pool), Ok(()));
        pool
    }

    /// Each clause is one that can fail: a pool that breaks it and none before it is told so.
    #[test]
    fn each_clause_can_fail() {
        let link = Link::Of { record: Record(1), f: 0 };
        type Break = (&'static str, fn(&mut Pool, Link));
        let breaks: [Break; 13] = [
            ("phase 0..6", |pool, _| pool.phase = 7),
            ("phase 0..6", |pool, _| pool.position = 2),
            ("history empty in 0, 1, 6", |pool, _| pool.phase = 1),
            ("record numbers", |pool, _| pool.workers[0].registers[0] = Some(Record(3))),
            ("record numbers", |pool, _| pool.history[0].old = Some(Record(3))),
            ("link numbers", |pool, _| pool.history[0].link = Link::Of { record: Record(1), f: 1 }),
            ("link numbers", |pool, _| pool.history[1].link = Link::Board { entry: 1 }),
            ("makers", |pool, _| pool.makers.extend([(Record(1), 1)])),
            ("list lengths", |pool, link| pool.workers[0].log = vec![Entry { link, old: None }; 4]),
            ("a marked link", |pool, _| pool.changed.clear()),
            ("a marked link", |pool, _| pool.changed.retain(|link| link.record().is_some())),
            ("each record's count", |pool, _| pool.counts.extend([(Record(2), 1)])),
            ("the last made number", |pool, _| pool.last_made = Some(Record(3))),
        ];
        for (clause, broken) in breaks {
            let mut pool = amid_a_cycle();
            broken(&mut pool, link);
            let told = sound(&pool).unwrap_err();
            assert!(told.contains(clause), "{told}, not {clause}");
        }
        let mut pool = amid_a_cycle();
        pool.history.push(pool.history[0]);
        assert!(sound(&pool).unwrap_err().contains("no link twice"));
    }
}

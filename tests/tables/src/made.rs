//! Sound pools that no run from a fresh pool reaches: everything that "A sound pool" leaves open is
//! thrown. Workers share records, marks, makers and flags stand anywhere, free records have links
//! and marks. In phase 6 records wait that have children, and a register may hold them.

use std::collections::{BTreeMap, BTreeSet};

use second::pool::{Entry, Link, Pool, Record, Sizes};
use second::random::Random;
use second::reach::two_workers_share;
use second::sound::{self, counted_for};

use crate::both::Both;
use crate::ends;
use crate::lie::{link_number, link_of, read, written};
use crate::reached::{Reached, KINDS};
use crate::runs::{any_event, choose_sizes, COLLECT};

pub const SHARED: &str = "a pool in which two workers reach one record";

/// The collector's place and the lists, from which the changed marks and the counts follow.
#[derive(Clone)]
pub struct Draft {
    pub sizes: Sizes,
    pub phase: u8,
    pub position: usize,
    pub history: Vec<Entry>,
    pub logs: Vec<Vec<Entry>>,
}

/// A number of a table: none, or any record.
pub fn any_record(sizes: Sizes, filled: usize, random: &mut Random) -> Option<Record> {
    random.percent(filled).then(|| Record(random.between(1, sizes.n)))
}

pub fn any_link(sizes: Sizes, random: &mut Random) -> Link {
    link_of(sizes, random.below(sizes.s()) as u16)
}

/// Different links, so many of a hundred.
fn some_links(sizes: Sizes, filled: usize, random: &mut Random) -> Vec<Link> {
    let mut links: Vec<Link> = sizes.links().filter(|_| random.percent(filled)).collect();
    for i in (1..links.len()).rev() {
        links.swap(i, random.below(i + 1));
    }
    links
}

/// "history not yet cleared (all of it in phase 2, from the position on in phase 3, none
/// otherwise)."
pub fn uncleared(draft: &Draft) -> &[Entry] {
    match draft.phase {
        2 => &draft.history,
        3 => draft.history.get(draft.position..).unwrap_or(&[]),
        _ => &[],
    }
}

impl Draft {
    /// In this phase, with lists so full of a hundred.
    pub fn any(sizes: Sizes, phase: u8, filled: usize, random: &mut Random) -> Draft {
        let entry = |link, random: &mut Random| Entry { link, old: any_record(sizes, 70, random) };
        let mut history = Vec::new();
        if (2..=5).contains(&phase) {
            history = some_links(sizes, filled, random).into_iter().map(|link| entry(link, random)).collect();
        }
        if matches!(phase, 3 | 5) && history.is_empty() {
            history = vec![entry(any_link(sizes, random), random)];
        }
        let positions = match phase {
            1 | 2 | 4 => usize::from(sizes.w),
            3 | 5 => history.len(),
            _ => 1,
        };
        let position = if random.percent(30) { positions - 1 } else { random.below(positions) };
        let mut draft =
            Draft { sizes, phase, position, history, logs: vec![Vec::new(); usize::from(sizes.w)] };
        let standing: BTreeSet<Link> = uncleared(&draft).iter().map(|entry| entry.link).collect();
        let one_worker = random.percent(30).then(|| random.below(usize::from(sizes.w)));
        for link in some_links(sizes, filled, random) {
            if !standing.contains(&link) {
                let w = one_worker.unwrap_or_else(|| random.below(usize::from(sizes.w)));
                draft.logs[w].push(entry(link, random));
            }
        }
        draft
    }

    /// In any phase.
    pub fn thrown(random: &mut Random) -> Draft {
        let sizes = choose_sizes(random);
        let (phase, filled) = (random.below(7) as u8, random.pick(&[0, 10, 30, 60, 100]));
        Draft::any(sizes, phase, filled, random)
    }

    /// The pool: marks follow from the lists, counts from everything, the rest is thrown.
    pub fn pool(self, random: &mut Random) -> Pool {
        let mut pool = Pool::fresh(self.sizes);
        let sizes = self.sizes;
        let there = |link: &Link| usize::from(link_number(sizes, *link)) < sizes.s();
        let standing = self.logs.iter().flatten().chain(uncleared(&self)).map(|entry| entry.link);
        pool.changed = standing.filter(there).collect();
        let filled = random.pick(&[5, 30, 70, 100]);
        pool.values =
            sizes.links().filter_map(|link| Some((link, any_record(sizes, filled, random)?))).collect();
        for set in [&mut pool.used, &mut pool.held, &mut pool.candidates] {
            let filled = random.pick(&[0, 20, 50, 90, 100]);
            *set = sizes.records().filter(|_| random.percent(filled)).collect();
        }
        let filled = random.pick(&[0, 50, 100]);
        let made: Vec<Record> = sizes.records().filter(|_| random.percent(filled)).collect();
        pool.makers = made.into_iter().map(|record| (record, random.below(sizes.w.into()))).collect();
        let (snooping, holding) = (random.pick(&[0, 50, 100]), random.pick(&[0, 30, 80]));
        for (worker, log) in pool.workers.iter_mut().zip(self.logs) {
            worker.snoops = random.percent(snooping);
            worker.registers.iter_mut().for_each(|register| *register = any_record(sizes, holding, random));
            worker.log = log;
        }
        pool.last_made = any_record(sizes, 80, random);
        pool.history = self.history;
        pool.phase = self.phase;
        pool.position = self.position;
        pool.closed = random.pick(&[0, 1, 65_534, 65_535, 4711]);
        let ends = ends::records(sizes);
        if !ends.is_empty() && random.percent(40) {
            only_ends_are_free_or_due(&mut pool, ends, random);
        } else if pool.phase == 6 && random.percent(50) {
            let some = random.pick(&[5, 30, 100]);
            let due: Vec<Record> = sizes.records().filter(|_| random.percent(some)).collect();
            are_due(&mut pool, &due, random);
        }
        count_anew(&mut pool);
        pool
    }
}

/// Records at the ends of words, of which some are all that is free, or all that is due in phase 6: a
/// search goes over whole words before it finds one.
fn only_ends_are_free_or_due(pool: &mut Pool, ends: Vec<Record>, random: &mut Random) {
    let some = random.pick(&[10, 40, 100]);
    let mut few: Vec<Record> = ends.iter().copied().filter(|_| random.percent(some)).collect();
    few.push(random.pick(&ends));
    pool.used = pool.sizes.records().collect();
    if pool.phase == 6 {
        pool.candidates.clear();
        are_due(pool, &few, random);
    } else {
        pool.used.retain(|record| !few.contains(record));
    }
}

/// These records are used candidates, not held, which no link is counted for; an unchanged link of each
/// holds a record. So those that have a changed link wait with a child, and the others can be freed. One
/// without an unchanged link stays as it was.
fn are_due(pool: &mut Pool, due: &[Record], random: &mut Random) {
    let sizes = pool.sizes;
    for record in due.iter().copied() {
        let unchanged: Vec<Link> =
            sizes.links_of(record).filter(|link| !pool.changed.contains(link)).collect();
        if unchanged.is_empty() {
            continue;
        }
        pool.used.insert(record);
        pool.candidates.insert(record);
        pool.held.remove(&record);
        pool.values.insert(random.pick(&unchanged), Record(random.between(1, sizes.n)));
        pool.values.retain(|link, value| *value != record || pool.changed.contains(link));
        let logged = pool.workers.iter_mut().flat_map(|worker| &mut worker.log);
        logged.filter(|entry| entry.old == Some(record)).for_each(|entry| entry.old = None);
    }
}

/// The counts that the clause asks for.
pub fn count_anew(pool: &mut Pool) {
    let mut counts: BTreeMap<Record, i64> = BTreeMap::new();
    for record in counted_for(pool).into_iter().filter(|record| record.0 <= pool.sizes.n) {
        *counts.entry(record).or_insert(0) += 1;
    }
    pool.counts = counts;
}

/// One thrown pool: each kind of event on it, then a short run.
pub fn run(seed: u64, reached: &mut Reached) -> Result<(), String> {
    let mut random = Random::new(seed);
    let pool = Draft::thrown(&mut random).pool(&mut random);
    let sizes = pool.sizes;
    let told = |told| format!("{sizes:?}: {told}");
    sound::sound(&pool)?;
    assert!(read(&written(&pool)) == pool, "reading what was written gives the pool again");
    if two_workers_share(&pool) {
        reached.situation(SHARED);
    }
    let both = Both::of(pool).map_err(told)?;
    for kind in 0..KINDS.len() {
        both.clone().event(any_event(kind, sizes, &mut random), reached).map_err(told)?;
    }
    let mut both = both;
    let collecting = random.pick(&[20, 50, 100]);
    for _ in 0..if sizes.s() > 1000 { 10 } else { 30 } {
        let kind = if random.percent(collecting) { COLLECT } else { random.below(COLLECT) };
        both.event(any_event(kind, sizes, &mut random), reached).map_err(told)?;
        sound::sound(&both.second).map_err(told)?;
    }
    Ok(())
}

//! Sound pools of any size, made without events: worked ones, and for each event and each phase one
//! in which the step is at its longest.

use crate::random::Random;
use yuyarisun::{Collector, Event, Lent, Sizes, Tables};

/// What stands in the lists of a pool, link by link; the old values are made.
#[derive(Default)]
struct Lists {
    /// The log of each worker, from the first.
    logs: Vec<Vec<usize>>,
    history: Vec<usize>,
}

/// Every mark of so many on, the unused bits off.
fn all_on(marks: usize) -> Vec<u64> {
    (0..marks.div_ceil(64)).map(|word| u64::MAX >> (64 - (marks - 64 * word).min(64))).collect()
}

/// The mark at a place, on or off.
fn put(marks: &mut [u64], place: usize, on: bool) {
    let bit = 1 << (place % 64);
    marks[place / 64] = if on { marks[place / 64] | bit } else { marks[place / 64] & !bit };
}

/// A pool whose every record is used, with random values and marks.
fn worked(sizes: Sizes, phase: u16, position: u16, lists: Lists) -> Lent {
    let mut random = Random::new(u64::from(sizes.n));
    let mut tables = Tables::zeros(sizes);
    let mut record = || random.below(sizes.n as usize + 1) as u16;
    tables.values.fill_with(&mut record);
    tables.registers.fill_with(&mut record);
    tables.used = all_on(sizes.n.into());
    // What each link counts for.
    let mut counted = tables.values.clone();
    let room = 2 * sizes.links();
    for (w, log) in lists.logs.iter().enumerate() {
        tables.lengths[w] = log.len() as u16;
        for (i, link) in log.iter().enumerate() {
            let old = record();
            tables.logs[w * room + 2 * i] = *link as u16;
            tables.logs[w * room + 2 * i + 1] = old;
            put(&mut tables.changed, *link, true);
            counted[*link] = old;
        }
    }
    tables.lengths[sizes.w as usize] = lists.history.len() as u16;
    for (i, link) in lists.history.iter().enumerate() {
        let old = record();
        tables.history[2 * i] = *link as u16;
        tables.history[2 * i + 1] = old;
        if phase == 2 || phase == 3 && i >= position as usize {
            put(&mut tables.changed, *link, true);
        }
        if phase < 5 || i >= position as usize {
            counted[*link] = old;
        }
    }
    for a in counted {
        if a != 0 {
            tables.counts[a as usize - 1] += 1;
        }
    }
    Lent { sizes, tables, collector: Collector { phase, position, closed: 0 } }
}

/// No list has an entry.
pub fn quiet(sizes: Sizes) -> Lent {
    worked(sizes, 0, 0, Lists::default())
}

/// Between two cycles, every second link changed, in the logs of all workers.
pub fn half_changed(sizes: Sizes) -> Lent {
    let mut logs = vec![Vec::new(); sizes.w as usize];
    for link in (0..sizes.links()).step_by(2) {
        logs[link / 2 % sizes.w as usize].push(link);
    }
    worked(sizes, 0, 0, Lists { logs, history: Vec::new() })
}

/// When the log entry that phase 5 looks for was written.
pub enum Written {
    First,
    Last,
}

/// Phase 5 at a position, every link in the history and changed again: the link at the position
/// before all others in the first log, or behind them in the last.
pub fn all_changed(sizes: Sizes, position: usize, written: Written) -> Lent {
    let all: Vec<usize> = (0..sizes.links()).collect();
    let mut log = all.clone();
    log.remove(position);
    let mut logs = vec![Vec::new(); sizes.w as usize];
    match written {
        Written::First => {
            log.insert(0, position);
            logs[0] = log;
        }
        Written::Last => {
            log.push(position);
            logs[sizes.w as usize - 1] = log;
        }
    }
    worked(sizes, 5, position as u16, Lists { logs, history: all })
}

/// What the search of phase 6 finds, behind all others that it looks at.
enum Found {
    Nothing,
    /// A record that is freed.
    Freed(usize),
    /// One that waits, with children in all its links but the last.
    Waiting(usize),
}

/// Phase 6; each record is a candidate and waits without children, by a changed mark on its last link, but
/// for the one that is found.
fn searched(sizes: Sizes, found: Found) -> Lent {
    let (n, k) = (sizes.n as usize, sizes.k as usize);
    let (freed, links) = match found {
        Found::Nothing => (None, 0..0),
        Found::Freed(place) => (Some(place), place * k..place * k + k),
        Found::Waiting(place) => (None, place * k..place * k + k - 1),
    };
    let log: Vec<usize> =
        (0..n).filter(|place| Some(*place) != freed).map(|place| place * k + k - 1).collect();
    let mut pool = worked(sizes, 6, 0, Lists { logs: vec![log], history: Vec::new() });
    let tables = &mut pool.tables;
    tables.values.fill(0);
    for old in tables.logs.iter_mut().skip(1).step_by(2) {
        *old = 0;
    }
    for (link, a) in links.zip((1..=sizes.n).cycle()) {
        tables.values[link] = a;
    }
    tables.counts.fill(0);
    for value in &tables.values {
        if *value != 0 {
            tables.counts[*value as usize - 1] += 1;
        }
    }
    tables.candidates = all_on(sizes.n.into());
    pool
}

/// A step at its longest: what it is, the pool before it, and its event.
pub struct Situation {
    pub name: &'static str,
    pub pool: Lent,
    pub event: Event,
}

pub fn all(sizes: Sizes) -> Vec<Situation> {
    let (s, w, r, f) = (sizes.links(), sizes.w as u8 - 1, sizes.r as u8 - 1, sizes.k as u8 - 1);
    let e = sizes.b as u8 - 1;
    let one_free = |last_made: u16, free: u16| {
        let mut pool = quiet(sizes);
        pool.tables.registers[(sizes.w * sizes.r) as usize] = last_made;
        put(&mut pool.tables.used, free as usize - 1, false);
        pool
    };
    let last = sizes.n as usize - 1;
    let mut full = quiet(sizes);
    for (i, held) in full.tables.registers.iter_mut().enumerate() {
        *held = (i % sizes.n as usize) as u16 + 1;
    }
    let mut snooping = full.clone();
    snooping.collector.phase = 4;
    snooping.tables.snoops.fill(1);
    let mut taken = worked(sizes, 2, 0, Lists { logs: vec![(0..s).collect()], history: Vec::new() });
    taken.tables.makers.fill(1);
    let mut opened = full.clone();
    opened.collector.phase = 1;
    let cleared = worked(sizes, 3, 0, Lists { logs: Vec::new(), history: (0..s).collect() });
    let situation = |name, pool: &Lent, event| Situation { name, pool: pool.clone(), event };
    vec![
        situation("make, the last record alone free", &one_free(0, sizes.n), Event::Make { w, r }),
        situation(
            "make, the last made alone free",
            &one_free(sizes.n / 2, sizes.n / 2),
            Event::Make { w, r },
        ),
        situation("move", &full, Event::Move { w, r, q: 0 }),
        situation("drop", &full, Event::Drop { w, r }),
        situation("load", &full, Event::Load { w, r, q: 0, f }),
        situation("store that logs and snoops", &snooping, Event::Store { w, q: r, f, r: 0 }),
        situation("look", &full, Event::Look { w, r, e }),
        situation("post that logs and snoops", &snooping, Event::Post { w, e, r: 0 }),
        situation("phase 0, opens", &full, Event::Collect),
        situation("phase 1, one snoop flag", &opened, Event::Collect),
        situation("phase 2, a log of S entries, all records made", &taken, Event::Collect),
        situation("phase 3, one entry cleared", &cleared, Event::Collect),
        situation("phase 4, R registers held", &snooping, Event::Collect),
        situation(
            "phase 5, the entry wanted written last, history kept",
            &all_changed(sizes, s - 2, Written::Last),
            Event::Collect,
        ),
        situation(
            "phase 5, the entry wanted written first, history kept",
            &all_changed(sizes, s - 2, Written::First),
            Event::Collect,
        ),
        situation(
            "phase 5, the entry wanted written first, history of S emptied",
            &all_changed(sizes, s - 1, Written::First),
            Event::Collect,
        ),
        situation(
            "phase 6, all searched, the last freed",
            &searched(sizes, Found::Freed(last)),
            Event::Collect,
        ),
        situation(
            "phase 6, all searched, the last waits and is emptied",
            &searched(sizes, Found::Waiting(last)),
            Event::Collect,
        ),
        situation(
            "phase 6, all searched, all wait, the cycle closed",
            &searched(sizes, Found::Nothing),
            Event::Collect,
        ),
    ]
}

/// Those whose event is a collector step.
pub fn collects(sizes: Sizes) -> Vec<Situation> {
    all(sizes).into_iter().filter(|situation| situation.event == Event::Collect).collect()
}

//! Records that wait: used candidates with count 0, not held, that a changed link keeps from being
//! freed. What a step of phase 6 comes upon, and what becomes over a run of the children that a waiting
//! record gives up (document 02, request 8). Its children are the records that its unchanged links hold.

use std::collections::{BTreeMap, BTreeSet};

use crate::event::{Answer, Event};
use crate::pool::{Link, Pool, Record};

/// What a step of phase 6 comes upon.
pub const RECLAIMS: [&str; 13] = [
    "phase 6: a waiting record without children is passed over",
    "phase 6: a waiting record with children, and above it a record that can be freed",
    "phase 6: a record that can be freed, and above it a waiting record with children",
    "phase 6: a waiting record gives up a child above it",
    "phase 6: a waiting record gives up a child below it",
    "phase 6: a waiting record gives up a child of a link below its changed one",
    "phase 6: a waiting record gives up a child of a link above its changed one",
    "phase 6: a waiting record gives up a child, and its changed link holds a record",
    "phase 6: a waiting record gives up a child, and its changed link held another record",
    "phase 6: a waiting record gives up a child that two of its links hold",
    "phase 6: a waiting record gives up a child that is counted for another link too",
    "phase 6: a waiting record gives up a child that is held",
    "phase 6: a waiting record gives up a child that waits and has children",
];

/// Which of these hold of a pool.
pub fn reclaims(before: &Pool) -> [bool; RECLAIMS.len()] {
    let mut came = [false; RECLAIMS.len()];
    if before.phase != 6 {
        return came;
    }
    let due: Vec<Record> =
        before.candidates.iter().copied().filter(|record| is_due(before, *record)).collect();
    let goes = |record: &Record| !has_changed(before, *record);
    let gives_up = |record: &Record| has_changed(before, *record) && has_children(before, *record);
    let taken = due.iter().position(|record| goes(record) || gives_up(record));
    let (passed, rest) = due.split_at(taken.unwrap_or(due.len()));
    came[0] = !passed.is_empty();
    if let Some((record, above)) = rest.split_first() {
        came[1] = gives_up(record) && above.iter().any(goes);
        came[2] = goes(record) && above.iter().any(gives_up);
        if gives_up(record) {
            came[3..].copy_from_slice(&given_up(before, *record));
        }
    }
    came
}

/// The same, of the record that gives up its children.
fn given_up(before: &Pool, record: Record) -> [bool; RECLAIMS.len() - 3] {
    let changed: Vec<Link> = changed_links(before, record).collect();
    let children: Vec<(Link, Record)> = children(before, record).collect();
    let links_to = |child: Record| children.iter().filter(|(_, other)| *other == child).count();
    let held_another = |link: &Link| {
        let mut logged = before.workers.iter().flat_map(|worker| &worker.log);
        let old = logged.find(|entry| entry.link == *link).and_then(|entry| entry.old);
        old.is_some() && old != before.value(*link)
    };
    let one =
        |holds: &dyn Fn(Link, Record) -> bool| children.iter().any(|(link, child)| holds(*link, *child));
    [
        one(&|_, child| child > record),
        one(&|_, child| child < record),
        one(&|link, _| changed.iter().any(|other| link < *other)),
        one(&|link, _| changed.iter().any(|other| link > *other)),
        changed.iter().any(|link| before.value(*link).is_some()),
        changed.iter().any(held_another),
        one(&|_, child| links_to(child) > 1),
        one(&|_, child| before.count(child) > links_to(child) as i64),
        one(&|_, child| before.held.contains(&child)),
        one(&|_, child| has_changed(before, child) && has_children(before, child)),
    ]
}

/// The records that wait.
pub fn waiting(pool: &Pool) -> BTreeSet<Record> {
    let waits = |record: &Record| is_due(pool, *record) && has_changed(pool, *record);
    pool.candidates.iter().copied().filter(waits).collect()
}

/// "used candidate, count 0, not held."
fn is_due(pool: &Pool, record: Record) -> bool {
    let held = pool.held.contains(&record);
    !pool.is_free(&record) && pool.candidates.contains(&record) && pool.count(record) == 0 && !held
}

fn changed_links(pool: &Pool, record: Record) -> impl Iterator<Item = Link> + '_ {
    pool.sizes.links_of(record).filter(|link| pool.changed.contains(link))
}

fn has_changed(pool: &Pool, record: Record) -> bool {
    changed_links(pool, record).next().is_some()
}

/// The unchanged links that hold a record, each with that record.
fn children(pool: &Pool, record: Record) -> impl Iterator<Item = (Link, Record)> + '_ {
    let unchanged = pool.sizes.links_of(record).filter(|link| !pool.changed.contains(link));
    unchanged.filter_map(|link| Some((link, pool.value(link)?)))
}

fn has_children(pool: &Pool, record: Record) -> bool {
    children(pool, record).next().is_some()
}

/// What becomes of them over a run.
pub const SITUATIONS: [&str; 7] = [
    "a child that was given up is freed in the same cycle",
    "the third record behind a waiting one is freed in the same cycle",
    "two waiting records give up children in one cycle",
    "waiting records give up children in two cycles in a row",
    "waiting records give up children in three cycles in a row",
    "a record that gave up its children is freed in the next cycle",
    "a record that a waiting one led to is made again before that one is freed",
];

#[derive(Default)]
pub struct Waiting {
    pub situations: [u64; SITUATIONS.len()],
    run: Run,
}

/// What has to be remembered of a run.
#[derive(Default)]
struct Run {
    /// The records that gave up children in this cycle, and in the one before.
    gave_up: BTreeSet<Record>,
    gave_up_before: BTreeSet<Record>,
    /// In how many cycles in a row.
    in_a_row: usize,
    /// What nothing is counted for since such a record, or one behind it, gave it up: how far behind,
    /// and which record that is.
    behind: BTreeMap<Record, (usize, Record)>,
    /// Those of them that were freed, while that record waits.
    freed_behind: BTreeMap<Record, Record>,
}

impl Waiting {
    /// A new run from a fresh pool.
    pub fn begin(&mut self) {
        self.run = Run::default();
    }

    /// One event that was answered with 0.
    pub fn event(&mut self, before: &Pool, event: Event, answer: Answer, after: &Pool) {
        match (event, answer.value) {
            (Event::Make { .. }, Some(made)) => {
                self.situations[6] += u64::from(self.run.freed_behind.remove(&made).is_some());
            }
            (Event::Collect, Some(freed)) => self.freed(before, freed, after),
            (Event::Collect, None) if before.phase == 6 && after.phase == 6 => self.emptied(before, after),
            (Event::Collect, None) if before.phase == 6 => self.closed(),
            _ => {}
        }
    }

    fn emptied(&mut self, before: &Pool, after: &Pool) {
        let emptied = before.values.keys().find(|link| after.value(**link).is_none());
        let Some(record) = emptied.and_then(|link| link.record()) else { return };
        self.situations[2] += u64::from(!self.run.gave_up.is_empty());
        self.run.gave_up.insert(record);
        let far = self.run.behind.get(&record).map_or(0, |(far, _)| *far);
        self.lead_on(before, record, after, (far, record));
    }

    fn freed(&mut self, before: &Pool, freed: Record, after: &Pool) {
        if let Some((far, waiting)) = self.run.behind.remove(&freed) {
            self.situations[0] += 1;
            self.situations[1] += u64::from(far >= 3);
            self.lead_on(before, freed, after, (far, waiting));
            self.run.freed_behind.insert(freed, waiting);
        }
        self.situations[5] += u64::from(self.run.gave_up_before.remove(&freed));
        self.run.freed_behind.retain(|_, waiting| *waiting != freed);
    }

    /// The children that nothing is counted for any more stand one further behind.
    fn lead_on(&mut self, before: &Pool, record: Record, after: &Pool, (far, waiting): (usize, Record)) {
        let left = children(before, record).map(|(_, child)| child).filter(|child| after.count(*child) == 0);
        self.run.behind.extend(left.map(|child| (child, (far + 1, waiting))));
    }

    fn closed(&mut self) {
        let run = &mut self.run;
        run.in_a_row = if run.gave_up.is_empty() { 0 } else { run.in_a_row + 1 };
        self.situations[3] += u64::from(run.in_a_row > 1);
        self.situations[4] += u64::from(run.in_a_row > 2);
        run.gave_up_before = std::mem::take(&mut run.gave_up);
        run.behind.clear();
    }
}

#[cfg(test)]
mod tests {
    use super::*;
    use crate::event::happen;
    use crate::pool::Sizes;

    /// Chain 3 to 2 to 1, and record 4, all dropped in phase 4, after the last worker's log was taken and
    /// before the scan: 3 was stored to then and waits. Link 1 of it leads on.
    fn a_chain_waits(sizes: Sizes) -> (Pool, Waiting) {
        let (mut pool, mut waiting) = (Pool::fresh(sizes), Waiting::default());
        let make = |r| Event::Make { w: 0, r };
        let store = |q, r| Event::Store { w: 0, q, f: 1, r };
        let worked = [make(0), make(1), make(2), make(3), store(2, 1), store(1, 0)];
        let left = [Event::Store { w: 0, q: 2, f: 0, r: 3 }]
            .into_iter()
            .chain((0..4).map(|r| Event::Drop { w: 0, r }));
        for event in worked.into_iter().chain([Event::Collect; 5]).chain(left).chain([Event::Collect; 3]) {
            done(&mut pool, &mut waiting, event);
        }
        assert_eq!(pool.phase, 6);
        (pool, waiting)
    }

    fn done(pool: &mut Pool, waiting: &mut Waiting, event: Event) -> Answer {
        let before = pool.clone();
        let answer = happen(pool, event);
        assert_eq!(answer.number, 0, "{event:?}");
        waiting.event(&before, event, answer, pool);
        answer
    }

    fn words(came: [bool; RECLAIMS.len()]) -> Vec<&'static str> {
        RECLAIMS.into_iter().zip(came).filter(|(_, came)| *came).map(|(words, _)| words).collect()
    }

    #[test]
    fn what_a_step_comes_upon_is_told_apart() {
        let (mut pool, mut waiting) = a_chain_waits(Sizes { n: 4, k: 2, w: 1, r: 4, b: 0 });
        // Record 4 was stored while its worker snooped, and is held.
        assert_eq!(words(reclaims(&pool)), [RECLAIMS[4], RECLAIMS[6], RECLAIMS[7]]);
        done(&mut pool, &mut waiting, Event::Collect);
        assert_eq!(self::waiting(&pool), BTreeSet::from([Record(3)]));
        for (freed, came) in [(Some(2), vec![]), (Some(1), vec![]), (None, vec![RECLAIMS[0]])] {
            assert_eq!(words(reclaims(&pool)), came);
            let answer = done(&mut pool, &mut waiting, Event::Collect);
            assert_eq!(answer.value, freed.map(Record));
        }
        assert_eq!(pool.phase, 0);
        assert_eq!(words(reclaims(&pool)), [""; 0]);
    }

    #[test]
    fn what_becomes_of_the_children_is_counted() {
        let (mut pool, mut waiting) = a_chain_waits(Sizes { n: 4, k: 2, w: 1, r: 4, b: 0 });
        for event in
            [Event::Collect; 3].into_iter().chain([Event::Make { w: 0, r: 0 }]).chain([Event::Collect; 9])
        {
            done(&mut pool, &mut waiting, event);
        }
        assert_eq!(waiting.situations, [2, 0, 0, 0, 0, 1, 1]);
    }
}

//! What a run does with the board, watched event by event: records that pass from worker to worker,
//! records that the board alone holds, and entries that several workers post over.

use std::collections::{BTreeMap, BTreeSet};

use crate::event::{Answer, Event};
use crate::pool::{Link, Pool, Record};
use crate::reach::held_by_the_board_alone;

/// What is counted.
pub const SITUATIONS: [&str; 6] = [
    "post logs an overwritten record",
    "post over an entry that is marked already",
    "snooped post of a record",
    "posts over one entry by several workers in one cycle",
    "the board alone holds a record over a whole cycle",
    "the board alone holds a record over two whole cycles",
];

/// What is counted by the phase that it comes in.
pub const IN_PHASES: [&str; 2] =
    ["look at a record that another worker made", "drop by its maker of a record that another worker keeps"];

#[derive(Default)]
pub struct Board {
    pub situations: [u64; SITUATIONS.len()],
    pub in_phases: [[u64; 7]; IN_PHASES.len()],
    run: Run,
}

/// What has to be remembered of a run.
#[derive(Default)]
struct Run {
    /// Who made each record, the last time.
    makers: BTreeMap<Record, u8>,
    /// Who has posted over each entry since the cycle opened.
    posters: BTreeMap<u8, BTreeSet<u8>>,
    /// The records that the board alone has held from some opening on, and how many cycles have closed
    /// since.
    alone: BTreeMap<Record, usize>,
}

impl Board {
    /// A new run from a fresh pool.
    pub fn begin(&mut self) {
        self.run = Run::default();
    }

    /// One event that was answered with 0.
    pub fn event(&mut self, before: &Pool, event: Event, answer: Answer, after: &Pool) {
        let phase = usize::from(before.phase);
        match event {
            Event::Make { w, .. } => {
                self.run.makers.extend(answer.value.map(|record| (record, w)));
            }
            Event::Look { w, .. } => {
                let from_another = answer.value.is_some_and(|record| self.made_by(record) != Some(w));
                self.in_phases[0][phase] += u64::from(from_another);
            }
            Event::Drop { w, r } => {
                let dropped = before.workers[usize::from(w)].registers[usize::from(r)];
                let passed = dropped
                    .is_some_and(|record| self.made_by(record) == Some(w) && another_keeps(after, w, record));
                self.in_phases[1][phase] += u64::from(passed);
            }
            Event::Post { w, e, r } => self.post(before, w, e, r),
            _ => {}
        }
        self.watch_the_alone(before, after);
    }

    fn made_by(&self, record: Record) -> Option<u8> {
        self.run.makers.get(&record).copied()
    }

    fn post(&mut self, before: &Pool, w: u8, e: u8, r: u8) {
        let worker = &before.workers[usize::from(w)];
        let entry = Link::Board { entry: e.into() };
        let marked = before.changed.contains(&entry);
        self.situations[0] += u64::from(!marked && before.value(entry).is_some());
        self.situations[1] += u64::from(marked);
        self.situations[2] += u64::from(worker.snoops && worker.registers[usize::from(r)].is_some());
        if before.phase != 0 {
            let posters = self.run.posters.entry(e).or_default();
            posters.insert(w);
            self.situations[3] += u64::from(posters.len() > 1);
        }
    }

    fn watch_the_alone(&mut self, before: &Pool, after: &Pool) {
        let alone = held_by_the_board_alone(after);
        self.run.alone.retain(|record, _| alone.contains(record));
        if before.phase == 0 && after.phase != 0 {
            self.run.posters.clear();
            for record in alone {
                self.run.alone.entry(record).or_insert(0);
            }
        }
        if before.phase != 0 && after.phase == 0 {
            for cycles in self.run.alone.values_mut() {
                *cycles += 1;
                self.situations[4] += 1;
                self.situations[5] += u64::from(*cycles > 1);
            }
        }
    }
}

/// Whether a register of another worker holds the record, and none of this one.
fn another_keeps(pool: &Pool, w: u8, record: Record) -> bool {
    let mut holding = (0..).zip(&pool.workers).filter(|(_, worker)| worker.registers.contains(&Some(record)));
    let first = holding.next();
    first.is_some_and(|(other, _)| other != w) && holding.all(|(other, _)| other != w)
}

#[cfg(test)]
mod tests {
    use super::*;
    use crate::event::happen;
    use crate::pool::Sizes;

    fn watched(sizes: Sizes, events: &[Event]) -> Board {
        let mut board = Board::default();
        let mut pool = Pool::fresh(sizes);
        for event in events {
            let before = pool.clone();
            let answer = happen(&mut pool, *event);
            assert_eq!(answer.number, 0, "{event:?}");
            board.event(&before, *event, answer, &pool);
        }
        board
    }

    const SIZES: Sizes = Sizes { n: 2, k: 1, w: 2, r: 2, b: 1 };

    /// Worker 1 looks at what worker 0 posted, and keeps it.
    #[test]
    fn a_record_that_is_passed_is_counted_once() {
        let (post, look) = (Event::Post { w: 0, e: 0, r: 0 }, Event::Look { w: 1, r: 0, e: 0 });
        let drop = |w, r| Event::Drop { w, r };
        let own = Event::Look { w: 0, r: 1, e: 0 };
        let board = watched(
            SIZES,
            &[
                Event::Make { w: 0, r: 0 },
                post,
                own,
                look,
                drop(0, 0),
                Event::Collect,
                drop(0, 1),
                drop(1, 0),
            ],
        );
        assert_eq!(board.in_phases, [[1, 0, 0, 0, 0, 0, 0], [0, 1, 0, 0, 0, 0, 0]]);
    }

    /// Two whole cycles, of ten and of eight steps, and one during which a worker looks.
    #[test]
    fn what_the_board_alone_holds_is_counted_by_whole_cycles() {
        let (make, post) = (Event::Make { w: 0, r: 0 }, Event::Post { w: 0, e: 0, r: 0 });
        let mut events = vec![make, post, Event::Drop { w: 0, r: 0 }];
        events.extend([Event::Collect; 10 + 8]);
        let board = watched(SIZES, &events);
        assert_eq!(board.situations, [0, 0, 0, 0, 2, 1]);
        events.extend([Event::Collect; 2]);
        events.extend([Event::Look { w: 0, r: 0, e: 0 }, Event::Drop { w: 0, r: 0 }]);
        events.extend([Event::Collect; 6]);
        assert_eq!(watched(SIZES, &events).situations, [0, 0, 0, 0, 2, 1]);
    }

    /// Worker 0 snoops from the second step on.
    #[test]
    fn posts_over_one_entry_are_counted_within_a_cycle() {
        let post = |w| Event::Post { w, e: 0, r: 0 };
        let make = Event::Make { w: 0, r: 0 };
        let board = watched(
            SIZES,
            &[make, post(0), post(1), Event::Collect, post(0), Event::Collect, post(0), post(1), post(0)],
        );
        assert_eq!(board.situations, [0, 5, 2, 2, 0, 0]);
    }
}

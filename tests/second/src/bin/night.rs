//! A night of long chains under stores, by the rules of this tree: how many records it makes and frees, and
//! how many are used when a cycle closes.
//!
//! `night`             prints a row for each kind of night
//!
//! It needs nothing of the second program but its pool, its events and what is lost, so that the same file
//! tells of an older tree too. Chains grow behind a head, the head is stored to again and again, and is then
//! dropped: at any moment of a cycle, where the collector has more and more of the events; or, in the
//! stepper, in each cycle right after the log of its worker was taken, so that the head waits.

use std::collections::VecDeque;

use second::event::{happen, Event, NO_FREE_RECORD};
use second::pool::{Pool, Sizes};
use second::random::Random;
use second::reach::lost;

/// The largest sizes of `replay`, without a board.
const SIZES: Sizes = Sizes { n: 64, k: 4, w: 4, r: 8, b: 0 };
/// How long a night is, in the stepper and else.
const CYCLES: usize = 1000;
const EVENTS: usize = 200_000;

/// The registers of a worker: the head of its chain, the tail, a new record, and one that holds none.
const HEAD: u8 = 0;
const TAIL: u8 = 1;
const NEW: u8 = 2;
const NONE: u8 = 3;
/// The link that leads on, and the one that is stored to.
const NEXT: u8 = 0;
const STORED: u8 = 1;

/// A chain of so many records, or of fewer if the pool runs short.
fn chain(w: u8, long: usize) -> Vec<Event> {
    let mut events = vec![Event::Make { w, r: HEAD }, Event::Move { w, r: TAIL, q: HEAD }];
    for _ in 1..long {
        events.extend([
            Event::Make { w, r: NEW },
            Event::Store { w, q: TAIL, f: NEXT, r: NEW },
            Event::Load { w, r: TAIL, q: TAIL, f: NEXT },
            Event::Drop { w, r: NEW },
        ]);
    }
    events.push(Event::Drop { w, r: TAIL });
    events
}

/// Its head is stored to.
fn touch(w: u8) -> Event {
    Event::Store { w, q: HEAD, f: STORED, r: NONE }
}

/// What a night came to.
struct Night {
    pool: Pool,
    made: u64,
    refused: u64,
    freed: u64,
    /// How many records were used, and lost, at each close.
    used: Vec<usize>,
    lost: Vec<usize>,
}

impl Night {
    fn new() -> Night {
        Night { pool: Pool::fresh(SIZES), made: 0, refused: 0, freed: 0, used: Vec::new(), lost: Vec::new() }
    }

    fn event(&mut self, event: Event) {
        let phase = self.pool.phase;
        let answer = happen(&mut self.pool, event);
        match event {
            Event::Make { .. } => {
                self.made += u64::from(answer.number == 0);
                self.refused += u64::from(answer.number == NO_FREE_RECORD);
            }
            Event::Collect => self.freed += u64::from(answer.value.is_some()),
            _ => {}
        }
        if phase != 0 && self.pool.phase == 0 {
            self.used.push(self.pool.used.len());
            self.lost.push(lost(&self.pool).len());
        }
    }

    /// Worker 0 alone: in each cycle a chain of so many records, left right after its log was taken.
    fn stepper(long: usize, cycles: usize) -> Night {
        let mut night = Night::new();
        while night.used.len() < cycles {
            chain(0, long).into_iter().for_each(|event| night.event(event));
            while night.pool.phase != 3 {
                night.event(Event::Collect);
            }
            night.event(touch(0));
            night.event(Event::Drop { w: 0, r: HEAD });
            while night.pool.phase != 0 {
                night.event(Event::Collect);
            }
        }
        night
    }

    /// Four workers with chains of up to so many records, which they leave at any moment; so many of a
    /// hundred events are the collector's.
    fn any_moment(long: usize, collects: usize, events: usize) -> Night {
        let (mut night, mut random) = (Night::new(), Random::new(1));
        let mut plans = vec![VecDeque::new(); usize::from(SIZES.w)];
        for _ in 0..events {
            if random.percent(collects) {
                night.event(Event::Collect);
                continue;
            }
            let w = random.below(plans.len());
            let plan = &mut plans[w];
            let w = w as u8;
            if plan.is_empty() {
                plan.extend(chain(w, 2 + random.below(long - 1)));
                plan.extend((0..1 + random.below(8)).map(|_| touch(w)));
                plan.push_back(Event::Drop { w, r: HEAD });
            }
            night.event(plan.pop_front().unwrap_or(Event::Collect));
        }
        night
    }

    /// A row of the table; used and lost are the means over the closes.
    fn row(&self, what: &str) {
        let mean = |all: &[usize]| all.iter().sum::<usize>() as f64 / all.len() as f64;
        let last: Vec<String> = self.used.iter().rev().take(4).rev().map(usize::to_string).collect();
        let (cycles, used, lost) = (self.used.len(), mean(&self.used), mean(&self.lost));
        let Night { made, refused, freed, .. } = self;
        println!(
            "| {what} | {cycles} | {made} | {refused} | {freed} | {used:.2} | {lost:.2} | {} |",
            last.join(", ")
        );
    }
}

fn main() {
    println!("| night | cycles | made | refused by 5 | freed | used at a close | of them lost | used at the last four |");
    println!("|---|---:|---:|---:|---:|---:|---:|---|");
    for long in [20, 40, 60] {
        Night::stepper(long, CYCLES).row(&format!("the stepper, chains of {long}"));
    }
    for collects in [45, 50, 60, 70] {
        let what = format!("any moment, chains of 2 to 16, {collects} collector steps of 100 events");
        Night::any_moment(16, collects, EVENTS).row(&what);
    }
}

#[cfg(test)]
mod tests {
    use super::*;

    /// The head of each chain waits, and nothing else does: it alone is used when its cycle closes.
    #[test]
    fn a_waiting_head_keeps_no_chain() {
        let night = Night::stepper(60, 10);
        assert_eq!((night.made, night.refused), (600, 0));
        assert_eq!((night.used, night.lost), (vec![1; 10], vec![1; 10]));
    }
}

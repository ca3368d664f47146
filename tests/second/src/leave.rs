//! How a worker leaves a record waiting, which hardly ever comes by chance: it stores to the record after
//! its log was taken, and drops it before its registers are scanned. Before that it builds a chain
//! behind the record and lets the collector step up to the moment.

use crate::event::{happen, Event};
use crate::pool::Pool;
use crate::random::Random;

/// A log that is taken later than after so many collector steps is not waited for.
const MOST_STEPS: usize = 80;

/// The events of one such chain, or of several in as many cycles.
pub fn leave_waiting(pool: &Pool, w: u8, random: &mut Random) -> Vec<Event> {
    let mut plan = Plan { pool: pool.clone(), w, random, events: Vec::new() };
    for _ in 0..plan.random.pick(&[1, 1, 1, 2, 3]) {
        plan.chain_left_waiting();
    }
    plan.events
}

struct Plan<'a> {
    /// As the events so far leave it, if nobody else does anything.
    pool: Pool,
    w: u8,
    random: &'a mut Random,
    events: Vec<Event>,
}

impl Plan<'_> {
    fn add(&mut self, event: Event) {
        happen(&mut self.pool, event);
        self.events.push(event);
    }

    fn make(&mut self, r: u8) {
        self.add(Event::Make { w: self.w, r });
    }

    fn move_(&mut self, r: u8, q: u8) {
        self.add(Event::Move { w: self.w, r, q });
    }

    fn drop(&mut self, r: u8) {
        self.add(Event::Drop { w: self.w, r });
    }

    fn load(&mut self, r: u8, q: u8, f: u8) {
        self.add(Event::Load { w: self.w, r, q, f });
    }

    fn store(&mut self, q: u8, f: u8, r: u8) {
        self.add(Event::Store { w: self.w, q, f, r });
    }

    fn link(&mut self) -> u8 {
        self.random.below(self.pool.sizes.k.into()) as u8
    }

    /// Another link of a record, where it has several.
    fn other_link(&mut self, f: u8) -> u8 {
        let k = self.pool.sizes.k as u8;
        (f + 1 + self.random.below(usize::from(k).saturating_sub(1)) as u8) % k
    }

    /// Three registers, as far as there are so many.
    fn three_registers(&mut self) -> [u8; 3] {
        let r = self.pool.sizes.r as u8;
        let first = self.random.below(r.into()) as u8;
        [0, 1, 2].map(|further| (first + further) % r)
    }

    fn chain_left_waiting(&mut self) {
        if self.pool.free_records() < 2 {
            return;
        }
        let (registers, f) = (self.three_registers(), self.link());
        let [head, second, third] = registers;
        self.chain(registers, f);
        if self.random.percent(40) {
            let g = self.other_link(f);
            self.load(second, head, f);
            self.store(head, g, second);
        }
        for r in [second, third] {
            if r != head && self.random.percent(80) {
                self.drop(r);
            }
        }
        if !self.collector_takes_the_log() {
            return;
        }
        if self.random.percent(40) {
            self.load(second, head, f);
            self.store_elsewhere(second, f, third);
            self.drop(second);
        }
        self.store_elsewhere(head, f, second);
        self.drop_all_of(head);
    }

    /// A chain of two to five records by way of link `f`, from the tail or from the head, whose register is
    /// `head`.
    fn chain(&mut self, [head, second, third]: [u8; 3], f: u8) {
        let links = 1 + self.random.below(4).min(self.pool.free_records() - 2);
        self.make(head);
        if self.pool.sizes.r < 3 || self.random.percent(50) {
            for _ in 0..links {
                self.make(second);
                self.store(second, f, head);
                self.move_(head, second);
            }
        } else {
            self.move_(second, head);
            for _ in 0..links {
                self.make(third);
                self.store(second, f, third);
                self.move_(second, third);
            }
        }
    }

    /// Up to the step that takes this worker's log, or a little further; false where that is far off.
    fn collector_takes_the_log(&mut self) -> bool {
        let mut later = self.pool.clone();
        for steps in 1..=MOST_STEPS {
            let takes = later.phase == 2 && later.position == usize::from(self.w);
            happen(&mut later, Event::Collect);
            if takes {
                let further = self.random.below(3);
                (0..steps + further).for_each(|_| self.add(Event::Collect));
                return true;
            }
        }
        false
    }

    /// Into another link than `f` of the record in `q`, once or twice.
    fn store_elsewhere(&mut self, q: u8, f: u8, r: u8) {
        for _ in 0..self.random.pick(&[1, 1, 2]) {
            let g = self.other_link(f);
            self.store(q, g, r);
        }
    }

    /// Every register that holds what this one does.
    fn drop_all_of(&mut self, r: u8) {
        let registers = self.pool.workers[usize::from(self.w)].registers.clone();
        let left = registers[usize::from(r)];
        for (r, _) in (0..).zip(registers).filter(|(_, held)| *held == left) {
            self.drop(r);
        }
    }
}

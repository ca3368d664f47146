//! A trace from a seed: whole or damaged.

use crate::damage::Damage;
use crate::ends::at_the_end_of_a_word;
use crate::event::{happen, Event};
use crate::habit::Habit;
use crate::pool::{Pool, Record, Sizes};
use crate::random::Random;
use crate::reach::would_close_a_loop;
use crate::trace::{Field, Kind, LARGEST};

pub struct Made {
    pub trace: Vec<u8>,
    pub damage: Option<Damage>,
}

/// One in four traces is damaged.
pub fn make(seed: u64) -> Made {
    let mut random = Random::new(seed);
    let sizes = choose_sizes(&mut random);
    let events = 20 + random.below(if sizes.n > 16 { 1000 } else { 500 });
    made(Maker::new(sizes, random), events)
}

/// The same with so many events, or a few more.
pub fn make_long(seed: u64, events: usize) -> Made {
    let mut random = Random::new(seed);
    let sizes = choose_sizes(&mut random);
    made(Maker::new(sizes, random), events)
}

/// The same of any sizes.
pub fn make_of(seed: u64, sizes: Sizes, events: usize) -> Made {
    made(Maker::new(sizes, Random::new(seed)), events)
}

fn made(mut maker: Maker, events: usize) -> Made {
    maker.work(events);
    if maker.random.percent(50) {
        maker.abandon();
    }
    maker.end();
    let damage = maker.random.percent(25).then(|| maker.random.pick(&Damage::ALL));
    let trace = match damage {
        Some(damage) => damage.done_to(&maker.fields, &mut maker.random),
        None => maker.fields.iter().flat_map(Field::bytes).collect(),
    };
    Made { trace, damage }
}

/// A whole trace in which a field of this kind, an event or the end, begins at this offset; the
/// offset is 1000 or more.
pub fn make_with_field_at(seed: u64, kind: Kind, offset: usize) -> Vec<u8> {
    let mut random = Random::new(seed);
    let sizes = choose_sizes(&mut random);
    let mut maker = Maker::new(sizes, random);
    while maker.bytes + 600 < offset {
        maker.work(1);
    }
    maker.fill_up_to(offset);
    if let Some(event) = kind.event(&vec![0; kind.length() - 4]) {
        maker.add(event);
        maker.work(100);
    }
    maker.end();
    maker.fields.iter().flat_map(Field::bytes).collect()
}

/// Mostly small, for then the same records meet again and again; some in between, some at the
/// limits of `replay`, a few at the ends of words.
fn choose_sizes(random: &mut Random) -> Sizes {
    match random.below(40) {
        0..=17 => up_to(Sizes { n: 4, k: 2, w: 2, r: 3, b: 2 }, random),
        18..=30 => up_to(Sizes { n: 8, k: 3, w: 3, r: 4, b: 3 }, random),
        31..=36 => up_to(Sizes { n: 24, k: 4, w: 4, r: 6, b: 6 }, random),
        37 => at_the_end_of_a_word(LARGEST, random),
        _ => at_the_limits(LARGEST, 70, random),
    }
}

/// Each size from the least to this one.
pub fn up_to(most: Sizes, random: &mut Random) -> Sizes {
    let mut size = |least, most| random.between(least, most);
    Sizes {
        n: size(1, most.n),
        k: size(1, most.k),
        w: size(1, most.w),
        r: size(1, most.r),
        b: size(0, most.b),
    }
}

/// Each size as large as it may be, so many times of a hundred, else the least.
pub fn at_the_limits(largest: Sizes, percent: usize, random: &mut Random) -> Sizes {
    let mut limit = |least, largest| if random.percent(percent) { largest } else { least };
    Sizes {
        n: limit(1, largest.n),
        k: limit(1, largest.k),
        w: limit(1, largest.w),
        r: limit(1, largest.r),
        b: limit(0, largest.b),
    }
}

/// The sizes field. Without a board it carries B or not.
pub fn sizes_field(sizes: Sizes, random: &mut Random) -> Field {
    Field::Sizes { sizes, carries_b: sizes.b > 0 || random.percent(50) }
}

/// A stretch of events: how many of a hundred are the collector's, from none to all, and a few habits
/// of the workers. In one of ten the workers set out to leave records waiting.
pub fn stretch(random: &mut Random) -> (usize, Vec<Habit>) {
    if random.percent(10) {
        return (random.pick(&[0, 0, 5]), vec![Habit::LeaveWaiting]);
    }
    let rate = random.pick(&[0, 3, 10, 30, 50, 70, 90, 100]);
    (rate, (0..3).map(|_| random.pick(&Habit::ALL)).collect())
}

struct Maker {
    random: Random,
    /// The pool as the events so far leave it: workers look at their registers.
    pool: Pool,
    fields: Vec<Field>,
    /// How many bytes the fields take.
    bytes: usize,
    steps: u32,
    /// What each worker has still to do of its plan, the next event last.
    plans: Vec<Vec<Event>>,
    /// Where loops may be closed, a small pool soon holds little else.
    loops: bool,
}

impl Maker {
    fn new(sizes: Sizes, mut random: Random) -> Maker {
        let sizes_field = sizes_field(sizes, &mut random);
        Maker {
            loops: random.percent(35),
            random,
            pool: Pool::fresh(sizes),
            fields: vec![sizes_field],
            bytes: sizes_field.bytes().len(),
            steps: 0,
            plans: vec![Vec::new(); usize::from(sizes.w)],
        }
    }

    fn add(&mut self, event: Event) {
        self.steps += 1;
        happen(&mut self.pool, event);
        let field = Field::Event { step: self.steps, event };
        self.bytes += field.bytes().len();
        self.fields.push(field);
    }

    /// Makes, of 9 bytes each, and then collector steps, of 7, until the next field begins at the
    /// offset: there are 48 bytes to fill or more, and every such number is a sum of these.
    fn fill_up_to(&mut self, offset: usize) {
        while !(offset - self.bytes).is_multiple_of(7) {
            self.add(Event::Make { w: 0, r: 0 });
        }
        while self.bytes < offset {
            self.add(Event::Collect);
        }
    }

    fn work(&mut self, events: usize) {
        let until = self.steps as usize + events;
        while (self.steps as usize) < until {
            let (rate, habits) = stretch(&mut self.random);
            for _ in 0..5 + self.random.below(40) {
                if self.random.percent(rate) {
                    self.add(Event::Collect);
                } else {
                    self.worker_event(&habits);
                }
            }
        }
    }

    /// The next event of some worker's plan. A worker that has none lets the collector step.
    fn worker_event(&mut self, habits: &[Habit]) {
        let w = self.random.below(self.plans.len());
        if self.plans[w].is_empty() {
            let habit = self.random.pick(habits);
            let mut plan = habit.plan(&self.pool, w as u8, &mut self.random);
            plan.reverse();
            self.plans[w] = plan;
        }
        match self.plans[w].pop() {
            Some(event) if self.loops || !self.closes_a_loop(event) => self.add(event),
            Some(_) => {}
            None => self.add(Event::Collect),
        }
    }

    fn closes_a_loop(&self, event: Event) -> bool {
        let Event::Store { w, q, r, .. } = event else { return false };
        let held = |register: u8| -> Option<Record> {
            *self.pool.workers.get(usize::from(w))?.registers.get(usize::from(register))?
        };
        match (held(q), held(r)) {
            (Some(from), Some(to)) => would_close_a_loop(&self.pool, from, to),
            _ => false,
        }
    }

    /// Some registers are dropped, and the collector goes on until two cycles have closed.
    fn abandon(&mut self) {
        for w in 0..self.pool.sizes.w as u8 {
            for r in 0..self.pool.sizes.r as u8 {
                if self.random.percent(80) {
                    self.add(Event::Drop { w, r });
                }
            }
        }
        let sizes = self.pool.sizes;
        let cycle = 3 * usize::from(sizes.w) + 2 * sizes.s() + usize::from(sizes.n) + 2;
        let closed = self.pool.closed.wrapping_add(2);
        for _ in 0..3 * cycle {
            if self.pool.closed != closed {
                self.add(Event::Collect);
            }
        }
    }

    fn end(&mut self) {
        self.fields.push(Field::End { count: self.steps });
    }
}

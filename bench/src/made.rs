//! Seeded events, heavy in worker events or in collector steps, and traces of them.
//!
//! Workers look at their registers, so that few events are refused. A store leads from a younger
//! record to an older one only: no loop closes, so that all that is dropped is freed, and the pool
//! goes on for as long as one likes.

use crate::flat::Pool;
use crate::random::Random;
use std::io::{self, Write};
use std::iter;

/// A trace's tag, and the event's numbers in the trace's order.
pub type Event = [u8; 5];

/// How many of a hundred events are collector steps.
pub const WORKER_HEAVY: usize = 10;
pub const COLLECTOR_HEAVY: usize = 90;

pub struct Maker<const N: usize, const K: usize, const W: usize, const R: usize, const B: usize> {
    pool: Box<Pool<N, K, W, R, B>>,
    random: Random,
    collects: usize,
    /// When each record was made.
    births: [u64; N],
    made: u64,
}

impl<const N: usize, const K: usize, const W: usize, const R: usize, const B: usize> Maker<N, K, W, R, B> {
    pub fn new(seed: u64, collects: usize) -> Self {
        let pool = Pool::fresh(N, K, W, R, B).expect("the largest sizes");
        Maker { pool: Box::new(pool), random: Random::new(seed), collects, births: [0; N], made: 0 }
    }

    fn birth(&self, w: usize, r: usize) -> u64 {
        match self.pool.register(w, r) {
            0 => 0,
            a => self.births[a as usize - 1],
        }
    }

    /// A register that holds a record, if a few tries find one.
    fn full(&mut self, w: usize) -> usize {
        let mut r = self.random.below(R);
        for _ in 0..8 {
            if self.pool.register(w, r) != 0 {
                break;
            }
            r = self.random.below(R);
        }
        r
    }

    fn choose(&mut self) -> Event {
        if self.random.percent(self.collects) {
            return [0x20, 0, 0, 0, 0];
        }
        let w = self.random.below(W);
        let (r, q, f, e) = (self.random.below(R), self.full(w), self.random.below(K), self.random.below(B));
        let roll = self.random.below(100);
        let [w8, r8, q8, f8, e8] = [w as u8, r as u8, q as u8, f as u8, e as u8];
        match roll {
            0..=19 if self.pool.has_free() => [0x10, w8, r8, 0, 0],
            0..=29 => [0x11, w8, r8, q8, 0],
            30..=44 => [0x12, w8, r8, 0, 0],
            45..=59 => [0x13, w8, r8, q8, f8],
            60..=64 => [0x15, w8, r8, e8, 0],
            65..=69 => [0x16, w8, e8, q8, 0],
            _ if self.birth(w, q) > self.birth(w, r) => [0x14, w8, q8, f8, r8],
            _ if self.birth(w, r) > self.birth(w, q) => [0x14, w8, r8, f8, q8],
            _ => [0x12, w8, q8, 0, 0],
        }
    }

    /// The next event, which the maker's own pool has done.
    pub fn next(&mut self) -> Event {
        let event = self.choose();
        let [tag, a, b, c, d] = event;
        let (number, value) = self.pool.event(tag, a, b, c, d);
        if tag == 0x10 && number == 0 {
            self.made += 1;
            self.births[value as usize - 1] = self.made;
        }
        event
    }
}

/// A whole trace at the largest sizes of `replay`.
pub fn write_trace(to: &mut impl Write, seed: u64, collects: usize, events: u32) -> io::Result<()> {
    let mut maker = Maker::<64, 4, 4, 8, 8>::new(seed, collects);
    write_events(to, iter::repeat_with(|| maker.next()), events)
}

/// A link that is stored again right after its clearing, when the log has an entry for every other
/// link that the worker can name; then a cycle without stores, and all over again.
pub fn write_stored_again(to: &mut impl Write, events: u32) -> io::Result<()> {
    const RECORDS: u8 = 8;
    const LINKS: u8 = 4;
    const COLLECT: Event = [0x20, 0, 0, 0, 0];
    let makes = (0..RECORDS).map(|r| [0x10, 0, r, 0, 0]);
    let stores: Vec<Event> =
        (0..RECORDS).flat_map(|q| (0..LINKS).map(move |f| [0x14, 0, q, f, (q + 1) % RECORDS])).collect();
    let steps = |n: usize| iter::repeat_n(COLLECT, n);
    let mut turn = vec![stores[0]];
    // Phases 0, 1 and 2; phase 3 clears the one entry.
    turn.extend(steps(1 + 4 + 4).chain(stores[1..].iter().copied()).chain(steps(1)));
    turn.push(stores[0]);
    // Phase 4, the one entry of phase 5, and phase 6; then a cycle with all entries.
    turn.extend(steps(4 + 1 + 1).chain(steps(1 + 4 + 4 + stores.len() + 4 + stores.len() + 1)));
    write_events(to, makes.chain(turn.into_iter().cycle()), events)
}

fn write_events(to: &mut impl Write, made: impl Iterator<Item = Event>, events: u32) -> io::Result<()> {
    to.write_all(&[0x01, 0, 10, 0, 64, 0, 4, 0, 4, 0, 8, 0, 8])?;
    for (step, event) in (1..=events).zip(made) {
        let numbers = match event[0] {
            0x10 | 0x12 => 2,
            0x11 | 0x15 | 0x16 => 3,
            0x13 | 0x14 => 4,
            _ => 0,
        };
        to.write_all(&[event[0], 0, 4 + numbers])?;
        to.write_all(&step.to_be_bytes())?;
        to.write_all(&event[1..1 + numbers as usize])?;
    }
    to.write_all(&[0x7F, 0, 4])?;
    to.write_all(&events.to_be_bytes())
}

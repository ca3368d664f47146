//! The report of a trace: "A report for each cycle", request 7 of document 02.

use std::fmt;
use std::io::{self, Write};

use crate::event::{happen, Event};
use crate::pool::Pool;
use crate::replay::{refused, whole, Ending};
use crate::trace::{Field, Reader};

/// The numbers of a closed cycle: "`taken` and the entries moved into the history, `freed` and the
/// records freed, `net` and the sum of all counts at the close less that sum at the opening."
#[derive(Clone, Copy, Debug, Default, PartialEq, Eq)]
pub struct Cycle {
    pub taken: usize,
    pub freed: usize,
    pub net: i64,
}

/// "The net may be below nought, and prints with a minus sign."
impl fmt::Display for Cycle {
    fn fmt(&self, out: &mut fmt::Formatter) -> fmt::Result {
        write!(out, "taken {} freed {} net {}", self.taken, self.freed, self.net)
    }
}

/// What an event comes upon, as far as the report looks at it.
#[derive(Clone, Copy)]
pub struct Upon {
    phase: u8,
    history: usize,
    used: usize,
}

impl Upon {
    pub fn of(pool: &Pool) -> Upon {
        Upon { phase: pool.phase, history: pool.history.len(), used: pool.used.len() }
    }
}

/// "the sum of all counts"
pub fn sum_of_counts(pool: &Pool) -> i64 {
    pool.counts.values().sum()
}

/// The cycles of a run, seen from outside: by what an event comes upon and what it leaves, and not by
/// its answer.
#[derive(Default)]
pub struct Cycles {
    /// The numbers of the open cycle so far, and the sum of all counts at its opening.
    open: Option<(Cycle, i64)>,
}

impl Cycles {
    /// One event, and the pool that it leaves; the cycle that it closes, if it does. "A cycle opens
    /// with the step out of phase 0 and closes with the step back to it."
    pub fn event(&mut self, upon: Upon, after: &Pool) -> Option<Cycle> {
        if upon.phase == 0 && after.phase != 0 {
            self.open = Some((Cycle::default(), sum_of_counts(after)));
        }
        let (cycle, _) = self.open.as_mut()?;
        cycle.taken += after.history.len().saturating_sub(upon.history);
        cycle.freed += upon.used.saturating_sub(after.used.len());
        if after.phase != 0 {
            return None;
        }
        let (cycle, opening) = self.open.take()?;
        Some(Cycle { net: sum_of_counts(after) - opening, ..cycle })
    }

    pub fn is_open(&self) -> bool {
        self.open.is_some()
    }

    /// The same, and the event is done.
    pub fn happen(&mut self, pool: &mut Pool, event: Event) -> Option<Cycle> {
        let upon = Upon::of(pool);
        happen(pool, event);
        self.event(upon, pool)
    }
}

/// "A program reads a trace and prints for each closed cycle: `cycle`, its ordinal from 1, .. After the
/// last comes 01's `end` line, or its `refused` line." With the limits of `replay`.
pub fn report(trace: &[u8], out: &mut impl Write) -> io::Result<Ending> {
    let mut reader = Reader::new(trace);
    let (mut pool, mut cycles, mut ordinal) = (None, Cycles::default(), 0_u64);
    loop {
        match (reader.next_field(), &mut pool) {
            (Ok(Some(Field::Sizes { sizes, .. })), _) => pool = Some(Pool::fresh(sizes)),
            (Ok(Some(Field::Event { event, .. })), Some(pool)) => {
                if let Some(cycle) = cycles.happen(pool, event) {
                    ordinal += 1;
                    writeln!(out, "cycle {ordinal} {cycle}")?;
                }
            }
            // The end field: a byte after it still refuses the trace. No event comes before the sizes.
            (Ok(Some(_)), _) => {}
            (Ok(None), _) => return whole(out, pool.as_ref()),
            (Err(refusal), _) => return refused(out, refusal),
        }
    }
}

#[cfg(test)]
mod tests {
    use super::*;
    use crate::pool::Sizes;

    const MAKE: Event = Event::Make { w: 0, r: 0 };
    const LINK: Event = Event::Store { w: 0, q: 0, f: 0, r: 0 };
    const DROP: Event = Event::Drop { w: 0, r: 0 };

    fn trace(events: &[Event]) -> Vec<u8> {
        let sizes = Field::of_sizes(Sizes { n: 2, k: 1, w: 1, r: 1, b: 0 });
        let events = (1..).zip(events).map(|(step, event)| Field::Event { step, event: *event });
        [sizes].into_iter().chain(events).flat_map(|field| field.bytes()).collect()
    }

    fn printed(trace: &[u8]) -> String {
        let mut out = Vec::new();
        report(trace, &mut out).unwrap();
        String::from_utf8(out).unwrap()
    }

    /// Document 01's whole case.
    #[test]
    fn the_whole_case() {
        let mut events = vec![MAKE, DROP];
        events.extend([Event::Collect; 6]);
        events.push(MAKE);
        let mut whole = trace(&events);
        whole.extend(Field::End { count: 9 }.bytes());
        assert_eq!(printed(&whole), "cycle 1 taken 0 freed 1 net 0\nend 1 1\n");
    }

    /// A record linked to itself: in the first cycle, of seven steps, its link is counted. The second
    /// closes with the fifth step. Wherever the trace is cut, an open cycle has no line.
    #[test]
    fn an_open_cycle_has_no_line() {
        let mut events = vec![MAKE, LINK];
        events.extend([Event::Collect; 7 + 5]);
        let lines = ["cycle 1 taken 1 freed 0 net 1\n", "cycle 2 taken 0 freed 0 net 0\n"];
        for length in 0..=events.len() {
            let cut = trace(&events[..length]);
            let closed = usize::from(length >= 9) + usize::from(length >= 14);
            let expected = lines[..closed].concat() + &format!("refused 9 {}\n", cut.len());
            assert_eq!(printed(&cut), expected, "{length} events");
        }
    }
}

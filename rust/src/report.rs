//! The cycles of a trace, reported on tables of its own.

use std::fmt;

use crate::own::{ending, last_line, tables_for};
use crate::pool::Pool;
use crate::trace::{cycles_in, cycles_length, Cycle, Stop};

/// The report of a trace. It prints as the program `report` does, which takes sizes up to N 64, K 4, W 4,
/// R 8 and B 8 alone: of a trace with larger ones that program prints `refused 1 0`, and this its lines.
#[derive(Clone, Debug, PartialEq, Eq)]
pub struct Report {
    /// The numbers of each cycle that closed; the first has the ordinal 1.
    pub cycles: Vec<Cycle>,
    /// The pool at the end of a whole trace; or where the trace is refused, and why.
    pub ending: Result<Pool, Stop>,
}

/// Replays a trace, on tables that are made for the sizes that it begins with, and reports each of its
/// cycles that closed. A cycle that is still open where the trace ends or is refused is none of them.
/// Whoever has tables lends them, to [`Lent::report`](crate::Lent::report).
///
/// ```
/// use yuyarisun::{report, Cycle, Event, Field, Sizes};
///
/// let (link, unlink) = (Event::Store { w: 0, q: 0, f: 0, r: 0 }, Event::Store { w: 0, q: 0, f: 0, r: 1 });
/// let mut events = vec![Event::Make { w: 0, r: 0 }, link];
/// events.extend([Event::Collect; 7]); // the record leads to itself, which is counted
/// events.push(unlink);
/// events.extend([Event::Collect; 7]); // and is counted no longer
/// let mut trace = Vec::new();
/// Field::Sizes(Sizes { n: 2, k: 1, w: 1, r: 2, b: 0 }).put(&mut trace);
/// for (step, event) in (1..).zip(events) {
///     Field::Event { step, event }.put(&mut trace);
/// }
///
/// let cut = report(&trace);
/// assert_eq!(cut.cycles, [Cycle { taken: 1, freed: 0, net: 1 }, Cycle { taken: 1, freed: 0, net: -1 }]);
/// assert_eq!(cut.ending.unwrap_err().place, trace.len());
///
/// Field::End { count: 17 }.put(&mut trace);
/// let lines = "cycle 1 taken 1 freed 0 net 1\ncycle 2 taken 1 freed 0 net -1\nend 1 2\n";
/// assert_eq!(report(&trace).to_string(), lines);
/// ```
pub fn report(bytes: &[u8]) -> Report {
    let mut lent = tables_for(bytes);
    let mut numbers = vec![0; cycles_length(bytes.len())];
    let reported = lent.report(bytes, &mut numbers);
    let cycles = cycles_in(&numbers).take(reported.cycles).collect();
    Report { cycles, ending: ending(lent, reported.ending) }
}

impl fmt::Display for Report {
    fn fmt(&self, out: &mut fmt::Formatter) -> fmt::Result {
        for (ordinal, cycle) in (1_u64..).zip(&self.cycles) {
            writeln!(out, "cycle {ordinal} {cycle}")?;
        }
        last_line(out, &self.ending)
    }
}

//! Tables that are made for a trace, and how it ends on them.

use std::fmt;

use crate::lent::Lent;
use crate::pool::Pool;
use crate::sizes::{Collector, Sizes, Tables};
use crate::trace::{Stop, Whole};

/// The pool at the end of a whole trace; or where the trace is refused, and why.
pub(crate) type Ending = Result<Pool, Stop>;

/// Tables for the sizes that a trace begins with. Of sizes that are out of range, or not there, none are
/// needed: the trace is refused for it before any is touched.
pub(crate) fn tables_for(bytes: &[u8]) -> Lent {
    let sizes = Sizes::of_trace(bytes).filter(|sizes| sizes.in_range());
    let tables = sizes.map_or_else(Tables::default, Tables::zeros);
    let sizes = sizes.unwrap_or(Sizes { n: 0, k: 0, w: 0, r: 0, b: 0 });
    Lent { sizes, tables, collector: Collector::default() }
}

/// The tables, which a trace has left, as a pool.
pub(crate) fn ending(lent: Lent, ended: Result<Whole, Stop>) -> Ending {
    let Lent { sizes, tables, collector } = lent;
    ended.map(|_| Pool::from_tables(sizes, tables, collector).expect("a trace leaves a sound pool"))
}

/// The last line, as the programs print it.
pub(crate) fn last_line(out: &mut fmt::Formatter, ending: &Ending) -> fmt::Result {
    match ending {
        Ok(pool) => writeln!(out, "end {} {}", pool.free_records(), pool.collector().closed),
        Err(stop) => writeln!(out, "refused {} {}", stop.refusal.number(), stop.place),
    }
}

//! A trace replayed on tables of its own.

use std::fmt;

use crate::event::Record;
use crate::own::{ending, last_line, tables_for};
use crate::pool::Pool;
use crate::trace::{answers_in, answers_length, Answer, Stop};

/// A trace, replayed on tables of its own. It prints as the program `replay` does, which takes sizes
/// up to N 64, K 4, W 4, R 8 and B 8 alone: of a trace with larger ones that program prints `refused 1
/// 0`, and this its lines.
#[derive(Clone, Debug, PartialEq, Eq)]
pub struct Replay {
    /// What each event was answered; the first has step 1.
    pub answers: Vec<Answer>,
    /// The pool at the end of a whole trace; or where the trace is refused, and why.
    pub ending: Result<Pool, Stop>,
}

/// Replays a trace on tables that are made for the sizes that it begins with, which may be all that
/// a pool has. Whoever wants the tables of a trace that is refused lends them, to
/// [`Lent::trace`](crate::Lent::trace).
///
/// ```
/// use yuyarisun::{replay, Event, Field, Refusal, Sizes};
///
/// let mut trace = Vec::new();
/// Field::Sizes(Sizes { n: 2, k: 1, w: 1, r: 1, b: 0 }).put(&mut trace);
/// let events = [Event::Make { w: 0, r: 0 }, Event::Load { w: 0, r: 0, q: 0, f: 1 }, Event::Collect];
/// for (event, step) in events.into_iter().zip(1..) {
///     Field::Event { step, event }.put(&mut trace);
/// }
/// let cut = replay(&trace).ending.unwrap_err();
/// assert_eq!((cut.refusal, cut.place, cut.events), (Refusal::StopsShort, trace.len(), 3));
///
/// Field::End { count: 3 }.put(&mut trace);
/// let whole = replay(&trace);
/// assert_eq!(whole.answers[1], Err(Refusal::NoSuchLink));
/// assert_eq!(whole.to_string(), "1 0 1\n2 14 0\n3 0 0\nend 1 0\n");
/// assert_eq!(whole.ending?.collector().phase, 1);
/// # Ok::<(), yuyarisun::Stop>(())
/// ```
pub fn replay(bytes: &[u8]) -> Replay {
    let mut lent = tables_for(bytes);
    let mut numbers = vec![0; answers_length(bytes.len())];
    let ended = lent.trace(bytes, &mut numbers);
    let events = ended.map_or_else(|stop| stop.events, |whole| whole.events);
    let answers = answers_in(&numbers).take(events).collect();
    Replay { answers, ending: ending(lent, ended) }
}

impl fmt::Display for Replay {
    fn fmt(&self, out: &mut fmt::Formatter) -> fmt::Result {
        // Wider than a step number, for the one behind the last has to be counted too.
        for (step, answer) in (1_u64..).zip(&self.answers) {
            match answer {
                Ok(value) => writeln!(out, "{step} 0 {}", value.map_or(0, Record::number))?,
                Err(refusal) => writeln!(out, "{step} {} 0", refusal.number())?,
            }
        }
        last_line(out, &self.ending)
    }
}

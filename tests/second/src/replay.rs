//! A whole trace: what the program `replay` of document 01 prints.

use std::io::{self, Write};

use crate::check::Check;
use crate::event::{happen, Event};
use crate::pool::{Pool, Record};
use crate::trace::{Field, Reader, Refusal};

/// How a replay came to its end.
#[derive(Clone, Debug, PartialEq, Eq)]
pub enum Ending {
    Whole,
    Refused(Refusal),
    /// A check did not hold: at which step, and which sentence. Step 0 is the fresh pool.
    Broken {
        step: u32,
        sentence: String,
    },
}

/// Replays a trace and prints as it goes; with a check, every event is held to it.
pub fn replay(trace: &[u8], out: &mut impl Write, mut check: Option<&mut Check>) -> io::Result<Ending> {
    let mut reader = Reader::new(trace);
    let mut pool = None;
    loop {
        let field = match reader.next_field() {
            Ok(Some(field)) => field,
            Ok(None) => return whole(out, pool.as_ref()),
            Err(refusal) => return refused(out, refusal),
        };
        match (field, &mut pool) {
            (Field::Sizes { sizes, carries_b }, _) => {
                let fresh = Pool::fresh(sizes);
                if let Some(Err(sentence)) = check.as_mut().map(|check| check.fresh(&fresh, carries_b)) {
                    return Ok(Ending::Broken { step: 0, sentence });
                }
                pool = Some(fresh);
            }
            (Field::Event { step, event }, Some(pool)) => {
                if let Err(sentence) = one_event(pool, step, event, out, &mut check)? {
                    return Ok(Ending::Broken { step, sentence });
                }
            }
            // The end field: a byte after it still refuses the trace. No event comes before the sizes.
            _ => {}
        }
    }
}

/// "After a whole trace it prints `end`, how many records are free, the closed-cycle number."
pub fn whole(out: &mut impl Write, pool: Option<&Pool>) -> io::Result<Ending> {
    if let Some(pool) = pool {
        writeln!(out, "end {} {}", pool.free_records(), pool.closed)?;
    }
    Ok(Ending::Whole)
}

/// "after a refusal `refused`, the number, the offset."
pub fn refused(out: &mut impl Write, refusal: Refusal) -> io::Result<Ending> {
    writeln!(out, "refused {} {}", refusal.number, refusal.offset)?;
    Ok(Ending::Refused(refusal))
}

/// "It prints one line for each event: step, answer number, value."
fn one_event(
    pool: &mut Pool,
    step: u32,
    event: Event,
    out: &mut impl Write,
    check: &mut Option<&mut Check>,
) -> io::Result<Result<(), String>> {
    let before = check.is_some().then(|| pool.clone());
    let answer = happen(pool, event);
    let value = answer.value.map_or(0, |Record(number)| number);
    writeln!(out, "{step} {} {value}", answer.number)?;
    Ok(match (check, before) {
        (Some(check), Some(before)) => check.event(&before, event, answer, pool),
        _ => Ok(()),
    })
}

#[cfg(test)]
mod tests {
    use super::*;
    use crate::pool::Sizes;

    fn printed(trace: &[u8]) -> String {
        let mut out = Vec::new();
        replay(trace, &mut out, None).unwrap();
        String::from_utf8(out).unwrap()
    }

    /// "9: the trace stops inside a field or before the end field": wherever a trace is cut, the
    /// whole fields before are replayed, and the offset is that of the field cut or missing.
    #[test]
    fn a_trace_cut_anywhere_is_refused_9() {
        let (w, r) = (0, 0);
        let worker = [Event::Make { w, r }, Event::Store { w, q: 0, f: 0, r }, Event::Drop { w, r }];
        let events = worker.into_iter().chain([Event::Collect; 8]);
        let events = (1..).zip(events).map(|(step, event)| Field::Event { step, event });
        let sizes = Field::of_sizes(Sizes { n: 2, k: 1, w: 1, r: 1, b: 0 });
        let fields = [sizes].into_iter().chain(events).chain([Field::End { count: 11 }]);
        let whole: Vec<u8> = fields.flat_map(|field| field.bytes()).collect();
        let lines: Vec<String> = printed(&whole).lines().map(String::from).collect();
        let starts: Vec<usize> = [0, 11, 20, 31].into_iter().chain((0..9).map(|n| 40 + 7 * n)).collect();
        for length in 0..whole.len() {
            let fields = starts.iter().filter(|start| **start <= length).count() - 1;
            let mut expected: Vec<String> = lines[..fields.saturating_sub(1)].to_vec();
            expected.push(format!("refused 9 {}", starts[fields]));
            assert_eq!(printed(&whole[..length]), expected.join("\n") + "\n", "cut to {length}");
        }
    }
}

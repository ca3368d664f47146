//! Request 3 of document 02, "One file for each worker": parts of a trace, joined.

use crate::pool::Sizes;
use crate::trace::{Field, Reader, Refusal};

/// A part that is whole: its sizes, its sizes field, and its events, each with its step number and
/// its bytes.
struct Part<'a> {
    sizes: Sizes,
    sizes_field: &'a [u8],
    events: Vec<(u32, &'a [u8])>,
}

/// "One to nine parts are lent end to end in one slice, with a table of their lengths, and a second
/// slice is written": what is written there, if it has room for so many bytes.
///
/// "Refusals, in this order: 1 ..; then part by part ..; 15 if two parts differ in sizes; 10 if the
/// joined numbers aren't 1 to n; 16 if the slice written to is too short."
pub fn join(slice: &[u8], lengths: &[u64], room: usize) -> Result<Vec<u8>, Refusal> {
    let mut parts = Vec::new();
    for (start, bytes) in lent(slice, lengths).ok_or(of_no_field(1))? {
        parts.push(read(bytes).map_err(|refusal| Refusal { offset: start + refusal.offset, ..refusal })?);
    }
    if parts.iter().any(|part| part.sizes != parts[0].sizes) {
        return Err(of_no_field(15));
    }
    let mut events: Vec<(u32, &[u8])> = parts.iter().flat_map(|part| &part.events).copied().collect();
    events.sort_by_key(|(step, _)| *step);
    if !events.iter().map(|(step, _)| *step).eq((1..).take(events.len())) {
        return Err(of_no_field(10));
    }
    let joined = joined(parts[0].sizes_field, &events);
    if room < joined.len() {
        return Err(of_no_field(16));
    }
    Ok(joined)
}

/// "Those of no field have place 0."
fn of_no_field(number: u8) -> Refusal {
    Refusal { number, offset: 0 }
}

/// Each part with the place where it begins; nothing "if the parts aren't one to nine or their
/// lengths don't add up to the slice".
fn lent<'a>(slice: &'a [u8], lengths: &[u64]) -> Option<Vec<(usize, &'a [u8])>> {
    let sum: u128 = lengths.iter().map(|length| u128::from(*length)).sum();
    if !(1..=9).contains(&lengths.len()) || sum != slice.len() as u128 {
        return None;
    }
    let mut start = 0;
    let part = |length: &u64| {
        let end = start + *length as usize;
        let part = (start, &slice[start..end]);
        start = end;
        part
    };
    Some(lengths.iter().map(part).collect())
}

/// "part by part 01's field refusals in 01's order": a whole part.
fn read(bytes: &[u8]) -> Result<Part<'_>, Refusal> {
    let mut reader = Reader::of_part(bytes);
    let none = Sizes { n: 0, k: 0, w: 0, r: 0, b: 0 };
    let mut part = Part { sizes: none, sizes_field: &[], events: Vec::new() };
    loop {
        let (start, _) = reader.at();
        let field = reader.next_field()?;
        let (end, _) = reader.at();
        match field {
            Some(Field::Sizes { sizes, .. }) => (part.sizes, part.sizes_field) = (sizes, &bytes[start..end]),
            Some(Field::Event { step, .. }) => part.events.push((step, &bytes[start..end])),
            // A byte after the end field still refuses the part.
            Some(Field::End { .. }) => {}
            None => return Ok(part),
        }
    }
}

/// "The joined trace has the first part's sizes field, then every event of every part once, byte for
/// byte, then its end field."
fn joined(sizes_field: &[u8], events: &[(u32, &[u8])]) -> Vec<u8> {
    let mut joined = sizes_field.to_vec();
    events.iter().for_each(|(_, bytes)| joined.extend(*bytes));
    joined.extend(Field::End { count: events.len() as u32 }.bytes());
    joined
}

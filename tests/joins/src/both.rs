//! Parts joined by the second program and by the library: the same answer, the same place, and the
//! same bytes in the slice that is written, behind the joined trace too.

use std::io;

use second::join::join;
use second::pool::Sizes;
use second::replay::{replay, Ending};
use second::trace::{in_range, replay_takes, well_formed, Field, Reader, Refusal};
use yuyarisun::{join_into, Unjoined, Within};

/// What both make of the parts: the joined trace, or why there is none and where.
pub type Joined = Result<Vec<u8>, Refusal>;

pub fn hold(holds: bool, told: impl FnOnce() -> String) -> Result<(), String> {
    if holds {
        Ok(())
    } else {
        Err(told())
    }
}

/// Parts of these lengths, joined into a slice with anything in it.
pub fn compare(slice: &[u8], lengths: &[u64], before: &[u8]) -> Result<Joined, String> {
    let expected = join(slice, lengths, before.len());
    let mut out = before.to_vec();
    let found = join_into(slice, lengths, &mut out);
    match (&expected, found) {
        (Ok(joined), Ok(length)) if length == joined.len() => read_again(joined)?,
        (Err(refusal), Err(unjoined)) => same_refusal(*refusal, unjoined, slice, lengths)?,
        _ => return Err(format!("answered {found:?} and not {}", words_of(&expected))),
    }
    let mut after = before.to_vec();
    if let Ok(joined) = &expected {
        after[..joined.len()].copy_from_slice(joined);
    }
    if let Some(at) = (0..after.len()).find(|at| after[*at] != out[*at]) {
        return Err(format!("the output at {at} is {} and should be {}", out[at], after[at]));
    }
    Ok(expected)
}

fn words_of(joined: &Joined) -> String {
    match joined {
        Ok(joined) => format!("a trace of {} bytes", joined.len()),
        Err(refusal) => format!("{refusal:?}"),
    }
}

fn same_refusal(refusal: Refusal, found: Unjoined, slice: &[u8], lengths: &[u64]) -> Result<(), String> {
    let number = u16::from(refusal.number);
    let same = found.refusal.number() == number && found.place == refusal.offset;
    hold(same, || format!("answered {found:?} and not {refusal:?}"))?;
    let within = refused_part(slice, lengths);
    hold(found.within == within, || format!("refused within {:?} and not {within:?}", found.within))
}

/// The first part that the second program's reader does not take, if the parts lie end to end.
fn refused_part(slice: &[u8], lengths: &[u64]) -> Option<Within> {
    let sum: u128 = lengths.iter().copied().map(u128::from).sum();
    if !(1..=9).contains(&lengths.len()) || sum != slice.len() as u128 {
        return None;
    }
    let mut rest = slice;
    lengths.iter().enumerate().find_map(|(part, length)| {
        let (bytes, behind) = rest.split_at(*length as usize);
        rest = behind;
        refused_at(Reader::of_part(bytes)).map(|place| Within { part, place })
    })
}

/// Where a reader stops, unless it comes to the end.
fn refused_at(mut reader: Reader) -> Option<usize> {
    loop {
        match reader.next_field() {
            Ok(Some(_)) => {}
            Ok(None) => return None,
            Err(refusal) => return Some(refusal.offset),
        }
    }
}

/// "01's reader takes it", with the ranges of its section "Sizes"; the program `replay` has smaller
/// ones, and answers 1 beyond.
fn read_again(joined: &[u8]) -> Result<(), String> {
    let refused = refused_at(Reader::taking(joined, &in_range));
    hold(refused.is_none(), || format!("the joined trace is refused at {refused:?}"))?;
    let replayed = replay(joined, &mut io::sink(), None).map_err(|error| error.to_string())?;
    let expected = match sizes_of(joined) {
        Some(sizes) if replay_takes(sizes) => Ending::Whole,
        _ => Ending::Refused(Refusal { number: 1, offset: 0 }),
    };
    hold(replayed == expected, || format!("replay ends with {replayed:?} and not {expected:?}"))
}

/// The sizes that a trace begins with.
pub fn sizes_of(trace: &[u8]) -> Option<Sizes> {
    match well_formed(trace) {
        Some(Field::Sizes { sizes, .. }) => Some(sizes),
        _ => None,
    }
}
